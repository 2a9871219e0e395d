"""Draws programs that move pointers about, and use them in and outside their chunks.

x19 to x21 have three chunks, the pool of drawing.py has pointers and numbers, x24 is a pointer that
is made for one access, x25 and x26 are for copies.
"""

import random
from dataclasses import dataclass, field

from tests.reference.drawing import POOL, word
from tests.reference.moments import ALL
from tests.reference.origins import LOST, Sum
from tests.reference.programs import CALLOC, EXIT, FREE, MALLOC, MEMALIGN, READ, REALLOC, WRITE
from tests.reference.provenance import Chunk, Provenance
from tests.support.instructions import SERVICE, add, call, copy, move

CHUNKS = (19, 20, 21)
USED, BYTE, NUMBER = 24, 25, 26
SP = 31
STACK = 0x3FFFFE00
SIZES = (24, 37, 40, 44, 60, 72, 103, 201)


@dataclass
class Pointers:
    """A program as it is drawn, and the sizes of its chunks."""

    source: random.Random
    words: list[int] = field(default_factory=list)
    sizes: dict[int, int] = field(default_factory=dict)

    def put(self, *parts: "int | list[int]") -> None:
        """Adds instructions."""
        for it in parts:
            self.words += [it] if isinstance(it, int) else it


def begin(it: Pointers) -> None:
    """Three chunks and a frame; the pool has pointers to them, and a number."""
    for register in CHUNKS:
        size = it.source.choice(SIZES)
        kind = it.source.choice((MALLOC, MALLOC, CALLOC, MEMALIGN))
        arguments = {MALLOC: (size,), CALLOC: (size, 1), MEMALIGN: (16, size)}[kind]
        it.put(call(kind, *arguments), copy(register, 0))
        it.sizes[register] = size
    it.put(add(SP, SP, -0x400))
    for register in POOL:
        it.put(copy(register, it.source.choice(CHUNKS)))
    it.put(move(it.source.choice(POOL), it.source.randrange(4096, 1 << 20)))


def two(it: Pointers) -> tuple[int, int, int]:
    """Three registers of the pool."""
    first, second, third = it.source.sample(POOL, 3)
    return first, second, third


def arithmetic(it: Pointers) -> None:
    """Sums, differences, masks, selections, moves, and products; from some of them their factor is
    taken twice."""
    source = it.source
    rd, rn, rm = two(it)
    op = source.randrange(2)
    tripled = [*move(NUMBER, 3), word("mul_add", sf=1, rm=NUMBER, ra=31, rn=rn, rd=rd)]
    choices: list[int | list[int]] = [
        copy(rd, rn), add(rd, rn, source.randrange(-64, 64)),
        word("add_sub_shift", sf=1, op=op, rm=rm, rn=rn, rd=rd),
        word("add_sub_shift", sf=1, op=op, rm=rm, rn=rn, rd=rd),
        word("add_sub_ext", sf=1, op=op, option=3, rm=rm, rn=rn, rd=rd),
        word("log_imm", sf=1, n=1, immr=60, imms=59, rn=rn, rd=rd),
        word("log_imm", sf=1, n=1, immr=0, imms=55, rn=rn, rd=rd),
        word("log_imm", sf=1, opc=1, n=1, immr=0, imms=source.randrange(3), rn=rn, rd=rd),
        word("cond_sel", sf=1, cond=source.randrange(16), o2=source.randrange(2), rm=rm, rn=rn,
             rd=rd),
        word("add_g", op=op, uimm6=source.randrange(4), uimm4=source.randrange(3), rn=rn, rd=rd),
        tripled, [*tripled, *[word("add_sub_shift", sf=1, op=1, rm=rn, rn=rd, rd=rd)] * 2],
    ]
    it.put(source.choice(choices))
    if source.random() < 0.2:
        it.put(word("add_sub_shift", sf=1, op=1, s=1, rm=rm, rn=rn, rd=31))


def difference_and_back(it: Pointers) -> None:
    """A difference of two pointers, and a sum with a third."""
    rd, rn, rm = two(it)
    it.put(word("add_sub_shift", sf=1, op=1, rm=rm, rn=rn, rd=rd))
    base = it.source.choice((rm, rm, rn))
    it.put(word("add_sub_shift", sf=1, rm=base, rn=rd, rd=rd))


def place(it: Pointers, size: int) -> tuple[int, int]:
    """A live chunk or the frame, and an aligned place in it."""
    base = it.source.choice([*it.sizes, SP])
    room = 0x100 if base == SP else it.sizes[base]
    return base, size * it.source.randrange(room // size or 1)


def words_in_memory(it: Pointers) -> None:
    """A pointer is stored and loaded again: as a word, in a pair, or by parts to another place."""
    source = it.source
    rd, rn, rm = two(it)
    way = source.choice(("word", "pair", "parts", "index", "cleared"))
    base, at = place(it, {"pair": 16, "cleared": 16 * source.randrange(1, 3)}.get(way, 8))
    if way == "pair":
        it.put(word("pair_off", opc=2, imm7=at // 8, rt=rn, rt2=rm, rn=base),
               word("pair_off", opc=2, l=1, imm7=at // 8, rt=rd, rt2=rm, rn=base))
        return
    it.put(word("ld_st_imm", size=3, opc=0, imm12=at // 8, rn=base, rt=rn))
    if way == "parts":
        by_parts(it, base, at, rd)
        return
    if way == "cleared" and base != SP:
        it.put(word("st_g", opc=source.choice((1, 1, 3) if at + 32 <= it.sizes[base] else (1,)),
                    mode=2, imm9=at // 16, rn=base, rt=base))
    if way == "index":
        it.put(move(NUMBER, at // 8),
               word("ld_st_reg", size=3, opc=1, rm=NUMBER, option=3, s=1, rn=base, rt=rd))
    else:
        it.put(word("ld_st_imm", size=3, opc=1, imm12=at // 8, rn=base, rt=rd))


def by_parts(it: Pointers, base: int, at: int, rd: int) -> None:
    """Copies a word by parts of 1, 2 or 4 bytes."""
    size = it.source.randrange(3)
    target = 0x200 + 8 * it.source.randrange(8)
    for part in range(0, 8, 1 << size):
        it.put(word("ld_st_imm", size=size, opc=1, imm12=(at + part) >> size, rn=base, rt=BYTE),
               word("ld_st_imm", size=size, opc=0, imm12=(target + part) >> size, rn=SP, rt=BYTE))
    it.put(word("ld_st_imm", size=3, opc=1, imm12=target // 8, rn=SP, rt=rd))


def load_again(it: Pointers) -> None:
    """A word that may have been stored long before."""
    base, at = place(it, 8)
    it.put(word("ld_st_imm", size=3, opc=1, imm12=at // 8, rn=base, rt=it.source.choice(POOL)))


def heap_call(it: Pointers) -> None:
    """A chunk is freed or gets another size; a block is used again."""
    source = it.source
    register = source.choice(CHUNKS)
    size = it.sizes.get(register)
    if size is None:
        it.sizes[register] = size = source.choice(SIZES)
        it.put(call(MALLOC, size), copy(register, 0))
    elif source.random() < 0.5 and len(it.sizes) > 1:
        it.put(copy(0, register), move(8, FREE), SERVICE)
        del it.sizes[register]
        if source.random() < 0.6:
            it.put(call(MALLOC, size), copy(register, 0))
            it.sizes[register] = size
    else:
        old, size = size, source.choice((*SIZES, max(size - 4, 24), size + 4))
        # The last word that is moved has a pointer that its value does not tell of.
        last = {"size": 3, "imm12": min(old, size) // 8 - 1, "rn": register, "rt": USED}
        it.put(add(USED, source.choice(POOL), 0x7F0), word("ld_st_imm", opc=0, **last),
               copy(0, register), move(1, size), move(8, REALLOC), SERVICE, copy(register, 0),
               word("ld_st_imm", opc=1, **last), add(source.choice(POOL), USED, -0x7F0))
        it.sizes[register] = size


def draw(seed: int, length: int = 24) -> Pointers:
    """A program without its end, whose accesses are all in their chunks."""
    source = random.Random(seed)
    it = Pointers(source)
    begin(it)
    acts = (arithmetic, difference_and_back, words_in_memory, heap_call, load_again)
    for _ in range(length):
        source.choices(acts, (10, 3, 8, 2, 2))[0](it)
    return it


# ---- the end


def made_for(it: Pointers, register: int, value: int, target: int) -> None:
    """x24 becomes the register's pointer, moved to a target by a number."""
    it.put(move(NUMBER, (target - value) & ALL),
           word("add_sub_shift", sf=1, rm=NUMBER, rn=register, rd=USED))


def accesses_in_chunks(it: Pointers, state: Provenance, values: tuple[int, ...]) -> None:
    """An access in a live chunk by each register of the pool that has a pointer or has lost it."""
    live = [chunk for chunk in state.chunks.values() if chunk.freed is None]
    for register in POOL:
        origin = state.registers[register]
        chunk = state.chunks[origin.chunk] if isinstance(origin, Sum) and origin.chunk else None
        if origin == LOST:
            chunk = it.source.choice(live)
        if chunk and chunk.freed is None:
            made_for(it, register, values[register],
                     chunk.pointer + it.source.randrange(chunk.size - 7))
            it.put(word("ld_st_imm", size=3, opc=1, imm12=0, rn=USED, rt=BYTE))


def end(it: Pointers, state: Provenance, values: tuple[int, ...]) -> None:
    """Accesses in their chunks, and one that is not, by a pointer that is known."""
    accesses_in_chunks(it, state, values)
    known = [(register, origin.chunk) for register in POOL
             if isinstance(origin := state.registers[register], Sum) and origin.chunk]
    lost = [register for register in POOL if state.registers[register] == LOST]
    if lost and it.source.random() < 0.6:
        chunk = it.source.choice([it for it in state.chunks.values() if it.freed is None])
        found_again(it, chunk, (lost[0], values[lost[0]]), it.source.randrange(2))
        wrong_use(it, state, chunk, (USED, chunk.pointer))
    elif known:
        register, number = it.source.choice(known)
        assert number is not None
        wrong_use(it, state, state.chunks[number], (register, values[register]))
    it.put(move(0, 0), move(8, EXIT), SERVICE)


def found_again(it: Pointers, chunk: Chunk, lost: tuple[int, int], tag: int) -> None:
    """A value that has lost its origin is stored and loaded where it is a chunk's pointer, or one
    with another tag, which is then taken off again."""
    made_for(it, *lost, chunk.pointer ^ tag << 56)
    it.put(word("ld_st_imm", size=3, opc=0, imm12=60, rn=SP, rt=USED),
           word("ld_st_imm", size=3, opc=1, imm12=60, rn=SP, rt=USED))
    if tag:
        made_for(it, USED, chunk.pointer ^ tag << 56, chunk.pointer)


def wrong_use(it: Pointers, state: Provenance, chunk: Chunk, used: tuple[int, int]) -> None:
    """Where the access is: over the end, in another chunk, or in the stack. Some are allowed."""
    source = it.source
    others = [other for other in state.chunks.values()
              if other.freed is None and other.number != chunk.number]
    kind = source.choice(("end", "end", "end", "end", "other", "other", "stack"))
    size = 1 << source.randrange(4)
    if kind == "end" and chunk.freed is None and chunk.size % 16:
        # Up to the last byte of the granule, which has the chunk's tag.
        last = chunk.pointer + (chunk.size | 15) + 1
        target = source.randrange(chunk.pointer + chunk.size - size, last - size + 1)
        over = [it for it in (2, 4, 8) if chunk.size % it]
        if over and source.random() < 0.5:
            # An aligned word that begins in the chunk and ends after it.
            size = source.choice(over)
            target = chunk.pointer + chunk.size - chunk.size % size
        room = last - target
    elif others and kind != "stack":
        other = source.choice(others)
        target, room = other.pointer + 8 * source.randrange(2), 16
    else:
        target, room = STACK + source.randrange(32), 64
    made_for(it, used[0], used[1], target)
    access(it, size, room)


def access(it: Pointers, size: int, room: int) -> None:
    """One access by x24, of so many bytes where there is room for no more."""
    source = it.source
    width, load = size.bit_length() - 1, source.randrange(2)
    common = {"size": width, "opc": load, "rn": USED, "rt": BYTE}
    ways = [[word("ld_st_imm", **common)], [word("ld_st_unscaled", **common)],
            [word("ld_st_post", imm9=source.randrange(-8, 8), **common)],
            [add(USED, USED, -8), word("ld_st_pre", imm9=8, **common)],
            [add(USED, USED, -40), *move(NUMBER, 40),
             word("ld_st_reg", rm=NUMBER, option=3, **common)],
            [add(USED, USED, -40), *move(NUMBER, 40),
             word("ld_st_reg", **{**common, "rn": NUMBER}, rm=USED, option=3)]]
    service = source.choice((WRITE, READ))
    ways.append([copy(0, USED), *move(1, size), *move(8, service), SERVICE])
    if size >= 4 and room >= 2 * size:
        opc = 2 if size == 8 else 0
        pair = word("pair_off", opc=opc, l=load, rn=USED, rt=BYTE, rt2=10)
        ways += [[pair], [pair], [pair]]
    it.put(source.choice(ways))
