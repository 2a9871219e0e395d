"""Draws programs that compute with undefined values of chunks and of the stack.

Registers: the pool of drawing.py has numbers, x19 and x20 have the chunks A and B, x21 is a pointer
that accesses move, x22 is an index, x24 and x25 are for a use, x26 to x28 are those of loops.
"""

import random
from dataclasses import dataclass, field

from tests.reference.drawing import POOL, data_word, with_shared_operand, word
from tests.support.instructions import NOTHING, SERVICE, add, call, copy, move, store

A, B, POINTER, INDEX, LEFT = 19, 20, 21, 22, 24
SP = 31
EXIT, WRITE, READ, MALLOC, FREE, CALLOC, REALLOC, MEMALIGN, USABLE_SIZE = range(9)
# A branch, a comparison with zero and a test of a bit, each to the next instruction.
NEXT = 1


@dataclass
class Program:
    """A program as it is drawn: its words, the sizes of its chunks and of its frame."""

    source: random.Random
    words: list[int] = field(default_factory=list)
    sizes: dict[int, int] = field(default_factory=dict)
    frame: int = 0

    def put(self, *parts: "int | list[int]") -> None:
        """Adds instructions."""
        for it in parts:
            self.words += [it] if isinstance(it, int) else it


def number(source: random.Random) -> int:
    """A constant: one of all bits, a small one, or a mask of a few bits."""
    return source.choice([source.getrandbits(64), source.randrange(64), 1 << source.randrange(64),
                          source.getrandbits(64) & source.getrandbits(64)])


def fill(program: Program, base: int, size: int) -> None:
    """A loop that stores drawn bytes: in words by a post-indexed store."""
    start = [word("ld_st_post", size=3, opc=0, imm9=8, rn=26, rt=27),
             word("add_sub_shift", sf=1, imm6=program.source.randrange(1, 30), rm=27, rn=27, rd=27),
             word("add_sub_imm", sf=1, op=1, s=1, imm12=1, rn=28, rd=28),
             word("branch_cond", imm19=-3, cond=1)]
    program.put(copy(26, base), move(27, program.source.getrandbits(64) | 1),
                move(28, size // 8), start)


def make_chunk(program: Program, register: int) -> None:
    """A new chunk, most often in a block that has had other bytes."""
    source = program.source
    size = source.choice((40, 64, 72, 96, 136, 200))
    if source.random() < 0.8:
        program.put(call(MALLOC, size), copy(register, 0))
        fill(program, register, size)
        program.put(copy(0, register), move(8, FREE), SERVICE)
    kind = source.choice((MALLOC, MALLOC, MALLOC, CALLOC, MEMALIGN))
    arguments = {MALLOC: (size,), CALLOC: (size // 8, 8), MEMALIGN: (16, size)}[kind]
    program.put(call(kind, *arguments), copy(register, 0))
    program.sizes[register] = size


def resize(program: Program, register: int) -> None:
    """`realloc` of a chunk."""
    size = program.source.choice((24, 40, 56, 100, 180, 260))
    program.put(copy(0, register), move(1, size), move(8, REALLOC), SERVICE, copy(register, 0))
    program.sizes[register] = size


def open_frame(program: Program) -> None:
    """SP moves down, over bytes that had been stored."""
    size = program.source.choice((32, 48, 64))
    program.put(add(SP, SP, -size), move(27, program.source.getrandbits(64)),
                [store(27, SP, at) for at in range(0, size, 8)], add(SP, SP, size),
                add(SP, SP, -size))
    program.frame += size
    program.sizes[SP] = program.frame


def close_frame(program: Program) -> None:
    """SP moves up again."""
    program.put(add(SP, SP, program.frame))
    program.frame = 0
    program.sizes.pop(SP)


def place(program: Program, bytes_: int) -> tuple[int, int]:
    """A chunk or the frame, and an offset at which so many bytes are in it."""
    base = program.source.choice(list(program.sizes))
    return base, program.source.randrange(program.sizes[base] - bytes_ + 1)


def single(program: Program) -> None:
    """A load or a store of a register, in one of the ways that an address is made."""
    source = program.source
    size = source.randrange(4)
    opc = source.choice({0: (0, 1, 2, 3), 1: (0, 1, 2, 3), 2: (0, 1, 2), 3: (0, 1)}[size])
    base, at = place(program, 1 << size)
    common = {"size": size, "opc": opc, "rt": source.choice((*POOL, 31) if opc == 0 else POOL)}
    way = source.choice(("imm", "unscaled", "post", "pre", "reg"))
    if way == "imm":
        program.put(word("ld_st_imm", imm12=at >> size, rn=base, **common))
    elif way == "unscaled" and at < 256:
        program.put(word("ld_st_unscaled", imm9=at, rn=base, **common))
    elif way == "reg":
        index(program, base, at, common)
    else:
        moved = source.randrange(-16, 17)
        start = at - moved if way == "pre" else at
        program.put(add(POINTER, base, start))
        row = "ld_st_pre" if way == "pre" else "ld_st_post"
        program.put(word(row, imm9=moved, rn=POINTER, **common))


def index(program: Program, base: int, at: int, common: dict[str, int]) -> None:
    """A register offset, of 32 or 64 bits, shifted or not; above the 32 bits are others."""
    option, is_scaled = program.source.choice((2, 3, 6, 7)), program.source.randrange(2)
    at = at >> common["size"] if is_scaled else at
    above = program.source.getrandbits(32) << 32 if option in (2, 6) else 0
    program.put(move(INDEX, at | above))
    if program.source.random() < 0.3 and option in (2, 6):
        program.put(word("bitfield", sf=1, opc=1, n=1, immr=32, imms=31, rd=INDEX,
                         rn=program.source.choice(POOL)))
    program.put(word("ld_st_reg", rm=INDEX, option=option, s=is_scaled, rn=base, **common))


def pair(program: Program) -> None:
    """A pair; some store a tag too."""
    source = program.source
    opc, load = source.choice(((0, 0), (0, 1), (2, 0), (2, 1), (2, 0), (2, 1), (1, 1)))
    size = 8 if opc == 2 else 4
    base, at = place(program, 2 * size)
    rt, rt2 = source.sample(POOL, 2)
    common = {"opc": opc, "l": load, "rt": rt, "rt2": rt2}
    way = source.choice(("off", "post", "pre"))
    if way == "off":
        program.put(word("pair_off", imm7=at // size, rn=base, **common))
        return
    imm7 = source.randrange(-3, 4)
    program.put(add(POINTER, base, at - imm7 * size if way == "pre" else at))
    program.put(word(f"pair_{way}", imm7=imm7, rn=POINTER, **common))


def granules(program: Program) -> None:
    """Stores of tags to whole granules of a chunk, with or without data."""
    source = program.source
    base = source.choice([it for it in program.sizes if it != SP])
    opc = source.randrange(4 if program.sizes[base] >= 32 else 2)
    count = 2 if opc > 1 else 1
    at = source.randrange(program.sizes[base] // 16 - count + 1)
    if source.random() < 0.4:
        rt, rt2 = source.sample(POOL, 2)
        program.put(word("st_g_p", mode=2, imm7=at, rt=rt, rt2=rt2, rn=base))
    else:
        program.put(word("st_g", opc=opc, mode=2, imm9=at, rn=base, rt=base))


def others(program: Program) -> None:
    """A load from the image, a load of a tag, and branches to the next instruction."""
    source = program.source
    rt = source.choice(POOL)
    base = source.choice([it for it in program.sizes if it != SP])
    program.put(source.choice([
        word("ld_lit", opc=source.randrange(3), imm19=source.randrange(-8, 1), rt=rt),
        word("ldg", imm9=0, rn=base, rt=rt), word("branch", op=source.randrange(2), imm26=NEXT),
        word("hint", imm7=0)]))


def undefined_value(program: Program) -> None:
    """A load of undefined bytes, of which a mask leaves some."""
    base, at = place(program, 8)
    target = program.source.choice(POOL)
    program.put(word("ld_st_imm", size=3, opc=1, imm12=at >> 3, rn=base, rt=target),
                move(LEFT, number(program.source)),
                word("log_shift", sf=1, opc=program.source.choice((0, 0, 1)), rm=LEFT, rn=target,
                     rd=target))


def defined_value(program: Program) -> None:
    """A constant."""
    program.put(move(program.source.choice(POOL), number(program.source)))


def input_bytes(program: Program) -> None:
    """Service 2 writes bytes."""
    size = program.source.randrange(1, 20)
    base, at = place(program, size)
    program.put(add(0, base, at), move(1, size), move(8, READ), SERVICE)


def drawn_use(program: Program) -> None:
    """A branch to the next instruction, or output."""
    source = program.source
    kind = source.randrange(4)
    if kind == 0:
        program.put(word("branch_cond", imm19=NEXT, cond=source.randrange(16)))
    elif kind == 1:
        program.put(word("cmp_branch", sf=source.randrange(2), op=source.randrange(2), imm19=NEXT,
                         rt=source.choice(POOL)))
    elif kind == 2:
        program.put(word("test_branch", b5=source.randrange(2), op=source.randrange(2),
                         b40=source.randrange(32), imm14=NEXT, rt=source.choice(POOL)))
    else:
        base, at = place(program, 8)
        program.put(add(0, base, at), move(1, source.randrange(9)), move(8, WRITE), SERVICE)


ACTS = ((data_word, 40), (single, 12), (pair, 6), (granules, 2), (undefined_value, 8),
        (defined_value, 6), (input_bytes, 1), (others, 3), (with_shared_operand, 1))
WORDS = (data_word, with_shared_operand)


def draw(seed: int, length: int = 40, uses: float = 0.3) -> Program:
    """A program without its end. Some have uses that are drawn without a look at what is
    undefined."""
    source = random.Random(seed)
    program = Program(source)
    make_chunk(program, A)
    make_chunk(program, B)
    for register in POOL:
        program.put(move(register, number(source)))
    open_frame(program)
    for _ in range(3):
        undefined_value(program)
    share = 0.03 if source.random() < uses else 0
    acts, weights = zip(*ACTS)
    for at in range(length):
        act = source.choices(acts, weights)[0]
        program.put(act(source)) if act in WORDS else act(program)
        if at == length // 2 and source.random() < 0.5:
            resize(program, source.choice((A, B)))
        if source.random() < share:
            drawn_use(program)
    program.put(NOTHING)
    return program
