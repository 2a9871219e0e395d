"""An image that executes drawn blocks of instructions, in the order that its input says."""

import random
import struct

from tests.support import instructions
from tests.support.drawn_words import Row, draw_fields
from disassembly.rows import ROWS
from compiled_blocks.types import form_of

# What each byte of the input chooses from, and the words of each.
BLOCKS, WORDS = 48, 32
# Blocks compute with x0 to x15. Accesses go out from x25, an address in a chunk of 4096 bytes, by
# x26 at most.
OWN, ADDRESS, OFFSET, LINK = 16, 25, 26, 30
CHUNK, INPUT, LEFT, TARGET = 19, 20, 21, 23
DATA = ("add_sub_imm", "add_sub_shift", "add_sub_ext", "log_imm", "log_shift", "move_wide",
        "bitfield", "extr", "adr", "adc_sbc", "cond_cmp", "cond_sel", "two_source", "one_source",
        "mul_add", "mul_add_long", "mul_high", "hint", "sub_p", "gmi")
ACCESSES = ("ld_st_imm", "ld_st_unscaled", "ld_st_post", "ld_st_pre", "ld_st_reg", "pair_post",
            "pair_off", "pair_pre", "ldg", "st_g")
BRANCHES = ("branch", "branch_cond", "cmp_branch", "test_branch")
TABLE = {data[0]: Row(data) for data in ROWS}
RETURN = 0xD65F0000 | LINK << 5
RESET = instructions.add(ADDRESS, CHUNK, 1024)


def draw_register(source: random.Random) -> int:
    return 31 if source.random() < 0.1 else source.randrange(OWN)


def has_type(source: random.Random, word: int) -> bool:
    """Whether a block may have an instruction; seldom one that may not."""
    return form_of(word) is not None or source.random() < 0.02


def draw_data(source: random.Random) -> int:
    """An instruction between registers."""
    while True:
        row = TABLE[source.choice(DATA)]
        drawn = draw_fields(source, row)
        drawn |= {name: draw_register(source) for name in ("rd", "rn", "rm", "ra") if name in drawn}
        word = row.word(drawn)
        moves_sp = drawn.get("rd") == 31 and row.name in ("add_sub_imm", "log_imm", "add_sub_ext")
        if row.has(word) and has_type(source, word) and not moves_sp:
            return word


def draw_access(source: random.Random) -> list[int]:
    """A load or a store, which seldom leaves the chunk or meets another tag, at an address that may
    have been moved."""
    while True:
        row = TABLE[source.choice(ACCESSES)]
        drawn = draw_fields(source, row) | {"rn": ADDRESS, "rm": OFFSET}
        drawn |= {name: draw_register(source) for name in ("rt", "rt2") if name in drawn}
        begin = [RESET] * (source.random() < 0.5)
        if "imm12" in drawn:
            drawn["imm12"] %= 64
        if row.name in ("ldg", "st_g") and source.random() < 0.98:
            drawn |= {"rt": ADDRESS, "imm9": source.randint(0, 15)}
            begin = [RESET]
        word = row.word({name: drawn[name] for name, _, _ in row.fields})
        if row.has(word) and has_type(source, word):
            return [*begin, word]


def draw_branch(source: random.Random, most: int) -> int:
    """A branch forwards over words of its block."""
    row = TABLE[source.choice(BRANCHES)]
    drawn = draw_fields(source, row)
    drawn |= {name: source.randint(1, most) for name in drawn if name.startswith("imm")}
    drawn |= {name: draw_register(source) for name in ("rt",) if name in drawn}
    # BL would lose the way back.
    return row.word(drawn | ({"op": 0} if row.name == "branch" else {}))


def draw_block(source: random.Random) -> list[int]:
    """The words of a block."""
    length = source.randint(4, WORDS - 4)
    words = [RESET]
    while len(words) < length:
        kind, more = source.random(), length - len(words)
        if kind < 0.6:
            words.append(draw_data(source))
        elif kind < 0.85 or more < 3:
            words += draw_access(source)
        else:
            words.append(draw_branch(source, more - 1))
    return [*words, *[instructions.NOTHING] * source.randint(0, 1), RETURN]


def draw_image(source: random.Random) -> bytes:
    """The image. At its end it writes x0 to x15 and the first bytes of the chunk."""
    begin = [*instructions.call(3, 4096), instructions.add(CHUNK, 0, 0),
             *instructions.call(3, 4096), instructions.add(INPUT, 0, 0),
             *instructions.move(1, 4096), *instructions.move(8, 2), instructions.SERVICE,
             instructions.add(LEFT, 0, 0)]
    for register in range(OWN):
        begin += instructions.move(register, source.getrandbits(64))
    begin += instructions.move(OFFSET, 40)
    # Where the first block is, behind the loop and what comes after it.
    store = [instructions.store(at, CHUNK, 8 * at) for at in range(OWN)]
    ending = [*store, instructions.add(0, CHUNK, 0), *instructions.move(1, 1536),
              *instructions.move(8, 1), instructions.SERVICE, *instructions.call(0, 0)]
    turn = [0x8B000000 | 24 << 16 | (WORDS.bit_length() + 1) << 10 | TARGET << 5 | TARGET,
            0xD63F0000 | TARGET << 5, instructions.add(INPUT, INPUT, 1),
            instructions.subtract_with_flags(LEFT, LEFT, 1), instructions.jump_not_equal(-6)]
    turn = [instructions.load_byte(24, INPUT),
            0x10000000 | (len(turn) + 1 + len(ending)) << 5 | TARGET, *turn]
    blocks: list[int] = []
    for _ in range(BLOCKS):
        block = draw_block(source)
        blocks += block + [instructions.NO_INSTRUCTION] * (WORDS - len(block))
    return instructions.program(begin, turn, ending, blocks)


def with_other_words(source: random.Random, image: bytes, count: int) -> bytes:
    """The image with so many words of its blocks exchanged for drawn ones."""
    made, first = bytearray(image), len(image) - 4 * BLOCKS * WORDS
    for _ in range(count):
        at = first + 4 * (source.randrange(BLOCKS) * WORDS + source.randint(1, 3))
        struct.pack_into("<I", made, at, draw_data(source))
    return bytes(made)
