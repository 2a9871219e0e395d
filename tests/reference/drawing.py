"""Draws instruction words of the rows of isa/a64.rows over a pool of registers."""

import random
from collections.abc import Iterable

from tests.support.drawn_words import Row
from disassembly.rows import ROWS

TABLE = {data[0]: Row(data) for data in ROWS}
POOL = (1, 2, 3, 4, 5, 6, 7, 10, 11, 12)
ZERO = 31
# Data processing, by how often each row is drawn.
DATA = ("add_sub_imm", "add_sub_shift", "add_sub_shift", "add_sub_ext", "log_imm", "log_imm",
        "log_shift", "log_shift", "move_wide", "bitfield", "bitfield", "extr", "adr", "adc_sbc",
        "adc_sbc", "cond_cmp", "cond_cmp", "cond_sel", "cond_sel", "two_source", "one_source",
        "one_source", "mul_add", "mul_add_long", "mul_high", "sub_p", "add_g", "gmi", "irg")
# Rows where register 31 is SP.
WITH_SP = {"add_sub_imm": ("rn", "rd"), "add_sub_ext": ("rn", "rd"), "log_imm": ("rd",),
           "sub_p": ("rn", "rm"), "add_g": ("rn", "rd"), "gmi": ("rn",), "irg": ("rn", "rd")}


def word(row: str, **fields: int) -> int:
    """The word of a row with its fields; a negative one is signed."""
    it = TABLE[row]
    values = {name: fields.pop(name, 0) & (1 << width) - 1 for name, _, width in it.fields}
    assert not fields, (row, fields)
    made = it.word(values)
    assert it.has(made), (row, values)
    return made


def register(source: random.Random, row: str, name: str, others: Iterable[int]) -> int:
    """A register of the pool that no other field has, or sometimes zero."""
    if source.random() < 0.06 and name not in WITH_SP.get(row, ()):
        return ZERO
    return source.choice([it for it in POOL if it not in others])


def data_word(source: random.Random) -> int:
    """An instruction of data processing."""
    row = source.choice(DATA)
    it = TABLE[row]
    while True:
        values: dict[str, int] = {}
        for name, _, width in it.fields:
            if name in ("rn", "rm", "ra"):
                values[name] = register(source, row, name, values.values())
            elif name == "rd":
                values[name] = register(source, row, name, ())
            else:
                values[name] = source.randrange(1 << width)
        if row == "add_sub_imm" and source.random() < 0.5:
            values["imm12"] >>= 8
        if row in ("two_source", "one_source"):
            values["opcode"] = source.choice((2, 3, 8, 9, 10, 11) if row == "two_source"
                                             else range(6))
        made = it.word(values)
        if it.has(made) and all(other is it or not other.has(made) for other in TABLE.values()):
            return made


def with_shared_operand(source: random.Random) -> int:
    """x - (x << n), and the like."""
    rn = source.choice(POOL)
    return word("add_sub_shift", sf=1, op=1, s=source.randrange(2), imm6=source.randrange(1, 40),
                rm=rn, rn=rn, rd=source.choice(POOL))
