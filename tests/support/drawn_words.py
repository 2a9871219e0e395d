"""Draws instruction words of all rows of the table of encodings."""

import random
from collections.abc import Mapping
from dataclasses import dataclass
from typing import Optional

from disassembly.rows import ROWS
from disassembly.rows import Row as Data

# Words of `bitfield` of which few come along: bits 12 to 10 of imms are ones, as where the field is
# a byte, a halfword or a word.
EXTEND: Data = (
    "bitfield", 0x13001C00, "sf 31:1 opc 29:2 n 22:1 immr 16:6 imms 13:2 rn 5:5 rd 0:5", None)


class Row:
    """A row of the table: `fields` are (name, bit, width)."""

    def __init__(self, data: Data) -> None:
        self.name, self.base, fields, self.allows = data
        words = fields.replace(":", " ").split()
        self.fields = [(name, int(bit), int(width))
                       for name, bit, width in zip(words[::3], words[1::3], words[2::3])]

    def word(self, values: Mapping[str, int]) -> int:
        """The word with these fields."""
        return self.base + sum(values[name] << bit for name, bit, _ in self.fields)

    def has(self, word: int) -> bool:
        """Whether the word is an instruction of this row."""
        values = {name: word >> bit & ((1 << width) - 1) for name, bit, width in self.fields}
        return self.word(values) == word and (self.allows is None or self.allows(values))


@dataclass(frozen=True)
class Drawn:
    """A word, and the row that has it, if it is an instruction of the profile."""

    word: int
    row: Optional[str]


def draw_field(source: random.Random, top: int, others: list[int]) -> int:
    """A field's value: often an end of its range, and often near the value of another field."""
    kind = source.random()
    if kind < 0.15:
        return top
    if kind < 0.25:
        return 0
    if kind < 0.30:
        return source.choice([7, 15, 30, 31]) & top
    if kind < 0.40 and others:
        return source.choice(others)
    if kind < 0.45 and others:
        return (source.choice(others) - 1) & top
    return source.randint(0, top)


def draw_fields(source: random.Random, row: Row) -> dict[str, int]:
    """Values of a row's fields."""
    drawn: dict[str, int] = {}
    for name, _, width in row.fields:
        top = (1 << width) - 1
        drawn[name] = draw_field(source, top, [it for it in drawn.values() if it <= top])
    return drawn


def draw_words(source: random.Random, row: Row, table: list[Row], wanted: int) -> list[Drawn]:
    """So many words that are instructions of a row, and those that its fixed bits fit and that no
    row has, as they come along."""
    made: list[Drawn] = []
    while wanted > 0:
        word = row.word(draw_fields(source, row))
        found = next((other.name for other in table if other.has(word)), None)
        if found in (None, row.name):
            wanted -= found is not None
            made.append(Drawn(word, found))
    return made


def draw_all(source: random.Random, count: int) -> list[Drawn]:
    """So many words of all rows, the same number of each."""
    table = [Row(data) for data in ROWS]
    rows = [*table, Row(EXTEND)]
    shares = [count * (number + 1) // len(rows) - count * number // len(rows)
              for number in range(len(rows))]
    return [drawn for row, share in zip(rows, shares)
            for drawn in draw_words(source, row, table, share)]
