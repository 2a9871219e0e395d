"""The rows of isa/a64.rows as patterns of fixed bits and fields, from which words are drawn."""
from __future__ import annotations

import pathlib
import random
import re
from dataclasses import dataclass

LINE = re.compile(r"([A-Z]\w*)((?:\s+(?:[a-z]\w*:s?\d+|[01]+))+)\s*$")


@dataclass(frozen=True)
class Row:
    """A row: its name, the mask and value of its fixed bits, and its fields (bit and width)."""

    name: str
    mask: int
    value: int
    fields: tuple[tuple[int, int], ...]

    def has(self, word: int) -> bool:
        """Whether the fixed bits of a word are the row's."""
        return word & self.mask == self.value

    def draw(self, source: random.Random) -> int:
        """A word with these fixed bits. A field is often an end of its range or register 31."""
        word = self.value
        for bit, width in self.fields:
            top = (1 << width) - 1
            ends = [0, top, 31 & top, source.getrandbits(width) & 7]
            drawn = source.choice(ends) if source.random() < 0.25 else source.getrandbits(width)
            word |= drawn << bit
        return word


def read_row(name: str, parts: list[str]) -> Row:
    """The row of a first line: fields (NAME:WIDTH, NAME:sWIDTH) and digits, bit 31 first."""
    bit, mask, value = 32, 0, 0
    fields: list[tuple[int, int]] = []
    for part in parts:
        width = int(part.split(":")[1].lstrip("s")) if ":" in part else len(part)
        bit -= width
        if ":" in part:
            fields.append((bit, width))
        else:
            mask |= (1 << width) - 1 << bit
            value |= int(part, 2) << bit
    if bit != 0:
        raise ValueError(f"{name} has {32 - bit} bits")
    return Row(name, mask, value, tuple(fields))


def read_rows(path: pathlib.Path) -> list[Row]:
    """All rows of the file, in its order."""
    found = [LINE.match(line) for line in path.read_text(encoding="utf-8").splitlines()]
    return [read_row(it[1], it[2].split()) for it in found if it]


def row_of(rows: list[Row], word: int) -> str:
    """The row of a word that is an instruction: of those that fit, the one with the most fixed
    bits, as the manual's tables are read."""
    return max((row for row in rows if row.has(word)), key=lambda row: row.mask.bit_count()).name
