"""The fields of instruction words, by the rows of isa/a64.rows."""

import functools
from dataclasses import dataclass
from typing import Optional

from disassembly.rows import ROWS

# Fields that are signed, by their widths.
SIGNED = {"imm9": 9, "imm7": 7, "imm19": 19, "imm26": 26, "imm14": 14, "immhi": 19}
SP = 31


@dataclass(frozen=True)
class Instruction:
    """The name of the word's row, and its fields: signed ones have their sign."""

    word: int
    row: str
    fields: dict[str, int]

    def __getitem__(self, name: str) -> int:
        return self.fields[name]

    @property
    def bits(self) -> int:
        """The width of its operands, by the field `sf`; without the field 64."""
        return 64 if self.fields.get("sf", 1) else 32


def fields_of(word: int, listed: str) -> dict[str, int]:
    """The fields of a row in a word."""
    found: dict[str, int] = {}
    words = listed.replace(":", " ").split()
    for name, bit, width in zip(words[::3], words[1::3], words[2::3]):
        value = word >> int(bit) & ((1 << int(width)) - 1)
        if name in SIGNED and value >> int(width) - 1:
            value -= 1 << int(width)
        found[name] = value
    return found


def fixed_bits(listed: str) -> int:
    """The bits that no field of a row has."""
    mask = (1 << 32) - 1
    words = listed.replace(":", " ").split()
    for bit, width in zip(words[1::3], words[2::3]):
        mask &= ~(((1 << int(width)) - 1) << int(bit))
    return mask


FIXED = [(name, base, fixed_bits(listed), listed, allows) for name, base, listed, allows in ROWS]


@functools.cache
def decode(word: int) -> Optional[Instruction]:
    """The instruction of a word, None where no row has it."""
    for name, base, mask, listed, allows in FIXED:
        if word & mask == base:
            fields = fields_of(word, listed)
            if allows is None or allows(fields):
                return Instruction(word, name, fields)
    return None


def sign_extended(value: int, bits: int) -> int:
    """A number of so many bits as one of 64 bits."""
    low = value & ((1 << bits) - 1)
    return (low - ((low >> bits - 1) << bits)) & ((1 << 64) - 1)


def logical_mask(n: int, immr: int, imms: int, bits: int) -> int:
    """The immediate of AND, ORR and EOR (Arm ARM DDI 0487, DecodeBitMasks)."""
    size = 1 << ((n << 6 | ~imms & 63).bit_length() - 1)
    ones, turn = (imms & size - 1) + 1, immr & size - 1
    element = rotated((1 << ones) - 1, turn, size)
    return sum(element << at for at in range(0, bits, size))


def rotated(value: int, by: int, bits: int) -> int:
    """A number rotated to the right."""
    by %= bits
    return (value >> by | value << bits - by) & ((1 << bits) - 1)
