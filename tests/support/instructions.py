"""A few A64 instructions as words (Arm ARM DDI 0487, C6.2), and images of them."""

import sys
from collections.abc import Sequence
from typing import Union

from tests.support.places import EXAMPLES

sys.path.insert(0, str(EXAMPLES))
import build_image  # noqa: E402

CODE: int = build_image.ENTRY
SP, ZERO = 31, 31
NOTHING, SERVICE, NO_INSTRUCTION = 0xD503201F, 0xD4000001, 0x00000000
Words = Union[int, Sequence[int]]


def program(*parts: Words, data: Sequence[tuple[int, int]] = ()) -> bytes:
    """The image of instructions, which begins with them at CODE; further segments of zeros."""
    words: list[int] = []
    for it in parts:
        words += [it] if isinstance(it, int) else it
    made: bytes = build_image.image(words, data)
    return made


def move(register: int, number: int) -> list[int]:
    """MOVZ and as many MOVK as a number needs."""
    quarters = [(at, number >> 16 * at & 0xFFFF) for at in range(4)]
    parts = [it for it in quarters if it[1]] or [(0, 0)]
    first, *others = parts
    return [0xD2800000 | first[0] << 21 | first[1] << 5 | register,
            *(0xF2800000 | at << 21 | it << 5 | register for at, it in others)]


def copy(target: int, source: int) -> int:
    """MOV xT, xS."""
    return 0xAA0003E0 | source << 16 | target


def add(target: int, source: int, number: int) -> int:
    """ADD xT, xS, #N; of a negative number SUB. 31 is SP."""
    return (0x91000000 if number >= 0 else 0xD1000000) | abs(number) << 10 | source << 5 | target


def subtract_with_flags(target: int, source: int, number: int) -> int:
    """SUBS xT, xS, #N."""
    return 0xF1000000 | number << 10 | source << 5 | target


def load(target: int, base: int, offset: int = 0) -> int:
    """LDR xT, [xB, #O]."""
    return 0xF9400000 | offset // 8 << 10 | base << 5 | target


def store(source: int, base: int, offset: int = 0) -> int:
    """STR xS, [xB, #O]."""
    return 0xF9000000 | offset // 8 << 10 | base << 5 | source


def load_byte(target: int, base: int, offset: int = 0) -> int:
    """LDRB wT, [xB, #O]."""
    return 0x39400000 | offset << 10 | base << 5 | target


def store_byte(source: int, base: int, offset: int = 0) -> int:
    """STRB wS, [xB, #O]."""
    return 0x39000000 | offset << 10 | base << 5 | source


def load_pair(first: int, second: int, base: int, offset: int = 0) -> int:
    """LDP xF, xS, [xB, #O]."""
    return 0xA9400000 | offset // 8 << 15 | second << 10 | base << 5 | first


def store_pair(first: int, second: int, base: int, offset: int = 0) -> int:
    """STP xF, xS, [xB, #O]."""
    return 0xA9000000 | offset // 8 << 15 | second << 10 | base << 5 | first


def store_tag(base: int) -> int:
    """STG xB, [xB]."""
    return 0xD9200800 | base << 5 | base


def set_flags(nzcv: int, condition: int) -> int:
    """CCMP x0, #0, #NZCV, C: the flags become NZCV where the condition does not hold."""
    return 0xFA400800 | condition << 12 | nzcv


def jump_not_equal(words: int) -> int:
    """B.NE over a number of words."""
    return 0x54000001 | (words & 0x7FFFF) << 5


def breakpoint_instruction(number: int) -> int:
    """BRK #N."""
    return 0xD4200000 | number << 5


def call(service: int, *arguments: int) -> list[int]:
    """A service with numbers as its arguments."""
    words: list[int] = []
    for register, number in enumerate(arguments):
        words += move(register, number)
    return [*words, *move(8, service), SERVICE]
