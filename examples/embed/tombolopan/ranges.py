"""Tests of arguments. Of a number that does not fit its type, ctypes would pass the low bits."""
from __future__ import annotations

import operator
from collections.abc import Iterable
from typing import SupportsIndex

_LONGEST_DECIMAL = 1 << 24


def _text(number: int) -> str:
    return str(number) if abs(number) <= _LONGEST_DECIMAL else f"{number:#x}"


def in_range(name: str, number: SupportsIndex, low: int, high: int) -> int:
    """The number, where it is `low` to `high`; else ValueError with its name and range.

    >>> in_range("pages", 0, 1, 4096)
    Traceback (most recent call last):
        ...
    ValueError: pages is 0, and not 1 to 4096
    >>> in_range("pages", 2.5, 1, 4096)
    Traceback (most recent call last):
        ...
    TypeError: pages is a number, and not a float
    """
    try:
        value = operator.index(number)
    except TypeError:
        raise TypeError(f"{name} is a number, and not a {type(number).__name__}") from None
    if not low <= value <= high:
        raise ValueError(f"{name} is {_text(value)}, and not {_text(low)} to {_text(high)}")
    return value


def in_bits(name: str, number: SupportsIndex, bits: int) -> int:
    """The number, where so many bits hold it.

    >>> in_bits("nzcv", -1, 32)
    Traceback (most recent call last):
        ...
    ValueError: nzcv is -1, and not 0 to 0xffffffff
    """
    return in_range(name, number, 0, (1 << bits) - 1)


def all_in_bits(name: str, numbers: Iterable[SupportsIndex], bits: int) -> list[int]:
    """Numbers, each of which so many bits hold.

    >>> all_in_bits("stops", [0, 1 << 64], 64)
    Traceback (most recent call last):
        ...
    ValueError: stops[1] is 0x10000000000000000, and not 0 to 0xffffffffffffffff
    """
    return [in_bits(f"{name}[{at}]", it, bits) for at, it in enumerate(numbers)]


def as_bytes(name: str, data: bytes | bytearray | memoryview) -> bytes:
    """A copy of bytes.

    >>> as_bytes("image", "text")
    Traceback (most recent call last):
        ...
    TypeError: image is bytes, and not a str
    """
    if isinstance(data, bytes):
        return data
    if not isinstance(data, (bytearray, memoryview)):
        raise TypeError(f"{name} is bytes, and not a {type(data).__name__}")
    return bytes(data)
