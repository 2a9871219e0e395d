"""How much work the slices of a tenant alone are: steps, and bytes that its services touch."""
from __future__ import annotations

import ctypes
import functools
from collections.abc import Sequence
from ctypes import POINTER, byref, c_uint32, c_uint64
from dataclasses import dataclass
from typing import Any

from .abi import OUT_OF_MEMORY, REFUSED, _library, _Terms
from .tenants import terms_of

_MOST = (1 << 64) - 1


@dataclass(frozen=True)
class Work:
    """How much a tenant did in the first `slices` of its slices: how many steps it attempted, how
    many bytes its services touched, and the work of both, to which 2,048 bytes count as a step.
    `before` is the work before the last of these slices."""

    slices: int
    steps: int
    bytes: int
    work: int
    before: int
    is_running: bool


class _WorkEnd(ctypes.Structure):
    _fields_ = [
        ("slices", c_uint64), ("steps", c_uint64), ("bytes", c_uint64), ("work", c_uint64),
        ("before", c_uint64), ("code", c_uint32), ("running", c_uint32),
    ]


@functools.cache
def _call() -> Any:
    """The call, which a library of before does not have."""
    call = _library.tb_work
    call.argtypes = [POINTER(_Terms), c_uint64, POINTER(_WorkEnd)]
    call.restype = c_uint32
    return call


def work(
    image: bytes,
    input: bytes = b"",
    slices: Sequence[int] = (1 << 20,),
    seed: int = 1,
    pages: int = 256,
    room: int = 65536,
    asynchronous: bool = False,
    most: int = _MOST,
) -> Work:
    """Runs a tenant alone for its slices while it has done less than `most` work, and tells how
    much it did. A ValueError where it is not admitted: `alone` tells why.

    >>> from tombolopan import example
    >>> work(example("hi.elf"), slices=[4, 100], pages=5, room=16)
    Work(slices=2, steps=8, bytes=2, work=8, before=4, is_running=False)
    """
    terms, end = terms_of(image, input, slices, seed, pages, room, asynchronous), _WorkEnd()
    code = _call()(byref(terms.lent), most, byref(end))
    if code == OUT_OF_MEMORY:
        raise MemoryError
    if code == REFUSED:
        raise ValueError("the tenant is not admitted")
    return Work(end.slices, end.steps, end.bytes, end.work, end.before, bool(end.running))
