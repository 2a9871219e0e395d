"""The calls of a heap with tags."""
from __future__ import annotations

from collections.abc import Sequence
from ctypes import byref
from dataclasses import dataclass

from .abi import FAULT, OK, OUT_OF_MEMORY
from .abi import _HeapCall, _HeapSetup, _library
from .enums import Code
from .faults import Fault
from .ranges import in_bits, in_range


@dataclass(frozen=True)
class HeapAnswer:
    """What a call of a heap answered: ok, fault, heap abort, or bad argument where it is none; the
    pointer, size, number or tag, or which check failed (`heap_abort_name` tells); the fault.

    >>> HeapAnswer(Code.OK, 0x100000012000010, None)
    HeapAnswer(ok, 0x100000012000010)
    """

    code: Code
    answer: int
    fault: Fault | None

    def __repr__(self) -> str:
        said = f"{self.code}, {self.answer:#x}" if self.fault is None else str(self.fault)
        return f"HeapAnswer({said})"


def _made(at: int, call: tuple[int, int, int]) -> _HeapCall:
    """A call as the library takes it."""
    op, first, second = call
    return _HeapCall(
        op=in_bits(f"calls[{at}]'s op", op, 32), first=in_bits(f"calls[{at}]'s first", first, 64),
        second=in_bits(f"calls[{at}]'s second", second, 64),
    )


def heap_calls(
    calls: Sequence[tuple[int, int, int]],
    cookie: int = 1,
    pages: int = 256,
    asynchronous: bool = False,
    rgsr_seed: int = 1,
    rgsr_tag: int = 0,
) -> list[HeapAnswer]:
    """Makes calls in order on a new heap over a memory of its own: each is what it makes (MALLOC to
    LOAD_TAG) and its two arguments."""
    setup = _HeapSetup(
        in_bits("cookie", cookie, 32), in_range("pages", pages, 1, 4096), asynchronous,
        in_bits("rgsr_seed", rgsr_seed, 16), in_bits("rgsr_tag", rgsr_tag, 16),
    )
    made = (_HeapCall * max(len(calls), 1))(*(_made(at, it) for at, it in enumerate(calls)))
    code = _library.tb_heap_calls(byref(setup), made, len(calls))
    if code == OUT_OF_MEMORY:
        raise MemoryError
    assert code == OK
    return [
        HeapAnswer(Code.of(it.code), it.answer, Fault.of(it.fault) if it.code == FAULT else None)
        for it in made[: len(calls)]
    ]
