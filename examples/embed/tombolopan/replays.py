"""Heap calls in a list, whose arguments may be the answers of earlier ones."""
from __future__ import annotations

import ctypes
import struct
from collections.abc import Iterable, Iterator, Sequence
from ctypes import byref, c_uint64
from dataclasses import dataclass
from typing import NamedTuple, Union, overload

from .abi import CALLOC, FAULT, FREE, LOAD, LOAD_TAG, MALLOC, MEMALIGN, OUT_OF_MEMORY, REALLOC
from .abi import STORE, USABLE_SIZE
from .abi import _HeapSetup, _HeapStep, _LiveChunk, _PageEntry, _library
from .enums import Code
from .faults import Fault
from .heaps import HeapAnswer
from .memory import Region, _regions_of
from .ranges import in_bits, in_range

# A step: its operation, its arguments, and the calls that they refer to.
_STEP = struct.Struct("<I4xQQ8x24xII")
# What is entered of one: its code and its answer.
_ANSWER = struct.Struct("<4xI16xQ32x")
_MOST = (1 << 32) - 1


@dataclass(frozen=True)
class Answer:
    """The answer of a call of a list, from 1 on, and what is added to it: `answer + 8`."""

    number: int
    offset: int = 0

    def __add__(self, more: int) -> Answer:
        return Answer(self.number, (self.offset + more) % (1 << 64))

    def __sub__(self, less: int) -> Answer:
        return self + -less


Argument = Union[int, Answer]
# What it makes, and its two arguments.
Step = tuple[int, Argument, Argument]


class LiveChunk(NamedTuple):
    """A chunk that is live: its plain address, how many bytes were asked for (of none 1), the tag
    of its pointer, and the number of the call that made it, from 1 on."""

    address: int
    size: int
    tag: int
    call: int

    @property
    def pointer(self) -> int:
        """The pointer to it, the tag in bits 59 to 56."""
        return self.tag << 56 | self.address

    def __repr__(self) -> str:
        return f"LiveChunk({self.address:#x}, {self.size}, tag {self.tag}, call {self.call})"


class Replay(Sequence[HeapAnswer]):
    """What the calls of a list answered, by their index, from 0 on."""

    def __init__(self, steps: ctypes.Array[_HeapStep], count: int) -> None:
        self._steps, self._count = steps, count

    def __len__(self) -> int:
        return self._count

    @overload
    def __getitem__(self, at: int) -> HeapAnswer: ...

    @overload
    def __getitem__(self, at: slice) -> list[HeapAnswer]: ...

    def __getitem__(self, at: int | slice) -> HeapAnswer | list[HeapAnswer]:
        """An answer, or several."""
        if isinstance(at, slice):
            return [self._answer(it) for it in range(*at.indices(self._count))]
        return self._answer(range(self._count)[at])

    def _answer(self, at: int) -> HeapAnswer:
        call = self._steps[at].call
        fault = Fault.of(call.fault) if call.code == FAULT else None
        return HeapAnswer(Code.of(call.code), call.answer, fault)

    def _told(self) -> Iterator[tuple[int, ...]]:
        """The code and the answer of each call."""
        return _ANSWER.iter_unpack(memoryview(self._steps).cast("B")[: self._count * _ANSWER.size])

    def answers(self) -> list[int]:
        """The answer of each call as a number: quicker than one by one."""
        return [answer for _, answer in self._told()]

    def codes(self) -> list[int]:
        """The code of each call as a number."""
        return [code for code, _ in self._told()]

    def chunks(self) -> list[LiveChunk]:
        """The chunks that are live in the end, by ascending addresses."""
        found, live = (_LiveChunk * max(self._count, 1))(), c_uint64()
        code = _library.tb_heap_live(self._steps, self._count, found, self._count, byref(live))
        if code == OUT_OF_MEMORY:
            raise MemoryError
        return [LiveChunk(it.address, it.size, it.tag, it.call) for it in found[: live.value]]

    def live(self) -> dict[int, int]:
        """The chunks that are live in the end: by the pointer, its tag in bits 59 to 56, the size
        that was asked for."""
        return {it.pointer: it.size for it in self.chunks()}


class Heap:
    """A heap with tags over a memory of its own, and a list of its calls, each of which may take
    the answer of an earlier one. `replay` makes them all, on a new heap each time.

    >>> heap = Heap(pages=64)
    >>> chunk = heap.malloc(24)
    >>> _ = heap.store(chunk + 16, 42)
    >>> _ = heap.load(chunk + 16)
    >>> _ = heap.free(chunk)
    >>> _ = heap.load(chunk)
    >>> for it in heap.replay():
    ...     print(it)
    HeapAnswer(ok, 0x100000012000010)
    HeapAnswer(ok, 0x0)
    HeapAnswer(ok, 0x2a)
    HeapAnswer(ok, 0x0)
    HeapAnswer(TagCheck: a read at 0x12000010, pointer tag 1, memory tag 3)
    >>> found = heap.replay([(MALLOC, 24, 0), (MALLOC, 8, 0), (FREE, Answer(1), 0)])
    >>> {hex(pointer): size for pointer, size in found.live().items()}
    {'0x100000011000010': 8}
    >>> found.chunks()
    [LiveChunk(0x11000010, 8, tag 1, call 2)]
    >>> heap.regions()
    [Region(0x12000000, 0x1000, READ|WRITE|TAGGED)]
    >>> heap.replay([(FREE, Answer(1), 0)])
    Traceback (most recent call last):
        ...
    ValueError: step 1 refers to itself, to a later call, or to one that has no answer
    """

    def __init__(
        self,
        cookie: int = 1,
        pages: int = 256,
        asynchronous: bool = False,
        rgsr_seed: int = 1,
        rgsr_tag: int = 0,
    ) -> None:
        self._setup = _HeapSetup(
            in_bits("cookie", cookie, 32), in_range("pages", pages, 1, 4096), asynchronous,
            in_bits("rgsr_seed", rgsr_seed, 16), in_bits("rgsr_tag", rgsr_tag, 16),
        )
        self.steps: list[Step] = []

    def call(self, op: int, first: Argument = 0, second: Argument = 0) -> Answer:
        """Enters a call, and returns what stands for its answer."""
        self.steps.append((op, first, second))
        return Answer(len(self.steps))

    def malloc(self, size: int) -> Answer:
        """A chunk."""
        return self.call(MALLOC, size)

    def calloc(self, count: int, size: int) -> Answer:
        """A chunk of zero bytes."""
        return self.call(CALLOC, count, size)

    def realloc(self, pointer: Argument, size: int) -> Answer:
        """A chunk with another size."""
        return self.call(REALLOC, pointer, size)

    def memalign(self, alignment: int, size: int) -> Answer:
        """A chunk at a multiple of a power of two."""
        return self.call(MEMALIGN, alignment, size)

    def free(self, pointer: Argument) -> Answer:
        """Frees a chunk. It has no answer that a call may take."""
        return self.call(FREE, pointer)

    def usable_size(self, pointer: Argument) -> Answer:
        """How many bytes of a chunk may be used."""
        return self.call(USABLE_SIZE, pointer)

    def load(self, address: Argument) -> Answer:
        """The number of eight bytes, tags compared."""
        return self.call(LOAD, address)

    def store(self, address: Argument, value: Argument) -> Answer:
        """Stores a number of eight bytes, tags compared. It has no answer that a call may take."""
        return self.call(STORE, address, value)

    def load_tag(self, address: Argument) -> Answer:
        """The allocation tag of a granule."""
        return self.call(LOAD_TAG, address)

    def replay(self, steps: Iterable[Step] | None = None) -> Replay:
        """Makes the calls of a list, or of what was entered, in one call of the library. ValueError
        where a step is none, before anything is made; one that takes the answer of a call that gave
        none, since it aborted or faulted, is a bad argument, and those behind it are made."""
        rows = self.steps if steps is None else list(steps)
        made, bad = _made(rows), c_uint64()
        code = _library.tb_heap_replay(byref(self._setup), made, len(rows), byref(bad))
        _refuse(code, rows, bad.value)
        return Replay(made, len(rows))

    def regions(self, steps: Iterable[Step] | None = None) -> list[Region]:
        """The pages that are mapped after the calls of a list, or of what was entered, the lowest
        first: neighbours with the same attributes are one region. The calls are made as `replay`
        makes them, on a heap of their own. ValueError where a step is none."""
        rows = self.steps if steps is None else list(steps)
        made, mapped, bad = _made(rows), c_uint64(), c_uint64()
        room = int(self._setup.pages)
        pages = (_PageEntry * room)()
        code = _library.tb_heap_pages(
            byref(self._setup), made, len(rows), pages, room, byref(mapped), byref(bad)
        )
        _refuse(code, rows, bad.value)
        return _regions_of((it.number, it.attrs) for it in pages[: mapped.value])


def _made(rows: Sequence[Step]) -> ctypes.Array[_HeapStep]:
    """Steps as the library takes them."""
    in_range("the number of steps", len(rows), 0, _MOST)
    made = (_HeapStep * max(len(rows), 1))()
    _enter(memoryview(made).cast("B"), rows)
    return made


def _refuse(code: int, rows: Sequence[Step], bad: int) -> None:
    """Raises what the code of a replay says: no memory, or a step that is none."""
    if code == OUT_OF_MEMORY:
        raise MemoryError
    if bad:
        raise ValueError(_why(rows, bad))


def _enter(view: memoryview, rows: Sequence[Step]) -> None:
    """Writes steps as the library takes them."""
    pack, size, at = _STEP.pack_into, _STEP.size, 0
    for op, one, two in rows:
        first_of = second_of = 0
        if isinstance(one, Answer):
            first_of, one = one.number, one.offset
        if isinstance(two, Answer):
            second_of, two = two.number, two.offset
        try:
            pack(view, at, op, one, two, first_of, second_of)
        except struct.error:
            name = f"step {at // size + 1}'s"
            for what, value, bits in (("op", op, 32), ("first", one, 64), ("second", two, 64),
                                      ("reference", first_of, 32), ("reference", second_of, 32)):
                in_bits(f"{name} {what}", value, bits)
            raise
        at += size


def _why(rows: Sequence[Step], number: int) -> str:
    """Why a step is none."""
    op = rows[number - 1][0]
    if not MALLOC <= op <= LOAD_TAG:
        return f"step {number} has no operation: {op}"
    return f"step {number} refers to itself, to a later call, or to one that has no answer"
