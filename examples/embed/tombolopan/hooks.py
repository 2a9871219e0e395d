"""What a run does, as iterators and for callbacks. It is told in blocks: when an instruction or an
access is seen, the run is at the end of its block already, and where a block has one entry
(`block=1`) just behind the instruction."""
from __future__ import annotations

import struct
from collections.abc import Callable, Iterable, Iterator, Sequence
from ctypes import byref, c_uint64
from typing import Generic, NamedTuple, TypeVar

from .abi import FAULT, NO_ROOM
from .abi import _library, _TraceArrays, _TracedAccess, _TracedInstruction, _TraceReport
from .abi import _TraceRequest
from .enums import AccessKind, Code
from .faults import Fault
from .memory import _FRONT, Memory
from .ranges import all_in_bits, in_bits, in_range
from .registers import Regs
from .runs import _PART, Stop

_INSTRUCTION, _ACCESS = struct.Struct("<8xQI4x"), struct.Struct("<8xQQQQII")
_ALL = (1 << 64) - 1
# So many entries a block has, where nothing else is said.
_BLOCK = 4096
_KINDS = AccessKind.READ | AccessKind.WRITE | AccessKind.READ_TAG | AccessKind.WRITE_TAG
T = TypeVar("T")


class Instruction(NamedTuple):
    """An instruction that was fetched: its address and its word."""

    address: int
    word: int

    def __repr__(self) -> str:
        return f"Instruction({self.address:#x}, {self.word:#010x})"


class TracedAccess(NamedTuple):
    """An access that was completed: the instruction's address, the address that was used with its
    tag in bits 59 to 56, the numbers of its first eight bytes and of those behind them, how many
    bytes (of the tags of one granule 16, of two 32), and its kind, a sum of AccessKind. Of tags
    alone the number is the tag."""

    pc: int
    address: int
    low: int
    high: int
    size: int
    kind: int

    @property
    def value(self) -> int:
        """The number of all its bytes."""
        return self.high << 64 | self.low

    @property
    def write(self) -> bool:
        """Whether it changes the memory."""
        return self.kind & (AccessKind.WRITE | AccessKind.WRITE_TAG) != 0

    def __repr__(self) -> str:
        kind = "|".join(it.name or "" for it in AccessKind if it & self.kind)
        return (f"TracedAccess({self.pc:#x}: {kind} of {self.size} at {self.address:#x}, "
                f"value {self.value:#x})")


class Block(NamedTuple):
    """Instructions that followed one another: the address of the first, and how many bytes."""

    address: int
    size: int

    def __repr__(self) -> str:
        return f"Block({self.address:#x}, {self.size})"


class Hooked(Generic[T]):
    """A run that goes on as what it does is asked for: an iterator, whose `stop` is how the run
    ended, and None until then. `each` calls a function with each entry and answers `stop`."""

    def __init__(self, run: _TracedRun, told: Callable[[_TracedRun], Iterable[T]]) -> None:
        self._run, self._told = run, told

    @property
    def stop(self) -> Stop | None:
        """How the run ended."""
        return self._run.stop

    def __iter__(self) -> Iterator[T]:
        while self._run.stop is None:
            self._run.go_on()
            yield from self._told(self._run)

    def each(self, callback: Callable[[T], object]) -> Stop:
        """Runs to the end, and calls a function with each entry."""
        for it in self:
            callback(it)
        assert self.stop is not None
        return self.stop


class _TracedRun:
    """A run in blocks, with the arrays of one block."""

    def __init__(
        self, memory: Memory, regs: Regs, steps: int, stops: Sequence[int], rooms: tuple[int, int]
    ) -> None:
        self.memory, self.regs = memory, regs
        self.left = in_bits("steps", steps, 64)
        self._stops = (c_uint64 * max(len(stops), 1))(*all_in_bits("stops", stops, 64))
        self.request = _TraceRequest(
            stops=self._stops, stop_count=len(stops), code_high=_ALL, high=_ALL, kinds=_KINDS
        )
        self.report = _TraceReport()
        self._instructions = (_TracedInstruction * max(rooms[0], 1))()
        self._accesses = (_TracedAccess * max(rooms[1], 1))()
        self._arrays = _TraceArrays(self._instructions, rooms[0], self._accesses, rooms[1])
        self.stop: Stop | None = None

    def go_on(self) -> None:
        """Runs the next block."""
        part = self.left
        if self.memory._used > _FRONT:
            self.memory._bring_forward((self.regs.pc, self.regs.sp, *self.regs.x))
            part = min(part, _PART)
        self.request.steps = part
        code = _library.tb_run_traced(
            *self.memory._lent(), byref(self.regs._held), byref(self.request),
            byref(self._arrays), byref(self.report)
        )
        self.left -= self.report.steps
        if code != NO_ROOM and (code or self.left == 0):
            fault = Fault.of(self.report.fault) if code == FAULT else None
            self.stop = Stop(Code.of(code), self.report.number, self.left, fault)

    def instructions(self) -> Iterator[tuple[int, ...]]:
        """The instructions of the block: their addresses and words."""
        size = self.report.instructions * _INSTRUCTION.size
        return _INSTRUCTION.iter_unpack(memoryview(self._instructions).cast("B")[:size])

    def accesses(self) -> Iterator[tuple[int, ...]]:
        """The accesses of the block."""
        size = self.report.accesses * _ACCESS.size
        return _ACCESS.iter_unpack(memoryview(self._accesses).cast("B")[:size])


def hook_code(
    memory: Memory, regs: Regs, steps: int, stops: Sequence[int] = (), begin: int = 0,
    end: int = _ALL, block: int = _BLOCK
) -> Hooked[Instruction]:
    """Each instruction of a run that is fetched at an address from `begin` to `end`, also the one
    that ends the run.

    >>> memory = Memory()
    >>> memory.map(0x10000, 4096, 5)
    >>> memory.load(0x10000, bytes.fromhex("00040091" "ffffff17"))  # add x0, x0, #1; b -4
    >>> regs = Regs(pc=0x10000)
    >>> run = hook_code(memory, regs, 3)
    >>> list(run), run.stop.code, regs.x0
    ([Instruction(0x10000, 0x91000400), Instruction(0x10004, 0x17ffffff), \
Instruction(0x10000, 0x91000400)], Code.OK, 2)
    """
    rooms = (in_range("block", block, 1, 1 << 24), 0)
    run = _TracedRun(memory, regs, steps, stops, rooms)
    run.request.code_low, run.request.code_high = _range(begin, end)
    return Hooked(run, lambda it: map(Instruction._make, it.instructions()))


def hook_mem(
    memory: Memory, regs: Regs, steps: int, stops: Sequence[int] = (), begin: int = 0,
    end: int = _ALL, kinds: int = _KINDS, block: int = _BLOCK
) -> Hooked[TracedAccess]:
    """Each access of a run that is completed, of some kinds and with a byte at a plain address from
    `begin` to `end`.

    >>> memory = Memory()
    >>> memory.map(0x10000, 4096, 5)
    >>> memory.map(0x20000, 4096, 3)
    >>> memory.load(0x10000, bytes.fromhex("228400f8" "230440a9"))
    >>> regs = Regs(pc=0x10000, x1=0x20008, x2=77)  # str x2, [x1], #8; ldp x3, x1, [x1]
    >>> hook_mem(memory, regs, 2).each(print).code
    TracedAccess(0x10000: WRITE of 8 at 0x20008, value 0x4d)
    TracedAccess(0x10004: READ of 16 at 0x20010, value 0x0)
    Code.OK
    """
    rooms = (0, in_range("block", block, 1, 1 << 24))
    run = _TracedRun(memory, regs, steps, stops, rooms)
    run.request.low, run.request.high = _range(begin, end)
    run.request.kinds = in_range("kinds", kinds, 0, int(_KINDS))
    return Hooked(run, lambda it: map(TracedAccess._make, it.accesses()))


def hook_block(
    memory: Memory, regs: Regs, steps: int, stops: Sequence[int] = (), begin: int = 0,
    end: int = _ALL, block: int = _BLOCK
) -> Hooked[Block]:
    """Each row of instructions of a run that followed one another up to a branch, an SVC or a
    breakpoint, or up to the end of what was told of it.

    >>> memory = Memory()
    >>> memory.map(0x10000, 4096, 5)
    >>> memory.load(0x10000, bytes.fromhex("00040091" "ffffff17"))  # add x0, x0, #1; b -4
    >>> list(hook_block(memory, Regs(pc=0x10000), 5))
    [Block(0x10000, 8), Block(0x10000, 8), Block(0x10000, 4)]
    """
    found = hook_code(memory, regs, steps, stops, begin, end, block)
    return Hooked(found._run, lambda it: _blocks(it.instructions()))


def _range(begin: int, end: int) -> tuple[int, int]:
    """A range of addresses with its last one."""
    in_bits("begin", begin, 64)
    return begin, in_range("end", end, begin, _ALL)


def _ends_block(word: int) -> bool:
    """Whether a word branches or stops: a branch, SVC or BRK, and no hint."""
    return word & 0x1C000000 == 0x14000000 and word & 0xFFFFF01F != 0xD503201F


def _blocks(instructions: Iterable[tuple[int, ...]]) -> Iterator[Block]:
    """Rows of instructions."""
    start = after = -1
    for address, word in instructions:
        if address != after:
            if start >= 0:
                yield Block(start, after - start)
            start = address
        after = address + 4
        if _ends_block(word):
            yield Block(start, after - start)
            start = after = -1
    if start >= 0:
        yield Block(start, after - start)
