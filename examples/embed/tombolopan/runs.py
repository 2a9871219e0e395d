"""Steps and runs of a core in a memory."""
from __future__ import annotations

from collections.abc import Sequence
from ctypes import byref, c_uint64
from dataclasses import dataclass

from .abi import FAULT, OK, _library, _Stop
from .enums import Code
from .faults import Fault
from .memory import _FRONT, Memory
from .ranges import all_in_bits, in_bits
from .registers import Regs

# How many steps a run makes before pages come forward again.
_PART = 1 << 17


@dataclass(frozen=True)
class Stop:
    """How a run ended: ok, stopped (PC came to one of the stops), svc, breakpoint, illegal
    instruction, fault or, of a trace, no room; the number of a breakpoint or the word that is
    illegal; the steps that were not attempted."""

    code: Code
    number: int
    left: int
    fault: Fault | None


def _stop_of(code: int, it: _Stop, left: int) -> Stop:
    """What the library tells, with so many steps that were not attempted."""
    return Stop(Code.of(code), it.number, left, Fault.of(it.fault) if code == FAULT else None)


def run(memory: Memory, regs: Regs, steps: int, stops: Sequence[int] = ()) -> Stop:
    """Attempts at most `steps` instructions, up to the first that does not go on, or after which PC
    is one of `stops`.

    >>> memory = Memory()
    >>> memory.map(0x10000, 4096, 5)
    >>> memory.load(0x10000, bytes.fromhex("00040091" "ffffff17"))  # add x0, x0, #1; b -4
    >>> regs = Regs(pc=0x10000)
    >>> run(memory, regs, 1000)
    Stop(code=Code.OK, number=0, left=0, fault=None)
    >>> run(memory, regs, 1000, stops=[0x10004]).code, regs.x0
    (Code.STOPPED, 501)
    """
    stop, left = _Stop(), in_bits("steps", steps, 64)
    at = (c_uint64 * max(len(stops), 1))(*all_in_bits("stops", stops, 64))
    while True:
        part = left
        if memory._used > _FRONT:
            memory._bring_forward((regs.pc, regs.sp, *regs.x))
            part = min(left, _PART)
        if stops:
            code = _library.tb_run_until(
                *memory._lent(), byref(regs._held), part, at, len(stops), byref(stop)
            )
        else:
            code = _library.tb_run(*memory._lent(), byref(regs._held), part, byref(stop))
        left -= part - stop.left
        if code != OK or left == 0:
            return _stop_of(code, stop, left)


def step(memory: Memory, regs: Regs) -> Stop:
    """Attempts one instruction."""
    stop = _Stop()
    code = _library.tb_step(*memory._lent(), byref(regs._held), byref(stop))
    return _stop_of(code, stop, stop.left)
