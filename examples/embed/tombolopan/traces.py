"""The accesses of a run to memory."""
from __future__ import annotations

import sys
from ctypes import byref, memmove, sizeof
from typing import NamedTuple

from .abi import EXEC, FAULT, OK, PERMISSION, TAGGED, TRANSLATION
from .abi import _library, _Page, _Regs, _Stop, _TagState
from .enums import Code
from .memory import _PLAIN, PAGE, Memory
from .ranges import in_bits, in_range
from .registers import Regs
from .runs import Stop, _stop_of


class Access(NamedTuple):
    """An access of an instruction to memory: the instruction's address and word, the address that
    was used (its tag in bits 59 to 56), how many bytes (of LDG and STG the granule's 16, of ST2G
    32), whether it is a store, the number of the bytes there after it, and the allocation tag."""

    pc: int
    word: int
    address: int
    size: int
    write: bool
    value: int
    memory_tag: int

    def __repr__(self) -> str:
        what = "write" if self.write else "read"
        return (f"Access({self.pc:#x}: a {what} of {self.size} at {self.address:#x}, "
                f"value {self.value:#x}, tag {self.memory_tag})")


def access_size(word: int) -> int:
    """How many bytes a load or a store of the profile accesses, by its word: 1 to 16, of LDG, STG
    and STZG 16, of ST2G and STZ2G 32. Of other words it says nothing.

    >>> [access_size(it) for it in (0x39400022, 0x69401022, 0x69001022, 0x18000102, 0xD9E00821)]
    [1, 8, 16, 4, 32]
    """
    if word >> 24 == 0xD9:
        return 32 if word & 0x00800000 else 16
    if word & 0x38000000 == 0x28000000:
        return 16 if word >> 31 or word & 0x40400000 == 0x40000000 else 8
    if word & 0x3F000000 == 0x18000000:
        return 8 if word & 0x40000000 else 4
    return 1 << (word >> 30)


class _CodePage:
    """A memory that has a copy of one page of another with EXEC alone. In it a run goes on up to
    the first access to memory, which faults and changes nothing, or out of the page."""

    def __init__(self) -> None:
        self._places, self._state, self.stop = (_Page * 1)(), _TagState(), _Stop()
        self.number = -1

    def take(self, memory: Memory, number: int) -> None:
        """Copies a page, unless it is there."""
        if self.number != number:
            page = memory._places[memory._index[number]]
            memmove(self._places, byref(page), sizeof(_Page))
            self._places[0].attrs, self.number = EXEC, number

    def run(self, held: _Regs, steps: int) -> int:
        """Attempts instructions."""
        code: int = _library.tb_run(
            self._places, 1, byref(self._state), byref(held), steps, byref(self.stop)
        )
        return code

    def may_access(self, memory: Memory) -> bool:
        """Whether what faulted here may have an access in the memory, since a page is there."""
        fault = self.stop.fault
        return fault.kind in (TRANSLATION, PERMISSION) and memory._page_of(fault.addr) is not None

    def access(self, memory: Memory, pc: int, word: int) -> Access:
        """The access that faulted here, of an instruction that was attempted in the memory. A
        store into the page makes that it is copied anew."""
        fault, size = self.stop.fault, access_size(word)
        address, page = fault.ptr_tag << 56 | fault.addr, memory._page_of(fault.addr)
        tag = page.tags[address % PAGE // 16] & 15 if page and page.attrs & TAGGED else 0
        last = (fault.addr + size - 1 & _PLAIN) // PAGE
        if fault.write and self.number in (fault.addr // PAGE, last):
            self.number = -1
        value = memory._peek_or_zero(address, size)
        return Access(pc, word, address, size, bool(fault.write), value, tag)


def _is_fetched(memory: Memory, pc: int) -> bool:
    """Whether a word can be fetched there."""
    page = memory._page_of(pc)
    return page is not None and page.attrs & EXEC != 0 and pc % 4 == 0


def trace(
    memory: Memory, regs: Regs, steps: int, accesses: list[Access], room: int | None = None
) -> Stop:
    """A run that also enters each access to memory, not the fetches of instructions. It stops with
    "no room" before an instruction that may have one when there are `room` already. It is slower
    than `run`: each access takes two calls of the library, however many pages there are.

    Instructions without an access run in a copy of their page. One with an access faults there,
    which tells its address, and then is attempted in the memory itself.
    """
    left, page, stop, held = in_bits("steps", steps, 64), _CodePage(), _Stop(), regs._held
    most = None if room is None else in_range("room", room, 0, sys.maxsize)
    while left > 0:
        pc = held.pc
        number = (pc & _PLAIN) // PAGE
        may_have = False
        if page.number == number or _is_fetched(memory, pc):
            page.take(memory, number)
            code = page.run(held, left)
            if code != FAULT:
                return _stop_of(code, page.stop, page.stop.left)
            left, pc = page.stop.left + 1, held.pc
            if (pc & _PLAIN) // PAGE != number:
                continue
            may_have = page.may_access(memory)
        if may_have and most is not None and len(accesses) >= most:
            return Stop(Code.NO_ROOM, 0, left, None)
        word = memory._peek_or_zero(pc, 4)
        code = _library.tb_step(*memory._lent(), byref(held), byref(stop))
        left -= 1
        if code != OK:
            return _stop_of(code, stop, left)
        accesses.append(page.access(memory, pc, word))
    return Stop(Code.OK, 0, 0, None)


def trace_step(
    memory: Memory, regs: Regs, accesses: list[Access], room: int | None = None
) -> Stop:
    """Attempts one instruction, and enters its access to memory if it has one and succeeds.

    "no room", with nothing attempted, where it may have one and there are `room` already.
    """
    return trace(memory, regs, 1, accesses, room)
