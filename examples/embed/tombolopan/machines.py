"""A tenant's machine between its slices: registers, memory, pages, and the services behind SVC."""
from __future__ import annotations

import ctypes
from collections.abc import Iterator, Sequence
from ctypes import byref, c_uint64

from .abi import ACT_LOAD, ACT_LOAD_TAG, ACT_SET, ACT_SLICE, ACT_STORE
from .abi import FAULT, NO_ROOM, OUT_OF_MEMORY, REFUSED
from .abi import _KeptCall, _MachineAct, _MachineEnd, _PageEntry, _Regs, _Terms, _lend
from .abi import _library
from .enums import Refusal, TenantStatus
from .faults import Fault, Refused
from .memory import Region, _regions_of
from .ranges import as_bytes, in_bits
from .registers import Regs
from .tenants import Tenant, tenant_of

SP, PC = 31, 32
_SIZE = 8
_PLAIN = (1 << 56) - 1
# An act: what is done, the number, the address, the value.
Act = tuple[int, int, int, int]


class Machine:
    """A tenant alone, with its heap and its services, which is stopped between its slices: there
    its registers and its memory are read and changed, and it goes on.

    Nothing is kept but what the tenant began with and what was done. Each look and each slice does
    all of it anew, in one call of the library, so it takes the time of all steps so far: choose
    slices as long as can be. Refused tells why the tenant is not admitted.

    >>> from tombolopan import example
    >>> machine = Machine(example("hi.elf"), pages=5, room=16)
    >>> tenant = machine.slice(4)
    >>> tenant.status, tenant.steps, tenant.output
    (TenantStatus.RUNNING, 4, b'')
    >>> hex(machine.regs.pc), machine.regions()[0]
    ('0x10010', Region(0x10000, 0x1000, READ|EXEC))
    >>> machine.read(machine.regs.x0, 2)
    b'Hi'
    >>> machine.regs.x1 = 1  # how many bytes it writes
    >>> machine.slice(100).output
    b'H'
    """

    def __init__(
        self,
        image: bytes,
        input: bytes = b"",
        seed: int = 1,
        pages: int = 256,
        room: int = 65536,
        asynchronous: bool = False,
    ) -> None:
        self._held = as_bytes("image", image), as_bytes("input", input)
        program, given = map(_lend, self._held)
        self._no_slices = (ctypes.c_uint32 * 1)()
        self._terms = _Terms(
            program.bytes, program.length, given.bytes, given.length,
            ctypes.addressof(self._no_slices), 0, in_bits("seed", seed, 64),
            in_bits("pages", pages, 32), in_bits("room", room, 32), asynchronous, 0,
        )
        self._acts: list[Act] = []
        self.regs, self._known = Regs(), Regs()
        self.tenant = self._do([])

    @property
    def is_running(self) -> bool:
        """Whether it would go on with a next slice."""
        return self.tenant.status == TenantStatus.RUNNING

    def slice(self, steps: int) -> Tenant:
        """Lets it attempt at most `steps` instructions, with the registers as they are now, and
        answers what a tenant alone is then."""
        return self._enter([(ACT_SLICE, in_bits("steps", steps, 32), 0, 0)])

    def slices(self, steps: int) -> Iterator[Tenant]:
        """Slices of at most `steps` instructions, as long as it is running: what is done between
        them is a hook."""
        in_bits("steps", steps, 32)
        while self.is_running:
            yield self.slice(steps)

    def read(self, address: int, length: int) -> bytes:
        """Bytes of pages with READ; no tags are compared. Fault has what failed."""
        start, words = _words_of(address, length)
        acts: list[Act] = [(ACT_LOAD, 0, start + at * _SIZE & _PLAIN, 0) for at in range(words)]
        found = b"".join(answer.to_bytes(_SIZE, "little") for answer in self._look(acts))
        return found[address - start : address - start + length]

    def write(self, address: int, data: bytes) -> None:
        """Writes bytes of pages with WRITE, all of them or none; no tags are compared."""
        held = as_bytes("data", data)
        start, words = _words_of(address, len(held))
        whole = bytearray(self.read(start, words * _SIZE))
        whole[address - start : address - start + len(held)] = held
        values = [int.from_bytes(whole[at : at + _SIZE], "little")
                  for at in range(0, len(whole), _SIZE)]
        self._enter([(ACT_STORE, 0, start + at * _SIZE & _PLAIN, value)
                     for at, value in enumerate(values)])

    def load_tag(self, address: int) -> int:
        """The allocation tag of the granule that holds an address, of a page with READ."""
        return self._look([(ACT_LOAD_TAG, 0, in_bits("address", address, 64), 0)])[0]

    def regions(self) -> list[Region]:
        """Its pages, the lowest first: neighbours with the same attributes are one region."""
        room = int(self._terms.pages)
        made, entries, mapped = _made(self._all([])), (_PageEntry * room)(), c_uint64()
        code = _library.tb_machine_pages(
            byref(self._terms), made, len(made) - 1, entries, room, byref(mapped)
        )
        if code == OUT_OF_MEMORY:
            raise MemoryError
        return _regions_of((it.number, it.attrs) for it in entries[: mapped.value])

    def _changes(self) -> list[Act]:
        """The registers that were changed since the last slice."""
        now, then = self.regs, self._known
        if (now.nzcv, now.rgsr_seed, now.rgsr_tag) != (then.nzcv, then.rgsr_seed, then.rgsr_tag):
            raise ValueError("of a machine's registers x0 to x30, sp and pc can be set")
        acts = [(ACT_SET, at, 0, value)
                for at, (value, old) in enumerate(zip(now.x, then.x)) if value != old]
        return acts + [(ACT_SET, number, 0, value)
                       for number, value, old in ((SP, now.sp, then.sp), (PC, now.pc, then.pc))
                       if value != old]

    def _all(self, acts: list[Act]) -> list[Act]:
        """All that was done, and what is done now."""
        return [*self._acts, *self._changes(), *acts]

    def _enter(self, acts: list[Act]) -> Tenant:
        """Does acts and enters them. Fault has what failed, and then nothing is entered."""
        whole = self._all(acts)
        found = self._do(whole)
        self._acts, self.tenant = whole, found
        return found

    def _look(self, acts: list[Act]) -> list[int]:
        """What acts answer that change nothing."""
        made = _made(self._all(acts))
        regs = self.regs.copy()
        self._call(made, regs)
        return [it.answer for it in made[len(made) - 1 - len(acts) : len(made) - 1]]

    def _do(self, acts: list[Act]) -> Tenant:
        made = _made(acts)
        found = self._call(made, self.regs)
        self._known = self.regs.copy()
        return found

    def _call(self, made: ctypes.Array[_MachineAct], regs: Regs) -> Tenant:
        """What a tenant alone is after acts."""
        output, calls, end = ctypes.create_string_buffer(65536), (_KeptCall * 64)(), _MachineEnd()
        code = _library.tb_machine_acts(
            byref(self._terms), made, len(made) - 1, output, 65536, calls, 64, byref(end)
        )
        if code == OUT_OF_MEMORY:
            raise MemoryError
        if code == REFUSED:
            raise Refused(Refusal.of(end.alone.refusal))
        assert code != NO_ROOM
        for it in made[: len(made) - 1]:
            if it.code == FAULT:
                raise Fault.of(it.fault)
        ctypes.memmove(byref(regs._held), byref(end.regs), ctypes.sizeof(_Regs))
        return tenant_of(end.alone, output.raw, calls)

    def __repr__(self) -> str:
        return (f"Machine({self.tenant.status}, {self.tenant.steps} steps, "
                f"pc {self.regs.pc:#x})")


def _made(acts: Sequence[Act]) -> ctypes.Array[_MachineAct]:
    """Acts as the library takes them, and one behind them, so that none is no null pointer."""
    made = (_MachineAct * (len(acts) + 1))()
    for it, (act, number, addr, value) in zip(made, acts):
        it.act, it.number, it.addr, it.value = act, number, addr, value
    return made


def _words_of(address: int, length: int) -> tuple[int, int]:
    """The first of the words of eight bytes that hold bytes, and how many there are."""
    in_bits("address", address, 64)
    in_bits("length", length, 32)
    start = address // _SIZE * _SIZE
    return start, -(-(address + length - start) // _SIZE) if length else 0
