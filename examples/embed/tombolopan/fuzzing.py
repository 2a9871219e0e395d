"""A tenant that sets itself up once and runs many times from there, with an input each time."""
from __future__ import annotations

import contextlib
import ctypes
from collections.abc import Iterator, Sequence
from ctypes import byref, c_uint8, c_uint32, c_uint64
from dataclasses import dataclass
from typing import Any

from .abi import BAD_ARGUMENT, FAULT, NO_MACHINE, OUT_OF_MEMORY, REFUSED
from .abi import _AloneEnd, _Comparison, _Comparisons, _Fuzz, _FuzzFinding, _FuzzInput, _lend
from .abi import _library, _Terms
from .enums import Compared, Refusal, TenantStatus, Trespass
from .faults import Fault, Refused
from .ranges import all_in_bits, as_bytes, in_bits


@dataclass(frozen=True)
class FuzzFinding:
    """An access that goes beyond the bytes of the tenant's chunks: what it does there, the number
    and the address of the instruction, the plain address of the first such byte, the address that
    was used, how many bytes it accesses, and whether it writes."""

    kind: Trespass
    step: int
    pc: int
    address: int
    pointer: int
    size: int
    write: bool


@dataclass(frozen=True)
class Comparison:
    """What an instruction compared: its number among those of the run, its address, both operands
    of `width` bytes, and by what. Of a call `left`, `right` and `length` are its arguments, and
    `width` is the place of the function that was called."""

    step: int
    pc: int
    left: int
    right: int
    length: int
    kind: Compared
    width: int


@dataclass(frozen=True)
class FuzzRun:
    """How a tenant ended: `status`, `number`, `pc`, `pointer` and `fault` as Tenant has them,
    `steps` with those of the setup, how many bytes it wrote and how many heap calls it made; of a
    run that is exact what it found first, if it found anything."""

    status: TenantStatus
    number: int
    pc: int
    pointer: int
    fault: Fault | None
    steps: int
    written: int
    heap: int
    finding: FuzzFinding | None = None

    @property
    def is_crash(self) -> bool:
        """Whether it ended with a fault, an abort of the heap, an illegal word or a break, or an
        exact run found an access beyond a chunk."""
        has_failed = self.status not in (TenantStatus.RUNNING, TenantStatus.EXIT)
        return has_failed or self.finding is not None


class Fuzz:
    """A tenant's machine that is kept as it is behind its setup. Each run begins there with an
    input of its own, and is the same as that of a tenant which starts anew.

    `setup` has the slices of the setup: the first one ends where the tenant yields. `edges` is how
    many counts of edges there are, a power of two from 256 to 65536; the counts of a run
    stay until the next one. Refused tells why the tenant is not admitted. A machine is of use to
    one thread at a time, the one that made it. `close` frees it, as the end of a `with` does.

    >>> from tombolopan import example
    >>> with Fuzz(example("hi.elf"), setup=[2], pages=5, room=16, edges=256) as fuzz:
    ...     print(fuzz.start.status, fuzz.start.steps)
    ...     for text in b"one", b"another":
    ...         run = fuzz.run(text, slices=[100])
    ...         print(run.status, run.number, run.steps, run.written, run.is_crash)
    ...     print(len(fuzz.counts), sum(fuzz.counts))
    running 2
    exit 0 8 2 False
    exit 0 8 2 False
    256 0
    """

    def __init__(
        self,
        image: bytes,
        setup: Sequence[int] = (1 << 20,),
        seed: int = 1,
        pages: int = 256,
        room: int = 65536,
        asynchronous: bool = False,
        edges: int = 4096,
    ) -> None:
        self._machine = _Fuzz()
        self._map = (c_uint8 * in_bits("edges", edges, 32))()
        cuts = (c_uint32 * max(len(setup), 1))(*all_in_bits("setup", setup, 32))
        program, given = _lend(as_bytes("image", image)), _lend(b"")
        terms = _Terms(
            program.bytes, program.length, given.bytes, given.length, ctypes.addressof(cuts),
            len(setup), in_bits("seed", seed, 64), in_bits("pages", pages, 32),
            in_bits("room", room, 32), asynchronous, 0,
        )
        end = _AloneEnd()
        _library.tb_fuzz_new(byref(terms), byref(self._machine), byref(end))
        self.start = _run_of(end)

    @property
    def counts(self) -> bytes:
        """How often each hash of an edge came in the last run, 255 at most."""
        return bytes(self._map)

    def run(
        self, input: bytes, slices: Sequence[int] = (1 << 20,), exact: bool = False
    ) -> FuzzRun:
        """Runs it from its setup on, with an input. Where it is to be `exact`, the first access is
        told that goes beyond the bytes of its chunks, whatever the tags; the rest is the same, and
        takes longer. MemoryError where memory to follow its chunks is refused."""
        end, found = _AloneEnd(), _FuzzFinding()
        with self._begin(input, slices) as given:
            if exact:
                _library.tb_fuzz_run_exact(*given, byref(end), byref(found))
            else:
                _library.tb_fuzz_run(*given, byref(end))
        return _run_of(end, _finding_of(found))

    def compare(
        self,
        input: bytes,
        slices: Sequence[int] = (1 << 20,),
        functions: Sequence[int] = (),
        room: int = 4096,
    ) -> tuple[FuzzRun, list[Comparison]]:
        """The same run, and what its instructions compared, by their addresses: of each address
        the last ones, eight at most. A call of one of the `functions`, which are addresses, is one
        too. `room` is a power of two from 256 to 65536; where it is less than eight times the
        addresses that compare, some are missing."""
        entries = (_Comparison * in_bits("room", room, 32))()
        lent = (c_uint64 * max(len(functions), 1))(*all_in_bits("functions", functions, 64))
        compared = _Comparisons(
            ctypes.addressof(lent), len(functions), ctypes.addressof(entries), room
        )
        end = _AloneEnd()
        with self._begin(input, slices) as given:
            _library.tb_fuzz_run_compared(*given, byref(compared), byref(end))
        found = [_comparison_of(it) for it in entries if it.kind]
        return _run_of(end), sorted(found, key=lambda it: (it.pc, it.step))

    def read(self, address: int, length: int) -> bytes:
        """Bytes of the machine as its last run left it, whatever their tags. KeyError where a page
        is not there, or may not be read."""
        buffer = ctypes.create_string_buffer(in_bits("length", length, 32) or 1)
        at = in_bits("address", address, 64)
        code = _library.tb_fuzz_read(byref(self._machine), at, buffer, length)
        if code == FAULT:
            raise KeyError(address)
        if code == NO_MACHINE:
            raise ValueError("the machine is closed")
        return buffer.raw[:length]

    @contextlib.contextmanager
    def _begin(self, input: bytes, slices: Sequence[int]) -> Iterator[tuple[Any, ...]]:
        """What each run is lent but for its answers; the counts are cleared."""
        given = _lend(as_bytes("input", input))
        cuts = (c_uint32 * max(len(slices), 1))(*all_in_bits("slices", slices, 32))
        wanted = _FuzzInput(
            given.bytes, given.length, ctypes.addressof(cuts), len(slices), True, 0
        )
        ctypes.memset(self._map, 0, len(self._map))
        yield byref(self._machine), byref(wanted), self._map, len(self._map)

    def close(self) -> None:
        """Frees the machine, once; a run fails then."""
        _library.tb_fuzz_free(byref(self._machine))

    def __enter__(self) -> Fuzz:
        return self

    def __exit__(self, *_: object) -> None:
        self.close()

    def __del__(self) -> None:
        if hasattr(self, "_machine"):
            self.close()


def _comparison_of(it: _Comparison) -> Comparison:
    """A comparison by what the library entered."""
    kind = Compared.of(it.kind)
    return Comparison(it.step, it.pc, it.left, it.right, it.length, kind, it.width)


def _finding_of(found: _FuzzFinding) -> FuzzFinding | None:
    """What an exact run found, by what the library says."""
    if found.missed:
        raise MemoryError
    if not found.kind:
        return None
    return FuzzFinding(
        Trespass.of(found.kind), found.step, found.pc, found.addr, found.pointer, found.size,
        bool(found.write),
    )


def _run_of(end: _AloneEnd, finding: FuzzFinding | None = None) -> FuzzRun:
    """A run by what the library says of it, or why there is none."""
    if end.code == OUT_OF_MEMORY:
        raise MemoryError
    if end.code == REFUSED:
        raise Refused(Refusal.of(end.refusal))
    if end.code == NO_MACHINE:
        raise ValueError("the machine is closed")
    if end.code == BAD_ARGUMENT:
        raise ValueError("edges and room are powers of two from 256 to 65536")
    status = end.status
    return FuzzRun(
        TenantStatus.of(status.status), status.number, status.pc, status.pointer,
        Fault.of(status.fault) if status.fault.kind else None, end.steps, end.output, end.calls,
        finding,
    )
