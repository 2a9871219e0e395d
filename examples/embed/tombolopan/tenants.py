"""A tenant alone."""
from __future__ import annotations

import ctypes
from collections.abc import Sequence
from ctypes import byref, c_uint32
from dataclasses import dataclass

from .abi import OUT_OF_MEMORY, REFUSED
from .abi import _AloneEnd, _KeptCall, _lend, _library, _Terms
from .enums import Refusal, TenantStatus
from .faults import Fault, Refused
from .ranges import all_in_bits, as_bytes, in_bits

SERVICES = {3: "malloc", 4: "free", 5: "calloc", 6: "realloc", 7: "memalign", 8: "usable_size"}


@dataclass(frozen=True)
class HeapCall:
    """A heap call of a tenant: the service's name, its two arguments, its answer.

    >>> HeapCall("malloc", 24, 0, 0x100000012000010)
    HeapCall(malloc(0x18, 0x0) = 0x100000012000010)
    """

    service: str
    first: int
    second: int
    answer: int

    def __repr__(self) -> str:
        return f"HeapCall({self.service}({self.first:#x}, {self.second:#x}) = {self.answer:#x})"


@dataclass(frozen=True)
class Tenant:
    """A tenant at the end of its slices.

    `status` is the report's word: running, exit, fault, illegal, break, async or abort. `number` is
    the code of an exit, the word, the number of a break, or why a pointer was refused (which
    `heap_abort_name` tells); `pc` the address of the instruction; `fault` that of a fault. `heap`
    is how many heap calls there were, `calls` the last 64 of them.
    """

    status: TenantStatus
    number: int
    pc: int
    pointer: int
    fault: Fault | None
    steps: int
    output: bytes
    heap: int
    calls: tuple[HeapCall, ...]


@dataclass(frozen=True)
class TenantTerms:
    """The terms of a tenant as they are lent, and what keeps their bytes alive."""

    lent: _Terms
    held: tuple[object, ...]


def terms_of(image: bytes, input: bytes, slices: Sequence[int], seed: int, pages: int, room: int,
             asynchronous: bool) -> TenantTerms:
    """The terms of a tenant, with its slices; a ValueError for a number out of its range."""
    cuts = (c_uint32 * max(len(slices), 1))(*all_in_bits("slices", slices, 32))
    held = as_bytes("image", image), as_bytes("input", input)
    program, given = map(_lend, held)
    return TenantTerms(_Terms(
        program.bytes, program.length, given.bytes, given.length, ctypes.addressof(cuts),
        len(slices), in_bits("seed", seed, 64), in_bits("pages", pages, 32),
        in_bits("room", room, 32), asynchronous, 0,
    ), (*held, program, given, cuts))


def alone(
    image: bytes,
    input: bytes = b"",
    slices: Sequence[int] = (1 << 20,),
    seed: int = 1,
    pages: int = 256,
    room: int = 65536,
    asynchronous: bool = False,
) -> Tenant:
    """Runs a tenant alone for its slices; Refused tells why it is not admitted."""
    terms = terms_of(image, input, slices, seed, pages, room, asynchronous)
    output, calls, end = ctypes.create_string_buffer(65536), (_KeptCall * 64)(), _AloneEnd()
    code = _library.tb_alone(byref(terms.lent), output, 65536, calls, 64, byref(end))
    if code == OUT_OF_MEMORY:
        raise MemoryError
    if code == REFUSED:
        raise Refused(Refusal.of(end.refusal))
    return tenant_of(end, output.raw, calls)


def tenant_of(end: _AloneEnd, output: bytes, calls: ctypes.Array[_KeptCall]) -> Tenant:
    """A tenant by what the library says of it."""
    status = end.status
    return Tenant(
        TenantStatus.of(status.status), status.number, status.pc, status.pointer,
        Fault.of(status.fault) if status.fault.kind else None, end.steps, output[: end.output],
        end.calls,
        tuple(
            HeapCall(SERVICES[it.service], it.first, it.second, it.answer)
            for it in calls[: end.kept]
        ),
    )
