"""The numbers and words of the library as enums, and the texts of numbers.

>>> Code.BREAKPOINT == "breakpoint", Code.BREAKPOINT.number, f"{FaultKind.TAG_CHECK}"
(True, 3, 'TagCheck')
>>> Code.of(7), Attrs(5), text(99)
(Code.NO_ROOM, <Attrs.READ|EXEC: 5>, 'unknown')
"""
from __future__ import annotations

from collections.abc import Mapping
from enum import IntEnum, IntFlag

from .abi import (
    CODES, COMPARISONS, FAULT_KINDS, HEAP_ABORTS, REFUSALS, SCRIPT_FAULTS, STATUSES, TRESPASSES,
)
from .words import Word

# Written by tools/border.py: the enums

class Code(Word):
    """What calls answer."""

    OK = 0, "ok"
    FAULT = 1, "fault"
    SVC = 2, "svc"
    BREAKPOINT = 3, "breakpoint"
    ILLEGAL = 4, "illegal instruction"
    NOT_MAPPED = 5, "page not mapped"
    ALREADY_MAPPED = 6, "page already mapped"
    NO_ROOM = 7, "no room"
    BAD_ARGUMENT = 8, "bad argument"
    ABORT = 9, "heap abort"
    OUT_OF_MEMORY = 10, "out of memory"
    SCRIPT = 11, "faulty script line"
    REFUSED = 12, "tenant refused"
    STOPPED = 13, "stopped"
    NO_MACHINE = 14, "no machine"


class FaultKind(Word):
    """Why an access faulted; 0 is no fault."""

    TRANSLATION = 1, "Translation"
    PERMISSION = 2, "Permission"
    TAG_CHECK = 3, "TagCheck"
    ALIGNMENT = 4, "Alignment"
    SP_ALIGNMENT = 5, "SpAlignment"
    PC_ALIGNMENT = 6, "PcAlignment"


class HeapOp(IntEnum):
    """What tb_heap_calls makes. TB_LOAD and TB_STORE are accesses of 8 bytes, the lowest first, and
    compare the tags; TB_LOAD_TAG compares none."""

    MALLOC = 1
    FREE = 2
    CALLOC = 3
    REALLOC = 4
    MEMALIGN = 5
    USABLE_SIZE = 6
    LOAD = 7
    STORE = 8
    LOAD_TAG = 9


class HeapAbort(Word):
    """Why a pointer that was handed to the heap is refused: the first check that it fails."""

    MISALIGNED = 1, "Misaligned"
    UNMAPPED = 2, "Unmapped"
    HEADER_CORRUPT = 3, "HeaderCorrupt"
    INVALID_STATE = 4, "InvalidState"
    NOT_A_BLOCK = 5, "NotABlock"
    ALREADY_FREE = 6, "AlreadyFree"


class ScriptFault(Word):
    """What is wrong with a line of a script, in the order in which it is tested."""

    SYNTAX = 1, "Syntax"
    BAD_NUMBER = 2, "BadNumber"
    NO_SUCH_FILE = 3, "NoSuchFile"
    TOO_MANY_EVENTS = 4, "TooManyEvents"


class Refusal(Word):
    """Why a tenant alone is not admitted: the first that applies."""

    BAD_RESERVATION = 2, "BadReservation"
    RESERVATION_TOO_SMALL = 3, "ReservationTooSmall"
    SHORT = 6, "Short"
    NOT_ELF64 = 7, "NotElf64"
    NOT_AARCH64 = 8, "NotAarch64"
    NOT_EXEC = 9, "NotExec"
    BAD_HEADERS = 10, "BadHeaders"
    INTERPRETER = 11, "Interpreter"
    SEGMENT_RANGE = 12, "SegmentRange"
    OVERLAP = 13, "Overlap"
    NO_ENTRY = 14, "NoEntry"


class TenantStatus(Word):
    """What became of a tenant, as the report of a session has it."""

    RUNNING = 1, "running"
    EXIT = 2, "exit"
    FAULT = 3, "fault"
    ILLEGAL = 4, "illegal"
    BREAK = 5, "break"
    ASYNC = 6, "async"
    ABORT = 7, "abort"


class Attrs(IntFlag):
    """What may be done with a page: a sum of these."""

    READ = 1
    WRITE = 2
    EXEC = 4
    TAGGED = 8


class AccessKind(IntFlag):
    """What a traced access is: a sum of these."""

    READ = 1
    WRITE = 2
    READ_TAG = 4
    WRITE_TAG = 8


class Act(IntEnum):
    """What is done to a machine between its slices, or a slice (tb_machine_act)."""

    ACT_SLICE = 1
    ACT_GET = 2
    ACT_SET = 3
    ACT_LOAD = 4
    ACT_STORE = 5
    ACT_LOAD_TAG = 6


class Trespass(Word):
    """What an access does that the bounds of chunks forbid; 0 is no such access."""

    PAST_SIZE = 1, "PastSize"
    FREED = 2, "Freed"
    NO_CHUNK = 3, "NoChunk"


class Compared(Word):
    """What compared two numbers, or texts (tb_comparison); 0 where nothing is entered."""

    SUBS = 1, "subs"
    ADDS = 2, "adds"
    ANDS = 3, "ands"
    CCMP = 4, "ccmp"
    CCMN = 5, "ccmn"
    CBZ = 6, "cbz"
    TBZ = 7, "tbz"
    SUB_CBZ = 8, "sub cbz"
    EOR_CBZ = 9, "eor cbz"
    CALL = 10, "call"

# End of what tools/border.py writes.


def _entry(of: Mapping[int, str], number: int) -> str:
    """The entry of a number, or "unknown" where there is none."""
    return of.get(number, "unknown")


def text(code: int) -> str:
    """What a code says that a call answered, in a few words."""
    return _entry(CODES, code)


def fault_kind_name(kind: int) -> str:
    """The name of a fault's kind as reports have it; "none" for 0."""
    return _entry(FAULT_KINDS, kind)


def heap_abort_name(why: int) -> str:
    """The name of why the heap refused a pointer, as reports have it; "none" for 0."""
    return _entry(HEAP_ABORTS, why)


def script_fault_name(fault: int) -> str:
    """The name of what is wrong with a script's line, as mte_host writes it; "none" for 0."""
    return _entry(SCRIPT_FAULTS, fault)


def refusal_name(refusal: int) -> str:
    """The name of why a tenant is not admitted, as reports have it; "none" for 0."""
    return _entry(REFUSALS, refusal)


def tenant_status_name(status: int) -> str:
    """The name of a tenant's status, as reports have it; "none" for 0."""
    return _entry(STATUSES, status)


def trespass_name(kind: int) -> str:
    """The name of what an access does beyond its chunk; "none" for 0."""
    return _entry(TRESPASSES, kind)


def comparison_name(kind: int) -> str:
    """The name of what compared two numbers, or texts; "none" for 0."""
    return _entry(COMPARISONS, kind)
