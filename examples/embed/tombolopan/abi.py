"""The library for C as it is: its numbers, structures and calls, by ctypes."""
from __future__ import annotations

import ctypes
import os
import pathlib
from ctypes import POINTER, c_bool, c_size_t, c_uint8, c_uint16, c_uint32, c_uint64, c_void_p

# Written by tools/border.py: the numbers and texts

VERSION = 2

# tb_code
OK = 0
FAULT = 1
SVC = 2
BREAKPOINT = 3
ILLEGAL = 4
NOT_MAPPED = 5
ALREADY_MAPPED = 6
NO_ROOM = 7
BAD_ARGUMENT = 8
ABORT = 9
OUT_OF_MEMORY = 10
SCRIPT = 11
REFUSED = 12
STOPPED = 13
NO_MACHINE = 14
CODES = {
    OK: "ok", FAULT: "fault", SVC: "svc", BREAKPOINT: "breakpoint", ILLEGAL: "illegal instruction",
    NOT_MAPPED: "page not mapped", ALREADY_MAPPED: "page already mapped", NO_ROOM: "no room",
    BAD_ARGUMENT: "bad argument", ABORT: "heap abort", OUT_OF_MEMORY: "out of memory",
    SCRIPT: "faulty script line", REFUSED: "tenant refused", STOPPED: "stopped",
    NO_MACHINE: "no machine",
}

# tb_fault_kind
TRANSLATION = 1
PERMISSION = 2
TAG_CHECK = 3
ALIGNMENT = 4
SP_ALIGNMENT = 5
PC_ALIGNMENT = 6
FAULT_KINDS = {
    0: "none", TRANSLATION: "Translation", PERMISSION: "Permission", TAG_CHECK: "TagCheck",
    ALIGNMENT: "Alignment", SP_ALIGNMENT: "SpAlignment", PC_ALIGNMENT: "PcAlignment",
}

# tb_heap_op
MALLOC = 1
FREE = 2
CALLOC = 3
REALLOC = 4
MEMALIGN = 5
USABLE_SIZE = 6
LOAD = 7
STORE = 8
LOAD_TAG = 9

# tb_heap_abort
MISALIGNED = 1
UNMAPPED = 2
HEADER_CORRUPT = 3
INVALID_STATE = 4
NOT_A_BLOCK = 5
ALREADY_FREE = 6
HEAP_ABORTS = {
    0: "none", MISALIGNED: "Misaligned", UNMAPPED: "Unmapped", HEADER_CORRUPT: "HeaderCorrupt",
    INVALID_STATE: "InvalidState", NOT_A_BLOCK: "NotABlock", ALREADY_FREE: "AlreadyFree",
}

# tb_script_fault
SYNTAX = 1
BAD_NUMBER = 2
NO_SUCH_FILE = 3
TOO_MANY_EVENTS = 4
SCRIPT_FAULTS = {
    0: "none", SYNTAX: "Syntax", BAD_NUMBER: "BadNumber", NO_SUCH_FILE: "NoSuchFile",
    TOO_MANY_EVENTS: "TooManyEvents",
}

# tb_refusal
BAD_RESERVATION = 2
RESERVATION_TOO_SMALL = 3
SHORT = 6
NOT_ELF64 = 7
NOT_AARCH64 = 8
NOT_EXEC = 9
BAD_HEADERS = 10
INTERPRETER = 11
SEGMENT_RANGE = 12
OVERLAP = 13
NO_ENTRY = 14
REFUSALS = {
    0: "none", BAD_RESERVATION: "BadReservation", RESERVATION_TOO_SMALL: "ReservationTooSmall",
    SHORT: "Short", NOT_ELF64: "NotElf64", NOT_AARCH64: "NotAarch64", NOT_EXEC: "NotExec",
    BAD_HEADERS: "BadHeaders", INTERPRETER: "Interpreter", SEGMENT_RANGE: "SegmentRange",
    OVERLAP: "Overlap", NO_ENTRY: "NoEntry",
}

# tb_tenant_status
STATUS_RUNNING = 1
STATUS_EXIT = 2
STATUS_FAULT = 3
STATUS_ILLEGAL = 4
STATUS_BREAK = 5
STATUS_ASYNC = 6
STATUS_ABORT = 7
STATUSES = {
    0: "none", STATUS_RUNNING: "running", STATUS_EXIT: "exit", STATUS_FAULT: "fault",
    STATUS_ILLEGAL: "illegal", STATUS_BREAK: "break", STATUS_ASYNC: "async", STATUS_ABORT: "abort",
}

# tb_attrs
READ = 1
WRITE = 2
EXEC = 4
TAGGED = 8

# tb_access_kind
ACCESS_READ = 1
ACCESS_WRITE = 2
ACCESS_READ_TAG = 4
ACCESS_WRITE_TAG = 8

# tb_act
ACT_SLICE = 1
ACT_GET = 2
ACT_SET = 3
ACT_LOAD = 4
ACT_STORE = 5
ACT_LOAD_TAG = 6

# tb_trespass
PAST_SIZE = 1
FREED = 2
NO_CHUNK = 3
TRESPASSES = {
    0: "none", PAST_SIZE: "PastSize", FREED: "Freed", NO_CHUNK: "NoChunk",
}

# tb_compared
COMPARED_SUBS = 1
COMPARED_ADDS = 2
COMPARED_ANDS = 3
COMPARED_CCMP = 4
COMPARED_CCMN = 5
COMPARED_CBZ = 6
COMPARED_TBZ = 7
COMPARED_SUB_CBZ = 8
COMPARED_EOR_CBZ = 9
COMPARED_CALL = 10
COMPARISONS = {
    0: "none", COMPARED_SUBS: "subs", COMPARED_ADDS: "adds", COMPARED_ANDS: "ands",
    COMPARED_CCMP: "ccmp", COMPARED_CCMN: "ccmn", COMPARED_CBZ: "cbz", COMPARED_TBZ: "tbz",
    COMPARED_SUB_CBZ: "sub cbz", COMPARED_EOR_CBZ: "eor cbz", COMPARED_CALL: "call",
}

# End of what tools/border.py writes.


class _Bytes(ctypes.Structure):
    _fields_ = [("bytes", c_void_p), ("length", c_size_t)]


class _SessionEnd(ctypes.Structure):
    _fields_ = [("length", c_uint64), ("line", c_uint64), ("code", c_uint32), ("fault", c_uint32)]


class _Terms(ctypes.Structure):
    _fields_ = [
        ("image", c_void_p), ("image_length", c_size_t), ("input", c_void_p),
        ("input_length", c_size_t), ("slices", c_void_p), ("slice_count", c_size_t),
        ("seed", c_uint64), ("pages", c_uint32), ("room", c_uint32), ("asynchronous", c_uint32),
        ("unused", c_uint32),
    ]


class _Fault(ctypes.Structure):
    _fields_ = [
        ("addr", c_uint64), ("kind", c_uint32), ("write", c_uint32), ("ptr_tag", c_uint32),
        ("mem_tag", c_uint32),
    ]


class _Status(ctypes.Structure):
    _fields_ = [
        ("status", c_uint32), ("number", c_uint32), ("pc", c_uint64), ("pointer", c_uint64),
        ("fault", _Fault),
    ]


class _KeptCall(ctypes.Structure):
    _fields_ = [
        ("service", c_uint64), ("first", c_uint64), ("second", c_uint64), ("answer", c_uint64),
    ]


class _AloneEnd(ctypes.Structure):
    _fields_ = [
        ("steps", c_uint64), ("output", c_uint64), ("calls", c_uint64), ("kept", c_uint64),
        ("status", _Status), ("code", c_uint32), ("refusal", c_uint32),
    ]


class _Fuzz(ctypes.Structure):
    _fields_ = [("machine", c_void_p)]


class _FuzzInput(ctypes.Structure):
    _fields_ = [
        ("input", c_void_p), ("input_length", c_size_t), ("slices", c_void_p),
        ("slice_count", c_size_t), ("saturating", c_uint32), ("unused", c_uint32),
    ]


class _FuzzFinding(ctypes.Structure):
    _fields_ = [
        ("step", c_uint64), ("pc", c_uint64), ("addr", c_uint64), ("pointer", c_uint64),
        ("size", c_uint64), ("kind", c_uint32), ("write", c_uint32), ("missed", c_uint32),
        ("unused", c_uint32),
    ]


class _Comparison(ctypes.Structure):
    _fields_ = [
        ("step", c_uint64), ("pc", c_uint64), ("left", c_uint64), ("right", c_uint64),
        ("length", c_uint64), ("kind", c_uint32), ("width", c_uint32),
    ]


class _Comparisons(ctypes.Structure):
    _fields_ = [
        ("functions", c_void_p), ("function_count", c_size_t), ("entries", c_void_p),
        ("entry_count", c_size_t),
    ]


class _Page(ctypes.Structure):
    _fields_ = [
        ("number", c_uint64), ("mapped", c_uint32), ("attrs", c_uint32), ("bytes", c_uint8 * 4096),
        ("tags", c_uint8 * 256),
    ]


class _TagState(ctypes.Structure):
    _fields_ = [("asynchronous", c_uint32), ("pending", c_uint32)]


class _Stop(ctypes.Structure):
    _fields_ = [("left", c_uint64), ("code", c_uint32), ("number", c_uint32), ("fault", _Fault)]


class _TagStore(ctypes.Structure):
    _fields_ = [("addr", c_uint64), ("granules", c_uint64), ("tag", c_uint32), ("zero", c_uint32)]


class _HeapSetup(ctypes.Structure):
    _fields_ = [
        ("cookie", c_uint32), ("pages", c_uint32), ("asynchronous", c_uint32),
        ("rgsr_seed", c_uint16), ("rgsr_tag", c_uint16),
    ]


class _HeapCall(ctypes.Structure):
    _fields_ = [
        ("op", c_uint32), ("code", c_uint32), ("first", c_uint64), ("second", c_uint64),
        ("answer", c_uint64), ("fault", _Fault),
    ]


class _Regs(ctypes.Structure):
    _fields_ = [
        ("x", c_uint64 * 31), ("sp", c_uint64), ("pc", c_uint64), ("nzcv", c_uint32),
        ("rgsr_seed", c_uint16), ("rgsr_tag", c_uint16),
    ]


class _HeapStep(ctypes.Structure):
    _fields_ = [("call", _HeapCall), ("first_of", c_uint32), ("second_of", c_uint32)]


class _LiveChunk(ctypes.Structure):
    _fields_ = [
        ("address", c_uint64), ("size", c_uint64), ("call", c_uint64), ("tag", c_uint32),
        ("unused", c_uint32),
    ]


class _MachineAct(ctypes.Structure):
    _fields_ = [
        ("act", c_uint32), ("number", c_uint32), ("addr", c_uint64), ("value", c_uint64),
        ("answer", c_uint64), ("code", c_uint32), ("unused", c_uint32), ("fault", _Fault),
    ]


class _MachineEnd(ctypes.Structure):
    _fields_ = [("alone", _AloneEnd), ("regs", _Regs)]


class _PageEntry(ctypes.Structure):
    _fields_ = [("number", c_uint64), ("attrs", c_uint32), ("unused", c_uint32)]


class _TraceRequest(ctypes.Structure):
    _fields_ = [
        ("stops", POINTER(c_uint64)), ("stop_count", c_size_t), ("steps", c_uint64),
        ("code_low", c_uint64), ("code_high", c_uint64), ("low", c_uint64), ("high", c_uint64),
        ("kinds", c_uint32), ("unused", c_uint32),
    ]


class _TracedInstruction(ctypes.Structure):
    _fields_ = [("step", c_uint64), ("pc", c_uint64), ("word", c_uint32), ("unused", c_uint32)]


class _TracedAccess(ctypes.Structure):
    _fields_ = [
        ("step", c_uint64), ("pc", c_uint64), ("addr", c_uint64), ("value", c_uint64 * 2),
        ("size", c_uint32), ("kind", c_uint32),
    ]


class _TraceArrays(ctypes.Structure):
    _fields_ = [
        ("instructions", POINTER(_TracedInstruction)), ("instruction_room", c_size_t),
        ("accesses", POINTER(_TracedAccess)), ("access_room", c_size_t),
    ]


class _TraceReport(ctypes.Structure):
    _fields_ = [
        ("steps", c_uint64), ("instructions", c_uint64), ("accesses", c_uint64),
        ("code", c_uint32), ("number", c_uint32), ("fault", _Fault),
    ]


# The types of each call's arguments: a memory is its places, how many they are, and its tag state.
_PLACES = [POINTER(_Page), c_size_t]
_MEMORY = [*_PLACES, POINTER(_TagState)]
_CALLS = {
    "tb_version": [],
    "tb_build_info": [c_void_p, c_size_t],
    "tb_session": [
        c_uint32, c_void_p, c_size_t, POINTER(_Bytes), c_size_t, c_void_p, c_size_t,
        POINTER(_SessionEnd),
    ],
    "tb_alone": [
        POINTER(_Terms), c_void_p, c_size_t, POINTER(_KeptCall), c_size_t, POINTER(_AloneEnd),
    ],
    "tb_fuzz_new": [POINTER(_Terms), POINTER(_Fuzz), POINTER(_AloneEnd)],
    "tb_fuzz_run": [
        POINTER(_Fuzz), POINTER(_FuzzInput), c_void_p, c_size_t, POINTER(_AloneEnd),
    ],
    "tb_fuzz_run_exact": [
        POINTER(_Fuzz), POINTER(_FuzzInput), c_void_p, c_size_t, POINTER(_AloneEnd),
        POINTER(_FuzzFinding),
    ],
    "tb_fuzz_run_compared": [
        POINTER(_Fuzz), POINTER(_FuzzInput), c_void_p, c_size_t, POINTER(_Comparisons),
        POINTER(_AloneEnd),
    ],
    "tb_fuzz_read": [POINTER(_Fuzz), c_uint64, c_void_p, c_size_t],
    "tb_fuzz_free": [POINTER(_Fuzz)],
    "tb_machine_acts": [
        POINTER(_Terms), POINTER(_MachineAct), c_size_t, c_void_p, c_size_t, POINTER(_KeptCall),
        c_size_t, POINTER(_MachineEnd),
    ],
    "tb_machine_pages": [
        POINTER(_Terms), POINTER(_MachineAct), c_size_t, POINTER(_PageEntry), c_size_t,
        POINTER(c_uint64),
    ],
    "tb_memory_init": [*_MEMORY, c_bool],
    "tb_map": [*_PLACES, c_uint64, c_uint32],
    "tb_unmap": [*_PLACES, c_uint64],
    "tb_read": [*_MEMORY, c_uint64, c_void_p, c_size_t, c_bool, POINTER(_Fault)],
    "tb_write": [*_MEMORY, c_uint64, c_void_p, c_size_t, c_bool, POINTER(_Fault)],
    "tb_load": [*_MEMORY, c_uint64, c_void_p, c_size_t],
    "tb_load_tag": [*_MEMORY, c_uint64, POINTER(c_uint8), POINTER(_Fault)],
    "tb_store_tags": [*_MEMORY, POINTER(_TagStore), POINTER(_Fault)],
    "tb_step": [*_MEMORY, POINTER(_Regs), POINTER(_Stop)],
    "tb_run": [*_MEMORY, POINTER(_Regs), c_uint64, POINTER(_Stop)],
    "tb_run_until": [
        *_MEMORY, POINTER(_Regs), c_uint64, POINTER(c_uint64), c_size_t, POINTER(_Stop),
    ],
    "tb_heap_calls": [POINTER(_HeapSetup), POINTER(_HeapCall), c_size_t],
    "tb_heap_replay": [POINTER(_HeapSetup), POINTER(_HeapStep), c_size_t, POINTER(c_uint64)],
    "tb_heap_pages": [
        POINTER(_HeapSetup), POINTER(_HeapStep), c_size_t, POINTER(_PageEntry), c_size_t,
        POINTER(c_uint64), POINTER(c_uint64),
    ],
    "tb_heap_live": [
        POINTER(_HeapStep), c_size_t, POINTER(_LiveChunk), c_size_t, POINTER(c_uint64),
    ],
    "tb_run_traced": [
        *_MEMORY, POINTER(_Regs), POINTER(_TraceRequest), POINTER(_TraceArrays),
        POINTER(_TraceReport),
    ],
    "tb_disassemble": [c_uint32, c_uint64, c_void_p, c_size_t],
}
# What those answer that answer no number of 32 bits.
_RESULTS = {"tb_memory_init": None, "tb_fuzz_free": None}


def _library_name() -> str:
    """The library that TOMBOLOPAN names, else that of a wheel, of a checkout or of a prefix, else
    what the system has."""
    here = pathlib.Path(__file__).resolve().parent
    near = [here / "libtombolopan.so", here.with_name("libtombolopan.so")]
    near += [it.parents[1] / "lib" / "libtombolopan.so" for it in here.parents
             if it.parts[-2:] == ("share", "tombolopan")]
    found = next((str(it) for it in near if it.exists()), None)
    return os.environ.get("TOMBOLOPAN") or found or f"libtombolopan.so.{VERSION}"


def _load() -> ctypes.CDLL:
    name = _library_name()
    try:
        library = ctypes.CDLL(name)
    except OSError as error:
        raise OSError(f"{error} (examples/embed/shared.sh makes libtombolopan.so)") from error
    for call, types in _CALLS.items():
        it = getattr(library, call)
        it.argtypes, it.restype = types, _RESULTS.get(call, c_uint32)
    if library.tb_version() != VERSION:
        raise OSError(f"{name} has version {library.tb_version()}, not {VERSION}")
    return library


def _lend(data: bytes) -> _Bytes:
    """The pointer to some bytes, which the caller keeps alive. It is never null."""
    return _Bytes(ctypes.cast(ctypes.c_char_p(data), c_void_p), len(data))


_library = _load()
