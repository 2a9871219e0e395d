"""Tombolopan from Python, by ctypes: sessions of several tenants, a tenant alone, and a memory with
tags in which an A64 core steps. docs/PYTHON.md says more.

    tools/build.sh [--unproved] --only libtombolopan_c.a && pip install .

or, in a checkout:

    examples/embed/shared.sh libtombolopan.so
    TOMBOLOPAN=./libtombolopan.so PYTHONPATH=examples/embed python3 program.py

The shared object is found by the variable TOMBOLOPAN, else in this folder, beside it, where
tools/install.sh puts it, or where the system looks. Any number of threads may call at once, and a
call does not hold the interpreter's lock. A number that is out of its range is a ValueError with
its name and range, before anything is done.

A session is a function of its bytes: a script and the files that it refers to, from 1 on.

>>> script = b"admit 1 image 1 input 0 seed 0000000000000001 frames 5 out 16\\nslice 1 100\\n"
>>> print(session(11, script, [example("hi.elf")]).decode(), end="")
tenant 1
status exit 0
steps 8
output 2 4869
heap 0
end

>>> session(11, b"slice 1\\n", [])
Traceback (most recent call last):
    ...
tombolopan.ScriptError: script line 1: Syntax

A tenant alone does what it does in any session:

>>> tenant = alone(example("hi.elf"), slices=[100], pages=5, room=16)
>>> tenant.status, tenant.number, tenant.steps, tenant.output
(TenantStatus.EXIT, 0, 8, b'Hi')

A session that goes on is one whose script grows: each report is that of all lines so far, so a
tenant that is running goes on where it was, and what was told stays.

>>> host = Session(frames=11)
>>> image = host.add_file(example("hi.elf"))
>>> host.admit(1, image, pages=5, room=16)
>>> host.slice(1, 4)
>>> print(host.report().decode(), end="")
tenant 1
status running
steps 4
output 0
heap 0
end
>>> host.slice(1, 4)
>>> host.lines_of(1)
['status exit 0', 'steps 8', 'output 2 4869', 'heap 0']

A memory has pages, and a core steps in it:

>>> memory = Memory(places=2)  # or Memory(), which grows
>>> memory.map(0x10000, 4096, READ | EXEC)
>>> memory.load(0x10000, bytes.fromhex("00040091" "200020d4"))  # add x0, x0, #1; brk #1
>>> regs = Regs(pc=0x10000)
>>> regs.x0 = 41
>>> stop = run(memory, regs, steps=100)
>>> stop.code, stop.number, regs.x0, hex(regs.pc)
(Code.BREAKPOINT, 1, 42, '0x10004')

Tags are compared where a page has them:

>>> memory.map(0x20000, 4096, READ | WRITE | TAGGED)
>>> memory.store_tags(0x20000, granules=2, tag=5)
>>> memory.write(5 << 56 | 0x20000, b"sixteen bytes, 5")
>>> memory.read(5 << 56 | 0x20000, 7)
b'sixteen'
>>> memory.read(6 << 56 | 0x20000, 7)
Traceback (most recent call last):
    ...
tombolopan.Fault: TagCheck: a read at 0x20000, pointer tag 6, memory tag 5

A range is mapped as a whole or not at all, and texts say why:

>>> memory.map(0x30000, 8192, READ)
Traceback (most recent call last):
    ...
tombolopan.MappingError: no room at 0x30000
>>> text(NO_ROOM), fault_kind_name(3), heap_abort_name(6), script_fault_name(1), text(99)
('no room', 'TagCheck', 'AlreadyFree', 'Syntax', 'unknown')

A trace tells each access to memory; where one faults, it goes on once the reason is mended:

>>> memory.load(0x10000, bytes.fromhex("411000b9" "434440b9" "200020d4"))
>>> regs = Regs(pc=0x10000)  # str w1, [x2, #16]; ldr w3, [x2, #68]; brk #1
>>> regs.x1, regs.x2 = 77, 5 << 56 | 0x20000
>>> accesses = []
>>> trace(memory, regs, 100, accesses).code
Code.FAULT
>>> memory.store_tags(0x20000, granules=8, tag=5)
>>> trace(memory, regs, 100, accesses).code
Code.BREAKPOINT
>>> for it in accesses:
...     print(hex(it.pc), "write" if it.write else "read", it.size, hex(it.address), it.value)
0x10000 write 4 0x500000000020010 77
0x10004 read 4 0x500000000020044 0

A heap lives for one list of calls: a chunk is freed, and a load through the old pointer refused.

>>> chunk = heap_calls([(MALLOC, 24, 0)])[0].answer
>>> for it in heap_calls([(MALLOC, 24, 0), (FREE, chunk, 0), (LOAD, chunk, 0), (FREE, chunk, 0)]):
...     print(it.code, hex(it.answer), it.fault)
ok 0x100000012000010 None
ok 0x0 None
fault 0x0 TagCheck: a read at 0x12000010, pointer tag 1, memory tag 3
heap abort 0x4 None
"""
from __future__ import annotations

from .abi import (
    ABORT, ACCESS_READ, ACCESS_READ_TAG, ACCESS_WRITE, ACCESS_WRITE_TAG, ALIGNMENT, ALREADY_FREE,
    ALREADY_MAPPED, BAD_ARGUMENT, BAD_HEADERS, BAD_NUMBER, BAD_RESERVATION, BREAKPOINT, CALLOC,
    CODES, COMPARED_ADDS, COMPARED_ANDS, COMPARED_CALL, COMPARED_CBZ, COMPARED_CCMN, COMPARED_CCMP,
    COMPARED_EOR_CBZ, COMPARED_SUBS, COMPARED_SUB_CBZ, COMPARED_TBZ, COMPARISONS, EXEC, FAULT,
    FAULT_KINDS, FREE, FREED, HEADER_CORRUPT, HEAP_ABORTS, ILLEGAL, INTERPRETER, INVALID_STATE,
    LOAD, LOAD_TAG, MALLOC, MEMALIGN, MISALIGNED, NOT_AARCH64, NOT_A_BLOCK, NOT_ELF64, NOT_EXEC,
    NOT_MAPPED, NO_CHUNK, NO_ENTRY, NO_MACHINE, NO_ROOM, NO_SUCH_FILE, OK, OUT_OF_MEMORY, OVERLAP,
    PAST_SIZE, PC_ALIGNMENT, PERMISSION, READ, REALLOC, REFUSALS, REFUSED, RESERVATION_TOO_SMALL,
    SCRIPT, SCRIPT_FAULTS, SEGMENT_RANGE, SHORT, SP_ALIGNMENT, STATUSES, STATUS_ABORT, STATUS_ASYNC,
    STATUS_BREAK, STATUS_EXIT, STATUS_FAULT, STATUS_ILLEGAL, STATUS_RUNNING, STOPPED, STORE, SVC,
    SYNTAX, TAGGED, TAG_CHECK, TOO_MANY_EVENTS, TRANSLATION, TRESPASSES, UNMAPPED, USABLE_SIZE,
    VERSION, WRITE,
)
from .build import build_info
from .disassembly import disassemble
from .enums import (
    AccessKind, Attrs, Code, Compared, FaultKind, HeapAbort, HeapOp, Refusal, ScriptFault,
    TenantStatus, Trespass, comparison_name, fault_kind_name, heap_abort_name, refusal_name,
    script_fault_name, tenant_status_name, text, trespass_name,
)
from .examples import example
from .explaining import (
    AnswerForm, Chunk, Explained, Explanation, Frame, Profile, explain, profile, why,
)
from .faults import Fault, MappingError, Refused, ScriptError
from .fuzzing import Comparison, Fuzz, FuzzFinding, FuzzRun
from .heaps import HeapAnswer, heap_calls
from .hooks import Block, Hooked, Instruction, TracedAccess, hook_block, hook_code, hook_mem
from .machines import Machine
from .memory import Memory, Region
from .registers import Regs
from .replays import Answer, Heap, LiveChunk, Replay
from .runs import Stop, run, step
from .sessions import Session, session
from .tenants import HeapCall, Tenant, alone
from .traces import Access, access_size, trace, trace_step
from .works import Work, work

__all__ = [
    "ABORT", "ACCESS_READ", "ACCESS_READ_TAG", "ACCESS_WRITE", "ACCESS_WRITE_TAG", "ALIGNMENT",
    "ALREADY_FREE", "ALREADY_MAPPED", "Access", "AccessKind", "Answer", "AnswerForm", "Attrs",
    "BAD_ARGUMENT", "BAD_HEADERS", "BAD_NUMBER", "BAD_RESERVATION", "BREAKPOINT", "Block", "CALLOC",
    "CODES", "COMPARED_ADDS", "COMPARED_ANDS", "COMPARED_CALL", "COMPARED_CBZ", "COMPARED_CCMN",
    "COMPARED_CCMP", "COMPARED_EOR_CBZ", "COMPARED_SUBS", "COMPARED_SUB_CBZ", "COMPARED_TBZ",
    "COMPARISONS", "Chunk", "Code", "Compared", "Comparison", "EXEC", "Explained", "Explanation",
    "FAULT", "FAULT_KINDS", "FREE", "FREED", "Fault", "FaultKind", "Frame", "Fuzz", "FuzzFinding",
    "FuzzRun", "HEADER_CORRUPT", "HEAP_ABORTS", "Heap", "HeapAbort", "HeapAnswer", "HeapCall",
    "HeapOp", "Hooked", "ILLEGAL", "INTERPRETER", "INVALID_STATE", "Instruction", "LOAD",
    "LOAD_TAG", "LiveChunk", "MALLOC", "MEMALIGN", "MISALIGNED", "Machine", "MappingError",
    "Memory", "NOT_AARCH64", "NOT_A_BLOCK", "NOT_ELF64", "NOT_EXEC", "NOT_MAPPED", "NO_CHUNK",
    "NO_ENTRY", "NO_MACHINE", "NO_ROOM", "NO_SUCH_FILE", "OK", "OUT_OF_MEMORY", "OVERLAP",
    "PAST_SIZE", "PC_ALIGNMENT", "PERMISSION", "Profile", "READ", "REALLOC", "REFUSALS", "REFUSED",
    "RESERVATION_TOO_SMALL", "Refusal", "Refused", "Region", "Regs", "Replay", "SCRIPT",
    "SCRIPT_FAULTS", "SEGMENT_RANGE", "SHORT", "SP_ALIGNMENT", "STATUSES", "STATUS_ABORT",
    "STATUS_ASYNC", "STATUS_BREAK", "STATUS_EXIT", "STATUS_FAULT", "STATUS_ILLEGAL",
    "STATUS_RUNNING", "STOPPED", "STORE", "SVC", "SYNTAX", "ScriptError", "ScriptFault", "Session",
    "Stop", "TAGGED", "TAG_CHECK", "TOO_MANY_EVENTS", "TRANSLATION", "TRESPASSES", "Tenant",
    "TenantStatus", "TracedAccess", "Trespass", "UNMAPPED", "USABLE_SIZE", "VERSION", "WRITE",
    "Work", "access_size", "alone", "build_info", "comparison_name", "disassemble", "example",
    "explain",
    "fault_kind_name", "heap_abort_name", "heap_calls", "hook_block", "hook_code", "hook_mem",
    "profile", "refusal_name", "run", "script_fault_name", "session", "step", "tenant_status_name",
    "text", "trace", "trace_step", "trespass_name", "why", "work",
]
# Their names in tracebacks and in what is pickled.
for _it in (Fault, MappingError, Refused, ScriptError, Memory, Region, Regs, Session, Answer,
            FuzzFinding, FuzzRun, LiveChunk, Block, Instruction, TracedAccess):
    _it.__module__ = __name__
