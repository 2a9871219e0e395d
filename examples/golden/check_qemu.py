#!/usr/bin/env python3
"""Compares golden steps with QEMU's user mode (qemu-aarch64 -cpu max), which has memory tagging.

    check_qemu.py FILE [SHOWN]

Prints the first SHOWN steps that differ (20) and the counts; status 1 where one differs in a way
that is not known (docs/GOLDEN.md, "Where QEMU differs"). It needs Debian's packages qemu-user and
gcc-aarch64-linux-gnu. Left out are what a program cannot set or see: system calls, and the state of
IRG's generator. A step in the asynchronous mode is made without checks of tags, and once more with
them, which tells whether the flag has to be set.
"""
from __future__ import annotations

import pathlib
import signal
import struct
import subprocess
import sys
import tempfile
from collections.abc import Iterator
from dataclasses import dataclass

from golden_steps import State, Step, Tally, are_near, compare_file, differences

HERE = pathlib.Path(__file__).resolve().parent
BASE = "0x5512340000"
BUILD = ["aarch64-linux-gnu-gcc", "-O1", "-march=armv8.5-a+memtag", "-static",
         "-no-pie", f"-Wl,-Ttext-segment={BASE}"]
# The keys of pointer authentication are drawn by the seed.
EMULATOR = ["qemu-aarch64", "-seed", "1", "-cpu", "max"]
REQUEST, GRANULE, ANSWER, ROOM = struct.Struct("<38Q"), struct.Struct("<Q16sQ"), \
    struct.Struct("<38Q"), 8
# What a signal and its code say of a fault.
KINDS = {(signal.SIGSEGV, 1): "Translation", (signal.SIGSEGV, 2): "Permission",
         (signal.SIGSEGV, 9): "TagCheck", (signal.SIGBUS, 1): "Alignment"}
STATE = ("x", "sp", "nzcv", "granules", "tags")
PLAIN = (1 << 56) - 1
# HINT numbers with which a core that has pointer authentication changes X17 or X30.
POINTER_AUTHENTICATION = (7, 8, 10, 12, 14, *range(24, 32))


@dataclass(frozen=True)
class Answer:
    """What QEMU's step left, how it ended, and the plain address that failed."""

    state: State
    signal: int
    code: int
    address: int


def excluded(step: Step) -> int:
    """The tags that IRG excludes: those of its register, and tag 0."""
    source = (step.word or 0) >> 16 & 31
    return (0 if source == 31 else step.before.x[source] & 0xFFFF) | 1


def why_left(step: Step) -> str:
    """Why a step is not made; empty where it is."""
    word = step.word or 0
    if step.row == "Svc" or word >> 24 == 0xD4 and step.row == "Refused":
        return "exceptions that QEMU takes as system calls"
    if step.row == "Irg" and excluded(step).bit_count() < 15:
        return "draws of IRG: a program cannot set the generator's state"
    if step.end["is"] == "next" and step.after.pc == step.before.pc:
        return "branches to themselves"
    if step.word is not None and step.before.pc + 4 & ~15 in step.before.granules:
        return "reads of the code about PC, where the harness has an instruction"
    return ""


@dataclass(frozen=True)
class Attempt:
    """A step that is made, with checks of tags or without."""

    step: Step
    is_checked: bool


def attempts_of(step: Step) -> list[Attempt]:
    """How a step is made: in the asynchronous mode without checks, and, where it goes on, once more
    with them, which tells whether a tag differs."""
    made = [Attempt(step, not step.asynchronous)]
    if step.asynchronous and step.end["is"] == "next":
        made.append(Attempt(step, True))
    return made


def request(it: Attempt) -> bytes:
    """What the harness reads of a step."""
    step, old = it.step, it.step.before
    granules = list(old.granules.items())[:ROOM]
    head = REQUEST.pack(*old.x, old.sp, old.pc, old.nzcv, it.is_checked,
                        step.word is not None, step.word or 0, len(granules))
    made = b"".join(GRANULE.pack(at, data, tag) for at, (data, tag) in granules)
    return head + made.ljust(ROOM * GRANULE.size, b"\0")


def read_answers(data: bytes) -> Iterator[Answer]:
    """The answers that the harness wrote."""
    at = 0
    while at + ANSWER.size <= len(data):
        *x, sp, pc, nzcv, number, code, address, count = ANSWER.unpack_from(data, at)
        at += ANSWER.size
        found = struct.iter_unpack(GRANULE.format, data[at:at + count * GRANULE.size])
        granules = {address: (held, tag) for address, held, tag in found}
        at += count * GRANULE.size
        yield Answer(State(x, sp, pc, nzcv, (0, 0), False, granules), number, code,
                     address & PLAIN)


def attempt(steps: list[Attempt]) -> list[Answer]:
    """Makes steps under QEMU."""
    with tempfile.TemporaryDirectory(prefix="golden-") as folder:
        program = pathlib.Path(folder) / "qemu_steps"
        try:
            subprocess.run([*BUILD, "-o", program, HERE / "qemu_steps.c"], check=True)
            ran = subprocess.run([*EMULATOR, program], input=b"".join(map(request, steps)),
                                 stdout=subprocess.PIPE, check=False)
        except (FileNotFoundError, subprocess.CalledProcessError) as error:
            sys.exit(f"check_qemu.py: {error}")
    answers = list(read_answers(ran.stdout))
    if ran.returncode or len(answers) != len(steps):
        sys.exit(f"check_qemu.py: QEMU ended with status {ran.returncode} behind "
                 f"{len(answers)} of {len(steps)} steps")
    return answers


def ended(step: Step, it: Answer) -> str:
    """How QEMU's step ended, in the words of the format; of a fault without the access."""
    if it.state.pc != step.before.pc:
        return "next"
    if it.signal in (signal.SIGILL, signal.SIGTRAP):
        return "illegal" if it.signal == signal.SIGILL else "break"
    kind = KINDS.get((signal.Signals(it.signal), it.code), f"{it.signal} {it.code}")
    # Of an address that is none of a program's, the signal does not tell it.
    at = step.end.get("at", "0") if it.address == 0 else f"{it.address:x}"
    return f"fault {kind} at {at}"


def wanted(step: Step) -> str:
    """How the step ended, as far as a program under QEMU sees."""
    end = step.end
    if end["is"] != "fault":
        return str(end["is"])
    kind = "Alignment" if end["kind"] == "PcAlignment" else end["kind"]
    return f"fault {kind} at {end['at']}"


def known(step: Step, end: str, told: list[str]) -> str:
    """What is known of such a difference (docs/GOLDEN.md); empty where nothing is."""
    word = step.word or 0
    names = {it.split()[0] for it in told}
    if step.end.get("kind") == "SpAlignment" and end != wanted(step):
        return "Q1 the stack pointer's alignment is not checked"
    if end == wanted(step) and end.startswith("fault") and names == {"granule"}:
        return "Q2 a store that faults has stored its first bytes"
    if end != wanted(step) and are_near(end, wanted(step)):
        return "Q3 another byte of an access over two pages faults first"
    if step.row == "Hint" and word >> 5 & 127 in POINTER_AUTHENTICATION and names <= {"x17", "x30"}:
        return "Q4 hints of pointer authentication, which this core has"
    if step.row == "Refused" and end != "illegal":
        return "Q5 words outside the profile that QEMU executes"
    return ""


def compare_step(step: Step, answers: list[Answer], tally: Tally) -> None:
    """Compares a step with how it was made: once, or without and with checks."""
    want, it = step.after, answers[0]
    want.granules = {at: held for at, held in want.granules.items() if at >= 0x110000}
    told = differences(want, it.state, STATE)
    end = ended(step, it)
    if end != wanted(step):
        told.insert(0, f"ends {end}")
    elif end == "next" and it.state.pc & PLAIN != want.pc:
        told.append(f"pc {it.state.pc:#x} not {want.pc:#x}")
    if step.asynchronous and step.end["is"] == "next":
        flag = step.before.pending or ended(step, answers[-1]).startswith("fault TagCheck")
        if flag != want.pending:
            told.append(f"pending {flag} not {want.pending}")
    tally.enter(step, told, known(step, end, told))


def compare(steps: Iterator[Step], tally: Tally) -> None:
    """Compares all steps of a file."""
    made: list[Step] = []
    for step in steps:
        why = why_left(step)
        if why:
            tally.leave(why)
        else:
            made.append(step)
    answers = iter(attempt([it for step in made for it in attempts_of(step)]))
    for step in made:
        compare_step(step, [next(answers) for _ in attempts_of(step)], tally)


if __name__ == "__main__":
    compare_file(__doc__, compare)
