#!/usr/bin/env python3
"""Compares golden steps with Unicorn 2 (libunicorn.so.2).

    check_unicorn.py FILE [SHOWN]

Prints the first SHOWN steps that differ (20) and the counts; status 1 where one differs in a
way that is not known (docs/GOLDEN.md, "Where Unicorn differs"). Steps of the rows of memory
tagging, and steps that a tag decides, are left out: Unicorn has no tags.
"""
from __future__ import annotations

import ctypes
import ctypes.util
import sys
from collections.abc import Iterator

from golden_steps import (
    CODE, MAP, TAG_ROWS, State, Step, Tally, are_near, compare_file, differences, end_text,
)

ARM64, ARM, HOOK_INTR, HOOK_INVALID = 2, 0, 1, 1008
# Of enum uc_arm64_reg.
X = [199 + n for n in range(29)] + [1, 2]
NZCV, SP, PC = 3, 4, 260
# uc_ctl: forget the translations of a range, and those of all.
REMOVE_CACHE = 9 | 2 << 26 | 1 << 30
PROTECTION = {"R": 1, "W": 2, "X": 4}
# Errors of uc_emu_start as faults: the kind, and the access.
FAULTS = {6: ("Translation", "read"), 7: ("Translation", "write"), 8: ("Translation", "read"),
          12: ("Permission", "write"), 13: ("Permission", "read"), 14: ("Permission", "read")}
FETCHES = (8, 14)
INVALID = 10
# Numbers of exceptions: UDEF, SWI, BKPT.
EXCEPTIONS = {1: "illegal", 2: "svc", 7: "break"}
STATE = ("x", "sp", "nzcv", "granules")


class Unicorn:
    """One engine with the map of the steps."""

    def __init__(self) -> None:
        try:
            self.library = ctypes.CDLL("libunicorn.so.2")
        except OSError as error:
            sys.exit(f"check_unicorn.py: {error} (Debian's package libunicorn2)")
        self.engine = ctypes.c_void_p()
        self.call("uc_open", ARM64, ARM, ctypes.byref(self.engine))
        for start, count, letters in MAP:
            allowed = sum(PROTECTION.get(it, 0) for it in letters)
            self.call("uc_mem_map", self.engine, ctypes.c_uint64(start),
                      ctypes.c_size_t(4096 * count), allowed)
        self.interrupt, self.failed = -1, 0
        self.hooks: list[object] = []
        self.add_hooks()

    def call(self, name: str, *words: object) -> None:
        """A call that has to succeed."""
        code = getattr(self.library, name)(*words)
        if code:
            sys.exit(f"check_unicorn.py: {name} answers {code}")

    def add_hook(self, kind: int, callback: object) -> None:
        """Adds a hook of a kind, over all addresses."""
        self.hooks.append(callback)
        self.call("uc_hook_add", self.engine, ctypes.byref(ctypes.c_size_t()), kind, callback, None,
                  ctypes.c_uint64(1), ctypes.c_uint64(0))

    def add_hooks(self) -> None:
        """Keeps the number of an exception, which stops; and the address of an access that
        fails."""
        engine, data = ctypes.c_void_p, ctypes.c_void_p
        interrupt = ctypes.CFUNCTYPE(None, engine, ctypes.c_uint32, data)
        access = ctypes.CFUNCTYPE(ctypes.c_bool, engine, ctypes.c_int, ctypes.c_uint64,
                                  ctypes.c_int, ctypes.c_int64, data)

        def enter(_engine: object, number: int, _data: object) -> None:
            self.interrupt = number
            self.library.uc_emu_stop(self.engine)

        def fail(_engine: object, _kind: int, at: int, *_rest: object) -> bool:
            self.failed = at
            return False

        self.add_hook(HOOK_INTR, interrupt(enter))
        self.add_hook(HOOK_INVALID, access(fail))

    def register(self, number: int, value: int | None = None) -> int:
        """A register's value, which is set first where one is given."""
        held = ctypes.c_uint64(value or 0)
        name = "uc_reg_read" if value is None else "uc_reg_write"
        self.call(name, self.engine, number, ctypes.byref(held))
        return held.value

    def write(self, at: int, data: bytes) -> None:
        """Writes memory, whatever may be done with it."""
        self.call("uc_mem_write", self.engine, ctypes.c_uint64(at), data,
                  ctypes.c_size_t(len(data)))

    def read(self, at: int, length: int) -> bytes:
        """Reads memory."""
        data = ctypes.create_string_buffer(length)
        self.call("uc_mem_read", self.engine, ctypes.c_uint64(at), data, ctypes.c_size_t(length))
        return data.raw

    def enter(self, state: State, word: int | None) -> None:
        """Sets all of a state, and forgets translations of code that was there before."""
        for at, (data, _) in state.granules.items():
            self.write(at, data)
        if word is not None:
            self.write(state.pc, word.to_bytes(4, "little"))
        self.library.uc_ctl(self.engine, REMOVE_CACHE, ctypes.c_uint64(CODE),
                            ctypes.c_uint64(CODE + 8192))
        for number, value in zip([*X, SP, NZCV], [*state.x, state.sp, state.nzcv << 28]):
            self.register(number, value)

    def attempt(self, pc: int) -> int:
        """Attempts one instruction: the error of uc_emu_start."""
        self.interrupt, self.failed = -1, 0
        return int(self.library.uc_emu_start(
            self.engine, ctypes.c_uint64(pc), ctypes.c_uint64((1 << 64) - 1), ctypes.c_uint64(0),
            ctypes.c_size_t(1)))

    def take(self) -> State:
        """The state, with each granule that is not zero; memory is zero behind it."""
        granules: dict[int, tuple[bytes, int]] = {}
        for start, count, _ in MAP:
            data = self.read(start, 4096 * count)
            if any(data):
                granules |= {start + at: (data[at:at + 16], 0) for at in range(0, len(data), 16)
                             if any(data[at:at + 16])}
        for at in granules:
            self.write(at, bytes(16))
        return State([self.register(n) for n in X], self.register(SP), self.register(PC),
                     self.register(NZCV) >> 28, (0, 0), False, granules)


def why_left(step: Step) -> str:
    """Why a step is not compared; empty where it is."""
    kind = step.end.get("kind")
    if step.row in TAG_ROWS:
        return "rows of memory tagging: Unicorn has no tags"
    if kind == "TagCheck":
        return "a tag decides: Unicorn has no tags"
    return ""


def ended(engine: Unicorn, error: int, went_on: bool) -> str:
    """How Unicorn's step ended, in the words of the format. A branch to where nothing can be
    fetched went on: the fetch behind it fails."""
    if error in FAULTS and not (error in FETCHES and went_on):
        return " ".join(("fault", *FAULTS[error], "at", f"{engine.failed:x}"))
    if error == INVALID:
        return "illegal"
    if engine.interrupt in EXCEPTIONS:
        return EXCEPTIONS[engine.interrupt]
    if error in (0, *FETCHES) and engine.interrupt < 0:
        return "next"
    return f"error {error}, exception {engine.interrupt}"


def known(step: Step, end: str, told: list[str]) -> str:
    """What is known of such a difference (docs/GOLDEN.md); empty where nothing is."""
    kind, want = step.end.get("kind"), end_text(step.end)
    names = {it.split()[0] for it in told}
    if end.startswith("fault") and int(end.split()[-1], 16) >> 56 and end != want:
        return "U1 no TBI: the tag of a pointer is part of its address"
    if kind == "SpAlignment" and end != want:
        return "U2 the stack pointer's alignment is not checked"
    if kind == "PcAlignment" and end != want:
        return "U3 the PC's alignment is not checked"
    if step.row == "Refused" and end != "illegal":
        return "U4 words outside the profile that Unicorn executes"
    if names <= {"ends", "granule"} and are_near(end, want):
        return "U5 a store that faults has stored its first bytes, or another byte faults first"
    return ""


def compare_step(engine: Unicorn, step: Step, tally: Tally) -> None:
    """Makes a step and compares it."""
    engine.enter(step.before, step.word)
    error = engine.attempt(step.before.pc)
    got, want = engine.take(), step.after
    if step.word is not None:
        want.put(step.before.pc, step.word.to_bytes(4, "little"))
    told = differences(want, got, STATE)
    end = ended(engine, error, got.pc != step.before.pc)
    if end != end_text(step.end).split(" number")[0]:
        told.insert(0, f"ends {end}")
    elif end == "next" and got.pc & (1 << 56) - 1 != want.pc:
        told.append(f"pc {got.pc:#x} not {want.pc:#x}")
    tally.enter(step, told, known(step, end, told))


def compare(steps: Iterator[Step], tally: Tally) -> None:
    """Compares all steps of a file."""
    engine = Unicorn()
    for step in steps:
        why = why_left(step)
        if why:
            tally.leave(why)
        else:
            compare_step(engine, step, tally)


if __name__ == "__main__":
    compare_file(__doc__, compare)
