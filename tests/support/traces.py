"""A trace of mte_run, read into values, and what a small model of the registers, of the memory and
of the calls says of it."""

import re
from dataclasses import dataclass, field
from typing import Optional

from tests.support.machine import Machine

LINE = re.compile(r" *(\d+)  (0x[0-9a-f]{16})  ([0-9a-f]{8}|-{8})(?:  (.*))?$")
CHANGE = re.compile(r"(x\d+|sp|flags|rgsr tag) (\S+) -> (\S+)$")
KEPT = re.compile(r"(x\d+) (0x[0-9a-f]+) kept$")
ONE = re.compile(r"\[(0x[0-9a-f]+)\] = (0x[0-9a-f]+) of (\d)$")
TWO = re.compile(r"\[(0x[0-9a-f]+)\] = (0x[0-9a-f]+), (0x[0-9a-f]+) of (\d) each$")
FROM_ONE = re.compile(r"from \[(0x[0-9a-f]+)\] (0x[0-9a-f]+) of (\d)$")
FROM_TWO = re.compile(r"from \[(0x[0-9a-f]+)\] (0x[0-9a-f]+), (0x[0-9a-f]+) of (\d) each$")
TAGGED = re.compile(r"tag of (\d) granules from (0x[0-9a-f]+) = (0x[0-9a-f])$")
SERVICE = re.compile(r"(?: {11}| *(\d+)  )(\w+.*)$")
SVC = 0xD4000001


@dataclass(frozen=True)
class Access:
    """Bytes that an instruction loaded or stored: the address with its tag, and the values."""

    address: int
    values: tuple[int, ...]
    size: int

    @property
    def length(self) -> int:
        """How many bytes there are."""
        return self.size * len(self.values)


@dataclass
class Step:
    """An instruction that was attempted."""

    number: int
    pc: int
    word: Optional[int]
    text: str
    changes: dict[str, tuple[str, str]] = field(default_factory=dict)
    stored: Optional[Access] = None
    loaded: Optional[Access] = None
    tags: Optional[tuple[int, int, int]] = None
    service: Optional[str] = None
    # The return addresses of the calls that led here, the innermost first.
    callers: tuple[int, ...] = ()

    @property
    def mnemonic(self) -> str:
        """The first word of its text."""
        return self.text.split(" ", 1)[0]

    @property
    def is_service(self) -> bool:
        """Whether it requests a service."""
        return self.word == SVC


def read_access(part: str, one: "re.Pattern[str]", two: "re.Pattern[str]") -> Optional[Access]:
    """What a part of a line says of bytes."""
    if found := two.match(part):
        values = (int(found[2], 16), int(found[3], 16))
        return Access(int(found[1], 16), values, int(found[4]))
    if found := one.match(part):
        return Access(int(found[1], 16), (int(found[2], 16),), int(found[3]))
    return None


def read_part(step: Step, part: str) -> None:
    """Reads what stands between two semicolons."""
    if found := CHANGE.match(part):
        step.changes[found[1]] = (found[2], found[3])
    elif found := KEPT.match(part):
        step.changes[found[1]] = (found[2], found[2])
    elif found := TAGGED.match(part):
        step.tags = (int(found[2], 16), int(found[1]), int(found[3], 16))
    elif stored := read_access(part, ONE, TWO):
        step.stored = stored
    elif loaded := read_access(part, FROM_ONE, FROM_TWO):
        step.loaded = loaded
    else:
        raise ValueError(f"a part of a trace that is none: {part!r}")


def read_step(line: str) -> Optional[Step]:
    """The instruction of a line."""
    found = LINE.match(line)
    if not found:
        return None
    text, *parts = (found[4] or "").split("; ")
    word = None if found[3].startswith("-") else int(found[3], 16)
    step = Step(int(found[1]), int(found[2], 16), word, text)
    for part in parts:
        read_part(step, part)
    return step


def read_trace(text: str) -> list[Step]:
    """All instructions of a trace; each has the calls that led to it."""
    steps: list[Step] = []
    for line in text.splitlines():
        step = read_step(line)
        if step:
            steps.append(step)
        elif line.startswith(" " * 11) and steps and steps[-1].is_service:
            steps[-1].service = line.strip()
    add_callers(steps)
    return steps


def add_callers(steps: list[Step]) -> None:
    """Follows calls (BL, BLR) and returns (RET), as a debugger with an eye on each would."""
    callers: list[int] = []
    for at, step in enumerate(steps):
        step.callers = tuple(reversed(callers))
        if at + 1 == len(steps):
            return
        if step.mnemonic in ("bl", "blr"):
            callers.append(step.pc + 4)
        elif step.mnemonic == "ret" and callers:
            callers.pop()


def read_services(text: str) -> list[tuple[int, str]]:
    """The lines of --services: the step, and the service with its result."""
    found = [re.match(r" *(\d+)  (\w+\(.*)$", line) for line in text.splitlines()]
    return [(int(it[1]), it[2]) for it in found if it]


def check_trace(steps: list[Step]) -> Machine:
    """Runs the model along a trace; fails at the first line that it does not agree with."""
    machine = Machine()
    for step in steps:
        try:
            machine.follow(step.text, step.changes, stored_of(step), loaded_of(step))
        except AssertionError as error:
            raise AssertionError(f"step {step.number}, {step.text}: {error}") from error
        if step.is_service:
            machine.forget(step.service or "")
    return machine


def stored_of(step: Step) -> Optional[tuple[int, tuple[int, ...], int]]:
    """What it stored, as plain values."""
    return (step.stored.address, step.stored.values, step.stored.size) if step.stored else None


def loaded_of(step: Step) -> Optional[tuple[int, tuple[int, ...], int]]:
    """What it loaded, as plain values."""
    return (step.loaded.address, step.loaded.values, step.loaded.size) if step.loaded else None
