"""The states of a run, instruction by instruction, from the lines of `mte_run --trace`."""

import re
from collections.abc import Iterator
from dataclasses import dataclass
from typing import Optional

from tests.reference.decode import SP, Instruction, decode
from tests.support.traces import Step, read_trace

STACK_END = 0x40000000
PLAIN = (1 << 56) - 1
ALL = (1 << 64) - 1
SERVICE = re.compile(r"(\w+)\((.*)\)(?: = (0x[0-9a-f]+))?")


@dataclass(frozen=True)
class Service:
    """A service that was requested: its number and the registers x0 and x1 before it, and its
    result, None where the tenant did not go on."""

    number: int
    x0: int
    x1: int
    result: Optional[int]


@dataclass(frozen=True)
class Moment:
    """An instruction with the registers before it (31 is SP), the flags NZCV as a number before
    and after it, and the registers after it."""

    step: Step
    instruction: Instruction
    before: tuple[int, ...]
    flags: int
    after: tuple[int, ...]
    flags_after: int
    service: Optional[Service]

    def value(self, register: int, bits: int = 64) -> int:
        """The register before it; 31 is zero."""
        return 0 if register == SP else self.before[register] & ((1 << bits) - 1)


def flags_of(text: str) -> int:
    """`nZCv` as a number: a capital letter is 1."""
    return sum(8 >> at for at, letter in enumerate(text) if letter.isupper())


def service_of(step: Step, before: tuple[int, ...], after: tuple[int, ...]) -> Service:
    """The service of an SVC."""
    ended = step.service is None or SERVICE.match(step.service) is None \
        or "ends it" in step.service
    return Service(before[8], before[0], before[1], None if ended else after[0])


def moments(text: str) -> Iterator[Moment]:
    """Each instruction of a trace."""
    registers = [0] * 31 + [STACK_END]
    flags = 0
    for step in read_trace(text):
        instruction = decode(step.word) if step.word is not None else None
        if instruction is None:
            return
        before, old = tuple(registers), flags
        for name, (_, new) in step.changes.items():
            if name == "flags":
                flags = flags_of(new)
            elif name[0] == "x" or name == "sp":
                registers[SP if name == "sp" else int(name[1:])] = int(new, 16)
        after = tuple(registers)
        service = service_of(step, before, after) if instruction.row == "svc" else None
        yield Moment(step, instruction, before, old, after, flags, service)
