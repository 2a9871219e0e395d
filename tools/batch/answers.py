"""What came of a session: an answer, as `mte_host` gives it, or that it was lost."""

import re
from dataclasses import dataclass

OK, SCRIPT, MEMORY, READ, WRITE = 0, 3, 4, 5, 6
FAULTY = re.compile(rb"mte_host: script line [0-9]+: [A-Za-z]+\n")
REPORT = re.compile(rb"(?:refused [0-9]+(?: [A-Za-z0-9]+)+\n)*(?:tenant [0-9]+\n(?s:.*)\nend\n)?")
# Slices that lead tenants on to a total of steps (further.py): tenant, steps, how many. A report
# that no script has comes after them.
FURTHER = re.compile(rb"(?:total [0-9]+\n(?:further [0-9]+ [0-9]+ [0-9]+\n)*)?")


@dataclass(frozen=True)
class Answer:
    """The exit status, standard output and standard error of a session."""

    status: int
    out: bytes
    err: bytes


@dataclass(frozen=True)
class Lost:
    """That no answer came, and why."""

    why: str


Reply = Answer | Lost


def ends_of(answer: Answer) -> list[str]:
    """The statuses of a report's tenants."""
    return [it.decode() for it in re.findall(rb"^status (.+)$", answer.out, re.M)]


def output_of(answer: Answer) -> bytes:
    """What the tenants of a report wrote, one after the other."""
    lines = re.findall(rb"^output [0-9]+ ([0-9a-f]+)$", answer.out, re.M)
    return bytes.fromhex(b"".join(lines).decode())


def is_of_bytes(answer: Answer) -> bool:
    """Whether a session that is read may be answered so: a report without a word on standard error,
    or a faulty line without a report. All else, as want of memory, a full disk, a signal or the
    status of a program that is not mte_host, says something of a machine and nothing of a
    session."""
    if answer.status == OK:
        return not answer.err and REPORT.fullmatch(after_further(answer.out)) is not None
    return answer.status == SCRIPT and not answer.out and FAULTY.fullmatch(answer.err) is not None


def after_further(text: bytes) -> bytes:
    """What comes after the slices that lead tenants on."""
    found = FURTHER.match(text)
    return text[found.end():] if found else text


def checked(answer: Answer) -> Reply:
    """The answer, where a session may be answered so."""
    if is_of_bytes(answer):
        return answer
    said = answer.err.decode(errors="replace").strip().splitlines() or ["nothing is said"]
    return Lost(f"status {answer.status}: {said[-1][:200]}")
