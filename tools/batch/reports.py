"""A session's report as values, by the names that `mte_run --json` has (docs/REPORT.md)."""

import hashlib
import re
from typing import Any

TENANT = re.compile(rb"^tenant (\d+)\nstatus (.+)\nsteps (\d+)\noutput (\d+) ?([0-9a-f]*)\n", re.M)
REFUSED = re.compile(rb"^refused (\d+) (.+)$", re.M)
REFUSED_LINES = re.compile(rb"(?:refused .+\n)*")
BLOCK = re.compile(rb"^tenant (\d+)\n(?s:.*?)\nend\n", re.M)
# The words of a status: its kind, and the names of what follows.
FORMS = {
    "running": re.compile(r"running"),
    "stopped": re.compile(r"stopped"),
    "exit": re.compile(r"exit (?P<code>\d+)"),
    "fault": re.compile(r"fault (?P<name>\w+) (?P<write>read|write) addr (?P<address>\w+) "
                        r"ptr (?P<pointer_tag>\d+) mem (?P<memory_tag>\d+) pc (?P<pc>\w+)"),
    "illegal": re.compile(r"illegal (?P<word>\w+) pc (?P<pc>\w+)"),
    "breakpoint": re.compile(r"break (?P<number>\d+) pc (?P<pc>\w+)"),
    "async": re.compile(r"async pc (?P<pc>\w+)"),
    "abort": re.compile(r"abort (?P<name>\w+) ptr (?P<pointer>\w+) pc (?P<pc>\w+)"),
}
NUMBERS = ("code", "pointer_tag", "memory_tag", "number")
ADDRESSES = ("address", "pc", "pointer")


def value_of(name: str, text: str) -> object:
    """A value of a status: a number, whether it is a write, an address without zeros in front."""
    if name in NUMBERS:
        return int(text)
    if name == "write":
        return text == "write"
    return f"{int(text, 16):#x}" if name in ADDRESSES else text


def status_of(text: str) -> dict[str, Any]:
    """A status of a report."""
    for kind, form in FORMS.items():
        if found := form.fullmatch(text):
            values = found.groupdict()
            return {"kind": kind, **{name: value_of(name, it) for name, it in values.items()}}
    raise ValueError(f"{text!r} is no status")


def tenants_of(report: bytes) -> list[dict[str, Any]]:
    """The tenants of a report: number, status, steps, and the length and the sum of the output."""
    return [{"id": int(number), "status": status_of(status.decode()), "steps": int(steps),
             "output": {"bytes": int(length),
                        "sha256": hashlib.sha256(bytes.fromhex(text.decode())).hexdigest()}}
            for number, status, steps, length, text in TENANT.findall(report)]


def refused_of(report: bytes) -> list[dict[str, Any]]:
    """The refused events of a report: their numbers and why."""
    return [{"event": int(number), "reason": reason.decode()}
            for number, reason in REFUSED.findall(report)]


def refused_lines_of(report: bytes) -> bytes:
    """The lines of a report that have its refused events."""
    found = REFUSED_LINES.match(report)
    return found[0] if found else b""


def blocks_of(report: bytes) -> dict[int, bytes]:
    """The lines of each tenant of a report, in the order of their admissions."""
    return {int(found[1]): found[0] for found in BLOCK.finditer(report)}
