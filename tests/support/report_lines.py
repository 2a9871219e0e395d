"""The lines of a report of mte_run: their forms, their order, what JSON says that they are, and
the parts that options ask for."""

import json
import re
from collections.abc import Iterator, Sequence
from typing import Any

from tests.support.explained import Explained
from tests.support.pictures import OWNERS, TEXT_ROW
from tests.support.told import (
    CALL, FRAME, LEAK, PAGES, PLACE, REGISTER, STORE, TAGS, UNSEEN, YOUNG,
)
from tests.support.traces import LINE

WHY = {
    "TagCheck": "the pointer's tag is not the memory's (pointer {:#x}, memory {:#x})",
    "Translation": "no page is mapped there",
    "Permission": "the page does not allow it",
    "PcAlignment": "PC is not a multiple of 4",
    "SpAlignment": "SP is not a multiple of 16",
    "Alignment": "a tag is stored at an address that is not a multiple of 16",
    "InvalidState": "its header says that it is free",
    "HeaderCorrupt": "the checksum of its header differs",
    "Unmapped": "no writable page holds its header",
    "NotABlock": "its header names no block of the heap",
    "Misaligned": "it is not a multiple of 16",
    "AlreadyFree": "its block is free",
}
ENDS = {
    "illegal": "illegal word", "breakpoint": "breakpoint", "async": "async", "exact": "exact",
}
RUNNING = {134: "limit of steps", 135: "end of its slices"}
SIGNS = (
    "each sign is a granule of 16 bytes: its tag in hexadecimal, or . where no page is mapped; "
    "below it = in a live chunk, x in a freed one, ^ what was refused"
)
KEYS = (
    "format", "image", "seed", "exit_status", "steps", "output_cut", "statistics", "status",
    "stack", "cause", "chunks", "last_store", "registers", "tags", "pages",
)
TITLE = re.compile(r"(\S+\.elf|tenant \d+ of \S+): .*, step \d+(, seed [0-9a-f]{16})?$")

# A letter for each form of a line; the first that fits counts.
LINES: tuple[tuple[str, "str | re.Pattern[str]"], ...] = (
    ("z", r"mte_run: (ended by .*, status \d+|exited with \d+)$"),
    ("n", re.escape(UNSEEN) + "$"),
    ("c", r"mte_run: output was cut: there was no more room \(--out\)$"),
    ("s", r"mte_run: statistics:$"),
    ("1", r"mte_run: .+$"),
    ("2", r"without --async the tenant faults at that access$"),
    ("w", re.escape(SIGNS) + "$"),
    ("C", r"Cause: .+$"),
    ("I", r"instruction at 0x[0-9a-f]{16}"),
    ("u", r"the last calls and returns:$"),
    ("l", r"the last instructions:$"),
    ("r", r"registers that are not 0:$"),
    ("G", r"  generator: tag 0x[0-9a-f], seed 0x[0-9a-f]{4}$"),
    ("p", r"pages:$"),
    ("Z", r"llvm-symbolizer -i --obj=\S+( 0x[0-9a-f]+)+$"),
    ("v", r"live at the end: \d+ chunks?, \d+ bytes?$"),
    ("f", FRAME), ("a", CALL), ("b", STORE), ("y", YOUNG), ("P", PLACE), ("T", TAGS),
    ("R", REGISTER), ("Q", PAGES), ("k", LEAK), ("t", TEXT_ROW), ("o", OWNERS),
    ("L", LINE),
    ("U", r" *\d+  \S+.* (calls|returns to) \S+"),
    ("d", r"  [a-z_]+( [a-z]+)* +\d+( of \d+)?$"),
    ("h", r"  (jumped by|x\d+ was loaded from|the newest call without a chunk|\(older) "),
    ("i", r"in \S+"),
    ("m", TITLE),
)
FORMS = [(letter, re.compile(form)) for letter, form in LINES]
ORDER = re.compile(
    r"(12?f+(C(h|af+|y|bf+)*)?(PT)?I?(uU*)?(lL*)?rR+GpQ+Z)?c?(v(kf+)*)?(sd{13})?(mi?w(to)*)?[zn]?$"
)


def letters(lines: Sequence[str]) -> str:
    """The forms of lines, by their letters; `?` where a line has none."""
    return "".join(
        next((letter for letter, form in FORMS if form.match(line)), "?") for line in lines
    )


def first_line(one: Explained) -> "re.Pattern[str]":
    """The first line of a report, by the status of JSON and the instruction's symbol."""
    status, label = one.status, one.told.end[0].label
    kind, name, pc = status["kind"], status.get("name", ""), int(status.get("pc", "0"), 16)
    where = f"{pc:#018x}" + ("" if label.startswith("0x") else f" ({label})")
    if kind == "fault":
        why = WHY[name].format(status["pointer_tag"], status["memory_tag"])
        way, address = "write" if status["write"] else "read", int(status["address"], 16)
        size, near = "( of [0-9]+ bytes?)?", f" at {address:#018x} by the instruction at {where}"
        return re.compile(f"fault {name}: a {way}{size}{re.escape(f'{near}: {why}')}$")
    words = {
        "abort": f"abort {name}: the pointer {int(status.get('pointer', '0'), 16):#018x}, handed "
                 f"to the heap by the SVC at {where}, is refused: {WHY.get(name)}",
        "async": f"an access before {pc:#018x} had another tag than its memory",
        "illegal": f"illegal word {status.get('word')} at {where}: no instruction of the table",
        "breakpoint": f"breakpoint {status.get('number')} at {where}",
        "exact": f"exact: a {'write' if status.get('write') else 'read'} of "
                 f"{status.get('bytes')} byte",
    }
    limits = {134: f"the limit of {one.json['steps']} steps is reached (--steps gives it more)",
              135: "still running after its slices"}
    whole = kind in ("abort", "async", "running")
    text = words[kind] if kind in words else limits[one.ran.status]
    return re.compile(re.escape(text) + ("$" if whole else ""))


def last_line(one: Explained) -> list[str]:
    """The last line, where there is one: how the tenant ended, or that tags are of 16 bytes."""
    status = one.status
    if status["kind"] == "exit":
        code = status["code"]
        has_slack = any(chunk.size % 16 for chunk in one.model.chunks)
        is_seen = not has_slack or any(it.startswith("--exact") for it in one.act.options)
        return [f"mte_run: exited with {code}"] if code > 128 else [] if is_seen else [UNSEEN]
    end = ENDS.get(status["kind"]) or RUNNING.get(one.ran.status)
    end = end or f"{status['kind']} {status['name']}"
    return [f"mte_run: ended by {end}, status {one.ran.status}"]


def machine_lines(told: dict[str, Any], generator: tuple[int, int]) -> list[str]:
    """The registers that are not 0 and the pages, by JSON."""
    listed = told["registers"]
    cells = [f"x{at:<2} {int(value, 16):016x}" for at, value in enumerate(listed["x"])
             if int(value, 16)]
    lines = ["  " + "  ".join(cells[at:at + 4]) for at in range(0, len(cells), 4)]
    sp, pc = int(listed["sp"], 16), int(listed["pc"], 16)
    pages = [f"  0x{int(it['first'], 16):08x} to 0x{int(it['last'], 16):08x}  "
             f"{it['attributes']}  {it['use']}" for it in told["pages"]]
    return [
        "registers that are not 0:", *lines, f"  sp  {sp:016x}  pc  {pc:016x}  "
        f"flags {listed['flags']}", f"  generator: tag {generator[0]:#x}, "
        f"seed 0x{generator[1]:04x}", "pages:", *pages,
    ]


def json_lines(told: dict[str, Any]) -> str:
    """An object as --json writes it: a line for each key, in the order of the page; the user's
    frame is on the stack's line."""
    user = f',"user":{told["user"]}' if "user" in told else ""
    rows = (f'"{key}":{json.dumps(told[key], separators=(",", ":"))}{user * (key == "stack")}'
            for key in KEYS if key in told)
    return "{" + ",\n".join(rows) + "\n}\n"


PARTS = (
    ("turns", r"the last calls and returns:$"), ("last", r"the last instructions:$"),
    ("state", r"registers that are not 0:$"), ("cut", r"mte_run: output was cut"),
    ("live", r"live at the end: "), ("statistics", r"mte_run: statistics:$"),
    ("final", r"mte_run: (ended by|exited with|no tag differed|a request of)"),
    ("map", TITLE.pattern),
)


def parts_of(text: str) -> dict[str, list[str]]:
    """A whole report in its parts, each by its first line."""
    parts: dict[str, list[str]] = {"end": []}
    for line in text.splitlines():
        head = next((name for name, form in PARTS if re.match(form, line)), None)
        if head and head not in parts:
            parts[head] = []
        elif head:
            raise AssertionError(f"a second part begins with {line!r}")
        parts[list(parts)[-1]].append(line)
    return parts


def chosen(one: Explained, options: Sequence[str]) -> list[str]:
    """The report that options ask for, by the whole report and the trace of the same run."""
    parts, value = parts_of(one.ran.errors), dict(zip(options, [*options[1:], ""]))
    is_told = bool(one.told.end)
    count, turns = int(value.get("--last", 16)), int(value.get("--calls", 0))
    steps = [line for line in one.trace.splitlines() if LINE.match(line)]
    lines = parts["end"]
    if turns and is_told:
        lines = [*lines, parts["turns"][0], *parts["turns"][1:][-turns:]]
    if count and is_told:
        lines = [*lines, "the last instructions:", *steps[-count:]]
    wanted = {"state", "cut", "final", *(name for name, option in (
        ("live", "--leaks"), ("statistics", "--statistics"), ("map", "--map"),
    ) if option in value)}
    return lines + [line for name, part in parts.items() if name in wanted for line in part]


def traced(trace: str, first: int, last: int, services: bool) -> Iterator[str]:
    """The lines of a part of a trace, by the whole one: each stretch has its function's name
    above it; the services of other steps have their numbers."""
    name, named, number = "", "", 0
    for line in trace.splitlines():
        if found := LINE.match(line):
            number = int(found[1])
            if first <= number <= last:
                yield from [name] * (name != named)
                named = name
                yield line
        elif not line.startswith(" "):
            name, named = line, "" if named == line else named
        elif first <= number <= last:
            yield line
        elif services:
            yield f"{number:9}  {line.strip()}"
