#!/usr/bin/env python3
"""Makes a trace of heap calls (docs/ALLOCATORS.md, "Recorded heap calls") of what mte_run prints of
a tenant's services.

    mte_run --services --trace-file services.txt ELF
    tenant_calls.py [FILE] > calls.txt

FILE is what --services or --trace wrote (standard input without it). Lines of other services and of
instructions are passed over, and so is usable_size, which changes no heap; a call that was not
answered, since it ended the tenant, has no line. Status 1 where there is no heap call, and 2 where
a line has one of another form.
"""
from __future__ import annotations

import pathlib
import re
import sys
from collections.abc import Iterable, Iterator
from typing import Optional

sys.path.insert(0, str(pathlib.Path(__file__).resolve().parent.parent))
import command_line  # noqa: E402

FIRST_LINE = "tombolopan heap calls 1\n"
# How many arguments a call has; usable_size is none of a trace.
ARGUMENTS = {"malloc": 1, "calloc": 2, "realloc": 2, "memalign": 2, "free": 1, "usable_size": 1}
CALL = re.compile(rf"\s*(?:\d+\s+)?({'|'.join(ARGUMENTS)})\((.*)\) = (.*)")
NUMBER = re.compile(r"0x[0-9a-f]{1,16}|\d{1,20}")
# Of these the first argument is a pointer.
ABOUT_CHUNKS = ("free", "realloc")


class WrongLine(Exception):
    """A line that has a heap call of another form."""


def pointer(text: str) -> str:
    """A pointer as a trace has it."""
    return f"{int(text, 0):#x}"


def line_of(name: str, arguments: list[str], answer: str) -> str:
    """The line of a call in a trace."""
    if name in ABOUT_CHUNKS:
        arguments = [pointer(arguments[0]), *arguments[1:]]
    end = "" if name == "free" else f" = {pointer(answer)}"
    return f"{name} {' '.join(arguments)}{end}\n"


def read_call(line: str) -> Optional[str]:
    """The line in a trace of a line of mte_run; none where it has no call that changes a heap."""
    found = CALL.fullmatch(line.rstrip("\n"))
    if found is None:
        return None
    name, arguments, answer = found[1], found[2].split(", "), found[3]
    if len(arguments) != ARGUMENTS[name] or not all(
            NUMBER.fullmatch(it) for it in (*arguments, answer)):
        raise WrongLine(line)
    return None if name == "usable_size" else line_of(name, arguments, answer)


def read_calls(lines: Iterable[str]) -> Iterator[str]:
    """The lines of a trace behind its first; raises WrongLine with the number of a line."""
    for number, line in enumerate(lines, 1):
        try:
            call = read_call(line)
        except WrongLine as error:
            raise WrongLine(f"line {number} has no heap call as mte_run writes it") from error
        if call is not None:
            yield call


def main() -> int:
    """Reads the command line."""
    words = command_line.read_words(__doc__, 0, 1)
    try:
        if words:
            with open(words[0], encoding="utf-8", errors="replace") as file:
                calls = list(read_calls(file))
        else:
            calls = list(read_calls(sys.stdin))
    except (OSError, WrongLine) as error:
        print(f"tenant_calls.py: {error}", file=sys.stderr)
        return 2
    if not calls:
        print("tenant_calls.py: there is no heap call (--services writes them)", file=sys.stderr)
        return 1
    sys.stdout.write(FIRST_LINE + "".join(calls))
    return 0


if __name__ == "__main__":
    sys.exit(main())
