"""`tools/vectors.py`: single steps that QEMU 7.2 and Unicorn 2 recorded, over the library for C."""

import pathlib
import random
import re
import sys

import pytest

from tests.support.library import shared_object
from tests.support.places import ROOT, TESTS
from tests.support.running import Ran, Word, run

STEPS = TESTS / "vectors" / "steps.txt"
COUNT = 1_221
MAP = "page 100 1 RX\npage 120 1 RWT\n"
# add x0, x0, #1
CASE = "case 1 Any\nword 91000400\nx 0 29\npc 100000\nthen next\nx 0 2a\npc 100004\n"


def vectors(shared: pathlib.Path, path: pathlib.Path) -> Ran:
    """What the script says of a file."""
    words: list[Word] = [sys.executable, ROOT / "tools" / "vectors.py", path]
    return run(words, extra={"TOMBOLOPAN": str(shared_object(shared))}, seconds=120)


def test_recorded_steps(shared: pathlib.Path) -> None:
    """30 of each row of the instruction table but SVC, and refused words, end as recorded."""
    ran = vectors(shared, STEPS)
    assert (ran.status, ran.output, ran.errors) == (0, f"{COUNT} passed, 0 failed\n", "")


def with_a_change(case: str, kind: str) -> str:
    """A case in which what is expected of one item has another digit."""
    head, _, after = case.partition("\nthen ")
    lines = f"then {after}".split("\n")
    at = next(at for at, line in enumerate(lines) if line.startswith(kind))
    lines[at] = lines[at][:-1] + ("1" if lines[at][-1] != "1" else "2")
    if kind == "then":
        lines[at] = "then break 9"
    return "\n".join([head, *lines])


def test_changed_expectations_fail(shared: pathlib.Path, tmp_path: pathlib.Path) -> None:
    """Ten cases of each kind of line after a step: each that is changed fails, and no other."""
    text = STEPS.read_text(encoding="ascii")
    first, *cases = re.split(r"(?m)^(?=case )", text)
    drawn = random.Random(3)
    changed: set[str] = set()
    for kind in ("then", "x ", "pc ", "nzcv ", "rgsr ", "granule 120"):
        able = [at for at, it in enumerate(cases) if f"\n{kind}" in it[it.index("\nthen "):]
                and it.split("\n")[0] not in changed]
        assert len(able) >= 10, kind
        for at in drawn.sample(able, 10):
            changed.add(cases[at].split("\n")[0])
            cases[at] = with_a_change(cases[at], kind)
    path = tmp_path / "changed.txt"
    path.write_text("".join([first, *cases]), encoding="ascii")
    ran = vectors(shared, path)
    *lines, last = ran.output.splitlines()
    assert (ran.status, last) == (1, f"{COUNT - len(changed)} passed, {len(changed)} failed")
    assert {f"case {line.partition(':')[0]}" for line in lines} == changed


@pytest.mark.parametrize("line", [
    "", "x 31 0", "x 01 0", "x 0 g", "x 0 00000000000000000", "x  0 0", "sp -1", "nzcv 10",
    "rgsr 10 0", "rgsr 1 00000", "granule 120001 " + "0" * 32 + " 0",
    "granule 120000 " + "0" * 31 + " 0", "granule 120000 " + "0" * 32 + " 10", "then", "then svc",
    "then break x", "then fault 7 read 0000000000000000 0 0",
    "then fault 1 fetch 0000000000000000 0 0", "then next", "word 0", "page 101 1 RX", "case x Any",
])
def test_malformed_lines(shared: pathlib.Path, tmp_path: pathlib.Path, line: str) -> None:
    """A line without its form, or with no place where it is, is refused by its number."""
    path = tmp_path / "malformed.txt"
    path.write_text(f"{MAP}{CASE}{line}\n", encoding="ascii")
    ran = vectors(shared, path)
    assert (ran.status, ran.output) == (2, "")
    assert ran.errors == f"vectors.py: {path}: line 10 is malformed\n"
    path.write_text(MAP + CASE, encoding="ascii")
    assert vectors(shared, path).output == "1 passed, 0 failed\n"
