"""Causes as data: what is written from tools/causes.toml, and what the check notices. Nothing that
was built is needed."""

import pathlib
import re
import shutil
import sys
import tomllib

import causes
import pytest

from tests.support.places import ROOT
from tests.support.running import Ran, run

DATA = tomllib.loads((ROOT / causes.DATA).read_text(encoding="utf-8"))
WRITTEN = (causes.CAUSES, causes.KINDS, causes.CHECKING, causes.MTE_RUN)
ENUMS = sorted({it["file"] for it in (*DATA["violation"], *DATA["words"])})


@pytest.fixture(name="copy")
def copied(tmp_path: pathlib.Path) -> pathlib.Path:
    """A copy of what the tool reads and writes."""
    for name in (causes.DATA, *WRITTEN, *ENUMS):
        (tmp_path / name).parent.mkdir(parents=True, exist_ok=True)
        shutil.copy(ROOT / name, tmp_path / name)
    return tmp_path


def check(root: pathlib.Path = ROOT) -> Ran:
    """What the check says."""
    return run([sys.executable, ROOT / "tools" / "causes.py", "--check", "--root", root])


def change(file: pathlib.Path, old: str, new: str) -> None:
    """Replaces a text that a file has."""
    text = file.read_text(encoding="utf-8")
    assert old in text
    file.write_text(text.replace(old, new, 1), encoding="utf-8")


def test_files_are_what_the_data_give() -> None:
    """Each written file and each part of a page follows from the data."""
    assert check() == Ran(0, b"", b"")


def test_names_are_given_once() -> None:
    """A cause, a kind and a key has one row, and a kind of --check that is named is one."""
    keys = [it.get("prefix", "") + row[0] for it in DATA["violation"] for row in it["rows"]
            if it["finder"] == "check"]
    for names in ([it["kind"] for it in DATA["cause"]], DATA["listed"], keys):
        assert len(set(names)) == len(names)
    assert {row[1] for it in DATA["violation"] for row in it["rows"]} <= set(DATA["listed"])


@pytest.mark.parametrize(("name", "old", "new"), [
    (causes.DATA, '"Use After Free"', '"Use after Free"'),
    (causes.DATA, 'rule = "wild-jump"', 'rule = "jump"'),
    (causes.DATA, '["AlreadyFree", ', '["Free", '),
    (causes.DATA, '["Branch", "undefined"', '["Branch", "places"'),
    (causes.DATA, "asked = true\n", ""),
    (causes.CAUSES, "UseAfterFree,", "UseOfFreed,"),
    (causes.CAUSES, "is of no chunk", "is of no block"),
    (causes.KINDS, "frees: false", "frees: true"),
    (causes.CHECKING, "a second free, ", ""),
    (causes.MTE_RUN, "`wild-jump`, ", ""),
    (causes.MTE_RUN, "<!-- Written by tools/causes.py: rules -->", ""),
    *((it["file"], f"    {it['rows'][-1][0]},", "    Another,")
      for it in (*DATA["violation"], *DATA["words"])),
])
def test_a_change_is_noticed(copy: pathlib.Path, name: str, old: str, new: str) -> None:
    """One in the data, in a written file or in an enum of a crate."""
    assert check(copy) == Ran(0, b"", b"")
    change(copy / name, old, new)
    told = check(copy)
    assert told.status == 1 and told.errors


def test_what_is_changed_is_written_again(copy: pathlib.Path) -> None:
    """A rule that is renamed gets its new name in the crate and on the page, and nowhere else."""
    change(copy / causes.DATA, 'rule = "wild-jump"', 'rule = "jump-to-data"')
    told = run([sys.executable, ROOT / "tools" / "causes.py", "--root", copy])
    assert told == Ran(0, f"wrote {causes.CAUSES}\nwrote {causes.MTE_RUN}\n".encode(), b"")
    for name in WRITTEN:
        new, old = ((root / name).read_text(encoding="utf-8") for root in (copy, ROOT))
        assert new == re.sub(r'(?<=[`"])wild-jump(?=[`"])', "jump-to-data", old)
