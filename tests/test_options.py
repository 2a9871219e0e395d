"""Options as data: what is written from tools/options.toml, and what the check notices. Nothing
that was built is needed."""

import pathlib
import shutil
import sys
import tomllib

import options
import pytest

from tests.support.places import ROOT
from tests.support.running import Ran, run

GROUPS = tomllib.loads((ROOT / options.DATA).read_text(encoding="utf-8"))["group"]
OPTIONS = [it for group in GROUPS for it in group["option"]]


@pytest.fixture(name="copy")
def copied(tmp_path: pathlib.Path) -> pathlib.Path:
    """A copy of what the tool reads and writes."""
    for name in (options.DATA, options.CAUSES, options.TABLE, options.PAGE):
        (tmp_path / name).parent.mkdir(parents=True, exist_ok=True)
        shutil.copy(ROOT / name, tmp_path / name)
    return tmp_path


def check(root: pathlib.Path = ROOT) -> Ran:
    """What the check says."""
    return run([sys.executable, ROOT / "tools" / "options.py", "--check", "--root", root])


def test_files_are_what_the_data_give() -> None:
    """The table of the command line and that of the page follow from the data."""
    assert check() == Ran(0, b"", b"")


def test_options_are_given_once() -> None:
    """An option has one name and at least one row, which begins with it; twelve are first."""
    names = [it["name"] for it in OPTIONS]
    assert len(set(names)) == len(names)
    for it in OPTIONS:
        assert it["rows"] and all(row[0].startswith(f"`--{it['name']}") for row in it["rows"])
    assert sum(it.get("first", False) for it in OPTIONS) == 12


@pytest.mark.parametrize(("name", "old", "new"), [
    (options.DATA, 'name = "seed"', 'name = "key"'),
    (options.DATA, "high = 4096", "high = 4095"),
    (options.DATA, 'default = "4096"', 'default = "64"'),
    (options.DATA, "first = true\n", ""),
    (options.DATA, "what it may read; nothing by default", "what it may read"),
    (options.TABLE, "is_first: false", "is_first: true"),
    (options.TABLE, "65_536", "65_535"),
    (options.PAGE, "`--async`", "`--asynchronous`"),
    (options.PAGE, "`places` or `arithmetic`", "or `places`"),
    (options.PAGE, options.MARK, ""),
])
def test_a_wrong_change_is_noticed(copy: pathlib.Path, name: str, old: str, new: str) -> None:
    """A change of the data alone, and one of what is written."""
    file = copy / name
    text = file.read_text(encoding="utf-8")
    assert old in text
    file.write_text(text.replace(old, new, 1), encoding="utf-8")
    assert check(copy).status == 1
