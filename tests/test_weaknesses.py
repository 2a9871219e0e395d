"""Weaknesses that are known: a sample of the small programs of tools/weaknesses.py, and libraries'
of examples/cves; and what docs/project/CHECKED.md says of them."""

import pathlib
import re
import sys

import pytest

from tests.support.cache import cache_folder, tenant_library
from tests.support.places import EXAMPLES, ROOT
from tests.support.running import Word, run
from tests.support.tools import give_up, need

PAGE = (ROOT / "docs" / "project" / "CHECKED.md").read_text(encoding="utf-8")
LIBRARIES = ("CVE-2023-53154", "CVE-2023-33460", "CVE-2014-2525", "bzip2", "expat")


def test_a_sample_is_told(alone: pathlib.Path) -> None:
    """Each by its cause and its line, and without its weakness not."""
    need("clang", "ld.lld", "aarch64-linux-gnu-gcc")
    script = ROOT / "tools" / "weaknesses.py"
    ran = run([sys.executable, script, "--run", alone, "--sample", "15"])
    assert ran.status == 0 and "| all | 12 | 12, 12 | 12, 12 |" in ran.output, ran.output


def test_the_page_has_all_programs() -> None:
    """At least 150, of each family that the script has, with at least 140 found in each build that
    was not optimized."""
    script = ROOT / "tools" / "weaknesses.py"
    titles = run([sys.executable, script, "--list"]).output.splitlines()
    rows = dict(re.findall(r"^\| (\d+|all) \| (\d+) \|", PAGE, re.M))
    families = [title.partition(":")[0] for title in titles]
    assert {it: str(families.count(it)) for it in families} | {"all": str(len(titles))} == rows
    cells = re.findall(r"^\| all \| \d+ \| (.*) \|$", PAGE, re.M)[0].split(" | ")
    assert len(titles) >= 150 and len(cells) == 4
    assert all(int(cells[at].split(", ")[1]) >= 140 for at in (0, 2)), cells


@pytest.mark.parametrize("name", LIBRARIES)
def test_a_weakness_of_a_library(
    alone: pathlib.Path, monkeypatch: pytest.MonkeyPatch, name: str
) -> None:
    """It is told by its cause and its place, as the page says."""
    need("clang", "ld.lld", "apt-get")
    monkeypatch.setenv("TENANT_LIBRARY", str(tenant_library()))
    script = EXAMPLES / "cves" / "cves.py"
    words: list[Word] = [sys.executable, script, "--run", alone]
    words += ["--work", cache_folder() / "cves"]
    ran = run([*words, "--only", name])
    if ran.status == 3:
        give_up(ran.errors.strip()[-300:])
    row = ran.output.splitlines()[-1]
    assert ran.status == 0 and row.startswith(f"| {name} |") and row in PAGE, ran.output
