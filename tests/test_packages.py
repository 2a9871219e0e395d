"""Packages that others wrote, and programs that test compilers: a sample of what
examples/packages compares, and what its page says."""

import pathlib
import re
import sys

import pytest

from tests.support.cache import cache_folder, tenant_cxx_library
from tests.support.places import EXAMPLES, ROOT
from tests.support.running import Ran, Word, run
from tests.support.tools import give_up, need

sys.path.insert(0, str(EXAMPLES / "packages"))
import checked  # noqa: E402
import compilers  # noqa: E402
import packages  # noqa: E402
import suites  # noqa: E402
from page_part import part_of  # noqa: E402

PAGE = (ROOT / "docs" / "project" / "PACKAGES.md").read_text(encoding="utf-8")
CHECKED = (ROOT / "docs" / "project" / "CHECKED.md").read_text(encoding="utf-8")
# Suites of their own by makefiles and by ctest, that take seconds.
SUITES = ("libyaml", "zlib")
# A library with its tests, a language, a tool with files, one that writes files, and C++.
SAMPLE = ("cjson", "mujs", "giflib", "libb64", "tinyxml2")


@pytest.fixture
def place(tmp_path: pathlib.Path, alone: pathlib.Path) -> list[str]:
    """The words that say where all is; sources are kept from run to run."""
    need("clang", "clang++", "ld.lld", "llvm-ar", "apt-get", "stdbuf")
    for name in ("sources", "torture"):
        (cache_folder() / name).mkdir(parents=True, exist_ok=True)
        (tmp_path / name).symlink_to(cache_folder() / name)
    return ["--out", str(tmp_path), "--library", str(tenant_cxx_library()), "--alone", str(alone)]


def ran_as_said(ran: Ran, wanted: str) -> None:
    """A script that found no difference."""
    if "was not fetched" in ran.errors:
        give_up(ran.errors.strip()[-300:])
    assert (ran.status, ran.errors) == (0, ""), ran.output + ran.errors
    assert re.fullmatch(wanted, ran.output), ran.output


@pytest.mark.parametrize("name", SAMPLE)
def test_a_package_does_what_it_does_natively(place: list[str], name: str) -> None:
    """It is built unchanged both ways, and all its commands write the same."""
    script = EXAMPLES / "packages" / "packages.py"
    words: list[Word] = [sys.executable, script, "--only", name, *place]
    ran_as_said(run(words, seconds=900), rf"{name} \S+: the same\n")


@pytest.mark.parametrize("kind, count, tool", [("csmith", 4, "csmith"), ("torture", 24, "tar")])
def test_programs_that_test_compilers(
    place: list[str], kind: str, count: int, tool: str
) -> None:
    """None of a sample differs, by clang and gcc."""
    need("gcc", "aarch64-linux-gnu-gcc", tool)
    script = EXAMPLES / "packages" / "compilers.py"
    ran = run([sys.executable, script, kind, f"--count={count}", *place], seconds=900)
    ran_as_said(ran, r"(?:.*: refused: .*\n)*.*\d+ the same.*\n")
    assert "different" not in ran.output


def test_nothing_is_told_of_programs_that_test_compilers(place: list[str]) -> None:
    """`--check` tells nothing of a sample, in four builds, and no run of it differs."""
    need("gcc", "aarch64-linux-gnu-gcc", "tar")
    script = EXAMPLES / "packages" / "checked.py"
    ran = run([sys.executable, script, "torture", "--every=50", *place], seconds=900)
    ran_as_said(ran, r"[1-9]\d+ builds run, \d+ left out\n")


@pytest.mark.parametrize("name", SUITES)
def test_a_suite_passes_as_natively(place: list[str], name: str) -> None:
    """Its own tests, by its own makefile or ctest with tenant-run: as many pass as natively."""
    need("make", "cmake", "ctest")
    script = EXAMPLES / "packages" / "suites.py"
    words: list[Word] = [sys.executable, script, "--only", name, *place]
    ran_as_said(run(words, seconds=900), rf"{name}: natively (\([1-9]\d*, 0\)), as tenants \1 \n")


def test_counts_of_suites() -> None:
    """What ctest, GoogleTest and Automake say is counted."""
    told = """\
 1/12 Test  #1: one ..............   Passed    0.01 sec
12/12 Test #12: two ..............***Failed    0.01 sec
1: [       OK ] A.B (0 ms)
1: [  FAILED  ] A.C (0 ms)
[  FAILED  ] A.C, listed once more
# PASS:  5
# FAIL:  0
# ERROR: 2
"""
    found = {kind: tuple(suites.counted(it, told) for it in pair)
             for kind, pair in suites.KINDS.items()}
    assert found == {"ctest": (1, 1), "googletest": (1, 1), "automake": (5, 2)}


def test_the_page_has_each_suite() -> None:
    """A row each, in order, whose counts differ where it says why; the others are named below."""
    part = part_of(PAGE, suites.SCRIPT)
    rows = re.findall(r"^\| (\S+) \| \S+ \| .* \| (\d+ of \d+) \| (\d+ of \d+) \| (.*) \|$", part,
                      re.M)
    left = re.findall(r"^Not run since they were entered: (.*)\.$", part, re.M)
    names = [name for name, *_ in rows]
    assert names == sorted(names)
    assert sorted([*names, *(left[0].split(", ") if left else [])]) == [
        it.name for it in suites.read_suites()]
    for _, natively, tenants, differs in rows:
        assert (natively == tenants) == (differs == "nothing")


def test_the_page_has_each_package_and_what_came_of_it() -> None:
    """A row each, in order, and the count above them."""
    rows = re.findall(r"^\| (\S+) \| \S+ \| C.* \| .* \| (yes|no: .*) \|$", PAGE, re.M)
    listed = packages.read_packages()
    assert [(name, result == "yes") for name, result in rows] == [
        (package.name, not package.not_the_same) for package in listed
    ]
    same = sum(result == "yes" for _, result in rows)
    assert f"Of {len(rows)} packages {same} are built unchanged" in PAGE


def test_the_page_has_no_program_that_differs() -> None:
    """A row for each kind of programs and each compiler."""
    rows = re.findall(r"^\| (.*) \| (clang|gcc) \| (\d+) \| \d+ \| (\d+) \| \d+ \| \d+ \|$",
                      PAGE, re.M)
    assert [(title, compiler) for title, compiler, _, _ in rows] == [
        (title, compiler) for title in compilers.TITLES.values() for compiler in compilers.COMPILERS
    ]
    assert all(int(same) >= 200 and different == "0" for _, _, same, different in rows)


def test_the_page_has_what_is_told_of_programs_that_test_compilers() -> None:
    """A row for each build, in none of which something false is told, and each fault."""
    part = part_of(CHECKED, checked.SCRIPT)
    row = rf"^\| {checked.TITLES['torture']} \| (\S+) \| (\d+) \| \d+ \| \d+ \| (\d+) \|$"
    rows = re.findall(row, part, re.M)
    assert [build for build, _, _ in rows] == checked.USUAL
    assert all(int(count) >= 400 and false == "0" for _, count, false in rows)
    assert re.findall(r"^\| (\S+) \| \S+-O.* \| it .* \|$", part, re.M) == list(
        checked.faults()["torture"])


def test_what_is_told_is_beside_notes_and_the_plain_run() -> None:
    """The first lines and the cause of what only the watched run says."""
    note = "mte_run: no tag differed; a tag is that of 16 bytes\n"
    said = "mte_run: check: a read\n  #0 main\n  #1 start\nCause: [check]: x\n"
    assert checked.told_of(note) == checked.told_of(said, said) == ""
    assert checked.told_of(note + said) == "mte_run: check: a read |   #0 main | Cause: [check]: x"


def test_the_first_difference_of_two_outputs() -> None:
    """The line, or how many lines there are."""
    assert packages.first_difference(b"a\nb\nc\n", b"a\nx\nc\n").startswith("line 2\n")
    assert packages.first_difference(b"a\n", b"a\nb\n") == "1 lines, and 2 of the tenant"


def test_changed_sources_are_named(tmp_path: pathlib.Path) -> None:
    """Sources alone, not what a build system writes anew."""
    for folder, text in (("one", "int a;\n"), ("two", "int b;\n")):
        (tmp_path / folder).mkdir()
        for name in ("a.c", "configure", "b.hpp"):
            (tmp_path / folder / name).write_text(text if name != "b.hpp" else "")
    assert packages.changed_files(tmp_path / "one", tmp_path / "two") == ["a.c"]
