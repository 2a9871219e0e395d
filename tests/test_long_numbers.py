"""DWARF with numbers of more bytes than they need says the same: lines, variables and causes."""

import pathlib
import re
import shutil

import pytest

from tests.support.long_numbers import with_long_numbers
from tests.support.places import EXAMPLES
from tests.support.running import run, succeed
from tests.support.samples import FLAGS
from tests.support.tools import need
from tests.test_checks import BUILDS, SOURCES

SEEDS = (1, 2, 3, 4)


@pytest.mark.parametrize(("build", "bug"), [
    ("gcc-O0", 1), ("gcc-O0", 22), ("clang-O0", 8), ("clang-O0", 11), ("clang-O2", 4),
    ("clang-O2", 8),
])
def test_numbers_of_any_length(
    alone: pathlib.Path, tmp_path: pathlib.Path, build: str, bug: int
) -> None:
    """Of abbreviations, entries, attributes, references and locations: of variables of a frame, of
    the image, of a block and of a function that has returned."""
    words = [*BUILDS[build], *FLAGS, "-fno-builtin"]
    need(words[0])
    for file in (SOURCES / "place_bugs.c", EXAMPLES / "c" / "tenant.h", EXAMPLES / "c" / "start.c"):
        shutil.copy(file, tmp_path)
    notes = ["-dA"] if build.startswith("gcc") else ["-Wno-unused-command-line-argument"]
    succeed([*words, *notes, "-S", f"-DBUG={bug}", "-o", "bug.s", "place_bugs.c"], cwd=tmp_path)
    text = (tmp_path / "bug.s").read_text(encoding="utf-8")
    told = []
    for other in (text, *(with_long_numbers(text, seed) for seed in SEEDS)):
        (tmp_path / "other.s").write_text(other, encoding="utf-8")
        succeed([*words, "-o", "other.elf", "start.c", "other.s"], cwd=tmp_path)
        ran = run([alone, "--check=places", "other.elf"], cwd=tmp_path)
        told.append((ran.status, ran.errors))
        assert other == text or len(re.findall(r"^\t\.byte \d+, ", other, re.M)) > 50
    assert told[0][0] == 137 and " at place_bugs.c:" in told[0][1], told[0]
    assert told == told[:1] * len(told)
