"""Arrays of variable length and memory of `alloca`, in C and in C++.

By `mte_run --check=places` nothing is said of drawn programs that are correct. Each access past an
array's end or in front of its start is told at its line, by functions that were not optimized.

TOMBOLOPAN_DRAWN is how many programs are drawn, a hundred times.
"""

import os
import pathlib
import shutil

import pytest

from tests.reference import arrays
from tests.support.places import EXAMPLES
from tests.support.running import Ran, run, succeed
from tests.support.samples import FLAGS
from tests.support.tools import need
from tests.test_variables_of_blocks import COMPILERS, LEVELS

SEEDS = range(int(os.environ.get("TOMBOLOPAN_DRAWN", "200")) // 100)
# Of how many accesses of a program one is wrong in a run.
APART = 3
LANGUAGES = {"c": (), "c++": ("-fno-exceptions", "-fno-rtti")}


def image(
    folder: pathlib.Path, compiler: str, level: str, language: str, drawn: arrays.Program
) -> pathlib.Path:
    """A drawn program as a tenant."""
    need(COMPILERS[compiler][0])
    for name in ("start.c", "tenant.h"):
        shutil.copy(EXAMPLES / "c" / name, folder)
    (folder / "drawn.c").write_text(arrays.text_of(drawn), encoding="utf-8")
    (folder / "given.c").write_text(arrays.GIVEN, encoding="utf-8")
    path = folder / "drawn.elf"
    words = [*COMPILERS[compiler], level, *FLAGS, "-fno-builtin", "-w", "-o", path.name]
    succeed([*words, "./start.c", "./given.c", "-x", language, *LANGUAGES[language], "./drawn.c"],
            cwd=folder)
    return path


def check(alone: pathlib.Path, path: pathlib.Path, number: int) -> Ran:
    """What is said of a program whose access of a number is wrong."""
    given = path.with_suffix(".input")
    given.write_bytes(number.to_bytes(2, "little"))
    return run([alone, "--check=places", "--input", given, path])


@pytest.mark.parametrize("language", LANGUAGES)
@pytest.mark.parametrize("level", LEVELS)
@pytest.mark.parametrize("compiler", sorted(COMPILERS))
def test_nothing_is_told_of_correct_programs(
    alone: pathlib.Path, tmp_path: pathlib.Path, compiler: str, level: str, language: str
) -> None:
    """However blocks are left, and whatever is beside the arrays."""
    for seed in SEEDS:
        path = image(tmp_path, compiler, level, language, arrays.drawn(seed))
        told = check(alone, path, arrays.NONE)
        assert told.status == 0 and "Cause" not in told.errors, (seed, told.errors)


@pytest.mark.parametrize("language", LANGUAGES)
@pytest.mark.parametrize("compiler", sorted(COMPILERS))
def test_each_wrong_access_is_told(
    alone: pathlib.Path, tmp_path: pathlib.Path, compiler: str, language: str
) -> None:
    """With the array's bytes, how far the access is from it, and the line: all but those to what
    clang adds to the bytes that were asked for."""
    for seed in SEEDS:
        drawn = arrays.drawn(seed)
        path = image(tmp_path, compiler, "-O0", language, drawn)
        for number, access in list(enumerate(drawn.accesses))[seed % APART::APART]:
            told, wanted = check(alone, path, number), access.told(compiler)
            if not wanted:
                assert told.status == 0 and "Cause" not in told.errors, (seed, number, told.errors)
                continue
            assert told.status == 137 and wanted in told.errors, (seed, number, told.errors)
            assert f"drawn.c:{access.line}" in told.errors, (seed, number, told.errors)
