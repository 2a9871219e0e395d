"""Variables of blocks and of inlined calls, of which compilers put several in one place.

By `mte_run --check=places` nothing is said of drawn programs that are correct, csmith's among them,
and one write past an array is told.

TOMBOLOPAN_DRAWN is how many programs are drawn, forty times.
"""

import os
import pathlib
import shutil

import pytest

from tests.reference import blocks
from tests.support.places import EXAMPLES
from tests.support.running import Ran, run, succeed
from tests.support.samples import FLAGS
from tests.support.tools import need
from tests.test_checks import BUILDS

SEEDS = range(int(os.environ.get("TOMBOLOPAN_DRAWN", "200")) // 40)
COMPILERS = {build.removesuffix("-O0"): words[:-1] for build, words in BUILDS.items()
             if build.endswith("-O0")}
LEVELS = ("-O0", "-O1", "-O2", "-O3")
# csmith's programs, without what they print: they have no library here.
CSMITH = ("-DCSMITH_MINIMAL", "-DNO_PRINTF", "-DUSE_MATH_MACROS", "-I.", "-I/usr/include/csmith")
GIVEN = {
    "custom_stdint_x86.h": "#include <stdint.h>\n", "custom_limits.h": "#include <limits.h>\n",
    "print.c": "int putchar(int it) { return it; }\nint printf(const char *it) { return *it; }\n",
}
STEPS = "3000000"
# How far in front of the next variable a pointer may be that counts from 1.
ELEMENT = 8


def image(folder: pathlib.Path, compiler: str, level: str, *words: str) -> pathlib.Path:
    """The file drawn.c of a folder as a tenant."""
    need(COMPILERS[compiler][0])
    for name in ("start.c", "tenant.h"):
        shutil.copy(EXAMPLES / "c" / name, folder)
    path = folder / "drawn.elf"
    succeed([*COMPILERS[compiler], level, *FLAGS, "-fno-builtin", *words, "-o", path.name,
             "./start.c", "./drawn.c"], cwd=folder)
    return path


def drawn_image(
    folder: pathlib.Path, compiler: str, level: str, drawn: blocks.Program, *words: str
) -> pathlib.Path:
    """A drawn program as a tenant."""
    (folder / "drawn.c").write_text(blocks.text_of(drawn), encoding="utf-8")
    (folder / "given.c").write_text(blocks.GIVEN, encoding="utf-8")
    return image(folder, compiler, level, *words, "./given.c")


def check(alone: pathlib.Path, path: pathlib.Path, number: int) -> Ran:
    """What is said of a program that writes past the array of a number."""
    given = path.with_suffix(".input")
    given.write_bytes(number.to_bytes(2, "little"))
    return run([alone, "--check=places", "--input", given, path])


@pytest.mark.parametrize("level", LEVELS)
@pytest.mark.parametrize("compiler", sorted(COMPILERS))
def test_nothing_is_told_of_correct_programs(
    alone: pathlib.Path, tmp_path: pathlib.Path, compiler: str, level: str
) -> None:
    """Of arrays that share places with one another and with what has no name."""
    for seed in SEEDS:
        path = drawn_image(tmp_path, compiler, level, blocks.drawn(seed))
        told = check(alone, path, blocks.NONE)
        assert told.status == 0 and "Cause" not in told.errors, (seed, told.errors)


@pytest.mark.parametrize("compiler", sorted(COMPILERS))
def test_a_write_past_an_array_is_told(
    alone: pathlib.Path, tmp_path: pathlib.Path, compiler: str
) -> None:
    """With the array's bytes and its name, by functions without inlined calls, but where a pointer
    may count the next array's elements from 1, or where gcc may have put what has no name."""
    for seed in SEEDS:
        drawn = blocks.drawn(seed)
        path = drawn_image(tmp_path, compiler, "-O0", drawn, "-DALWAYS=NEVER")
        assert "Cause" not in check(alone, path, blocks.NONE).errors, seed
        for number, size in enumerate(drawn.sizes):
            told = check(alone, path, number)
            wanted = f": Buffer Overflow, 0 bytes right of the {size}-byte variable `a{number}` at "
            is_told = wanted in told.errors and told.status == 137
            is_shared = compiler == "gcc" and number in drawn.shared and told.status == 0
            assert is_told or size <= ELEMENT or is_shared, (seed, number, told.errors)


# Bytes of an array between two others of a frame, whose places are numbers of one to three bytes.
APART = sorted({(1 << bits) + more for bits in range(5, 14) for more in (-48, -8, 0, 24)
                if (1 << bits) + more > ELEMENT} | {12345})
FAR = """
static int far{size}(int which)
{{
    volatile char low[24], between[{size}], high[40];
    fill(low, 24 + (which == 0));
    fill(between, {size} + (which == 1));
    fill(high, 40 + (which == 2));
    return low[1] + between[1] + high[1];
}}
"""


@pytest.mark.parametrize("compiler", sorted(COMPILERS))
def test_arrays_far_from_one_another_are_told_by_their_names(
    alone: pathlib.Path, tmp_path: pathlib.Path, compiler: str
) -> None:
    """A write past each of three arrays of a frame, over all sizes of that between two others."""
    head = ("int number_given(void);\nstatic void fill(volatile char *at, int count)\n"
            "{ for (int i = 0; i < count; i++) at[i] = 1; }\n")
    listed = ", ".join(f"far{size}" for size in APART)
    main = (f"static int (*const all[])(int) = {{ {listed} }};\n"
            "int main(void) { int it = number_given(); return all[it / 3](it % 3) & 0; }\n")
    text = head + "".join(FAR.format(size=size) for size in APART) + main
    (tmp_path / "drawn.c").write_text(text, encoding="utf-8")
    (tmp_path / "given.c").write_text(blocks.GIVEN, encoding="utf-8")
    path = image(tmp_path, compiler, "-O0", "./given.c")
    for number in range(3 * len(APART)):
        size = APART[number // 3]
        name, count = (("low", 24), ("between", size), ("high", 40))[number % 3]
        told = check(alone, path, number)
        wanted = f": Buffer Overflow, 0 bytes right of the {count}-byte variable `{name}` at "
        assert wanted in told.errors and told.status == 137, (size, name, told.errors)


@pytest.mark.parametrize("compiler", sorted(COMPILERS))
def test_a_use_after_a_block_is_told(
    alone: pathlib.Path, tmp_path: pathlib.Path, compiler: str
) -> None:
    """Of each pointer that is kept past the block of its array, and of no other."""
    for seed in SEEDS[sorted(COMPILERS).index(compiler)::len(COMPILERS)]:
        drawn = blocks.drawn(seed, 0.7)
        blocks.keep_pointers(drawn)
        path = drawn_image(tmp_path, compiler, "-O0", drawn, "-DALWAYS=NEVER")
        for number, kept in enumerate(drawn.kept, blocks.KEPT):
            told = check(alone, path, number)
            wanted = (f": Use After Scope of the {drawn.sizes[kept.array]}-byte variable "
                      f"`a{kept.array}` at ")
            is_told = wanted in told.errors and told.status == 137
            is_silent = "Cause" not in told.errors and told.status == 0
            assert is_told if kept.is_wrong else is_silent, (seed, number, kept, told.errors)


@pytest.mark.parametrize("level", LEVELS)
@pytest.mark.parametrize("compiler", sorted(COMPILERS))
def test_nothing_is_told_of_programs_of_csmith(
    alone: pathlib.Path, tmp_path: pathlib.Path, compiler: str, level: str
) -> None:
    """Of those that end by themselves, of which there are some."""
    need("csmith")
    for name, text in GIVEN.items():
        (tmp_path / name).write_text(text)
    ended = 0
    for seed in SEEDS:
        drawn = succeed(["csmith", "--no-argc", "--seed", str(seed)], cwd=tmp_path)
        (tmp_path / "drawn.c").write_bytes(drawn.out)
        path = image(tmp_path, compiler, level, "-w", *CSMITH, "./print.c")
        plain = run([alone, "--steps", STEPS, path])
        if plain.status == 0:
            ended += 1
            told = run([alone, "--check=places", "--steps", STEPS, path])
            assert told.status == 0 and "Cause" not in told.errors, (seed, told.errors)
    assert ended or len(SEEDS) < 5
