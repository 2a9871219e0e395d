"""Blocks of more than 1 MiB for a program that asks for them (tenant-cc --large-blocks): mistakes
that their tags find, and that a program which does not ask for them has none of it."""

import pathlib

import pytest

from tests.support.cache import tenant_library
from tests.support.programs import is_refused, run_as_tenant, tenant_cc
from tests.support.running import Ran, succeed
from tests.support.tools import need

AREA = "--large-blocks=8388608"
SEEDS = range(1, 9)
MIB = 1048576
SOURCE = """
#include <stdio.h>
#include <stdlib.h>
int main(void)
{{
    static char *volatile a, *volatile b, *volatile c;
    a = malloc({mib} * 2), b = malloc({mib} + 7), c = malloc(1000);
    if (!a || !b || !c)
        return 1;
    {mistake};
    puts("not found");
    return 0;
}}
"""
# What is found whatever the seed, with how the tenant ends: by a tag, or at the call.
TAG, CALL = ("fault TagCheck: ", 129), ("breakpoint 9 at ", 133)
MISTAKES = {
    "overflow": ("a[{mib} * 2] = 1", TAG),
    "overflow of a block that ends within a granule": ("b[{mib} + 16] = 1", TAG),
    "underflow": ("b[-1] = 1", TAG),
    "underflow of the first block": ("a[-1] = 1", TAG),
    "the block beside it": ("a[{mib} * 2 + 5000] = 1", TAG),
    "what is free": ("b[3 * {mib}] = 1", TAG),
    "a freed block": ("free(a); putchar(a[100])", TAG),
    "a block that is given again": ("free(a); c = malloc({mib} + 5); putchar(a[100])", TAG),
    "its second page": ("free(a); c = malloc({mib} + 5); putchar(a[5000])", TAG),
    "what was given again each time": (
        "for (int i = 0; i < 40; i++) {{ c = malloc({mib} * 3); free(c); "
        "b = malloc({mib} * 4); if (b == c) puts(\"same\"); free(b); }} putchar(b[100])", TAG),
    "a block that shrank": ("a = realloc(b = a, {mib} + 1); putchar(b[{mib} + 5000])", TAG),
    "a block that moved": ("c = realloc(a, 100); putchar(a[50])", TAG),
    "freed twice": ("free(a); free(a)", CALL),
    "freed within": ("free(a + 16)", CALL),
    "no block": ("free(a + 7 * {mib})", CALL),
    "reallocated once freed": ("free(b); b = realloc(b, 10)", CALL),
    "another tag": ("free((char *)((unsigned long)a ^ 1ul << 56))", CALL),
}


@pytest.fixture(scope="session")
def library() -> pathlib.Path:
    """The library, which is built once."""
    return tenant_library()


def linked(library: pathlib.Path, folder: pathlib.Path, mistake: str, *words: str) -> pathlib.Path:
    """The image of a program with a mistake."""
    need("clang", "ld.lld")
    source, image = folder / "source.c", folder / "image.elf"
    text = SOURCE.format(mib=MIB, mistake=mistake.format(mib=MIB))
    source.write_text(text, encoding="utf-8")
    ran = tenant_cc(library, *words, "-O1", "-g", "-o", str(image), str(source))
    assert (ran.status, ran.errors) == (0, "")
    return image


@pytest.mark.parametrize("name", MISTAKES)
def test_a_mistake_is_found(
    alone: pathlib.Path, library: pathlib.Path, tmp_path: pathlib.Path, name: str
) -> None:
    """Whatever the seed of the tags."""
    mistake, (said, status) = MISTAKES[name]
    image = linked(library, tmp_path, mistake, AREA)
    for seed in SEEDS:
        ran = run_as_tenant(alone, image, "--seed", str(seed))
        assert ran.status == status and said in ran.errors, (seed, ran.output + ran.errors)


AGAIN = """
for (int i = 0; i < 200; i++) {{
    free(a);
    b = a, a = malloc({mib} + 5000 * (i % 7));
    if (!a || (unsigned long)a >> 56 == (unsigned long)b >> 56)
        return 8;
}}
return 9"""


def test_a_block_has_not_the_tag_that_was_there(
    alone: pathlib.Path, library: pathlib.Path, tmp_path: pathlib.Path
) -> None:
    """However often a block is freed and given again, in the same place with other sizes."""
    image = linked(library, tmp_path, AGAIN, AREA)
    for seed in SEEDS:
        assert run_as_tenant(alone, image, "--seed", str(seed)).status == 9


def test_what_no_tag_finds(
    alone: pathlib.Path, library: pathlib.Path, tmp_path: pathlib.Path
) -> None:
    """An access past the bytes that were asked for, within their last granule."""
    ran = run_as_tenant(alone, linked(library, tmp_path, "b[{mib} + 15] = 1", AREA))
    assert (ran.status, ran.output) == (0, "not found\n")


def symbols(image: pathlib.Path) -> str:
    """The names that an image or an archive defines."""
    return succeed(["llvm-nm", "--defined-only", image]).output


def test_who_does_not_ask_has_none(
    alone: pathlib.Path, library: pathlib.Path, tmp_path: pathlib.Path
) -> None:
    """Such a request fails as before; neither the library nor the image has anything of it."""
    image = linked(library, tmp_path, "return 9")
    assert run_as_tenant(alone, image).status == 1
    assert "tenant_large" not in symbols(image) + symbols(library / "lib" / "libc.a")
    assert " tenant_large_area\n" in symbols(linked(library, tmp_path, "return 9", AREA))


def test_an_area_is_as_large_as_it_is_wanted(
    alone: pathlib.Path, library: pathlib.Path, tmp_path: pathlib.Path
) -> None:
    """Whole pages; the smallest has one block of 1 MiB and a byte, the largest leaves a stack."""

    def run_with(area: int, mistake: str) -> Ran:
        return run_as_tenant(alone, linked(library, tmp_path, mistake, f"--large-blocks={area}"))

    rest = "a = realloc(a, 14680064 - 32); return a ? 9 : 8"
    assert run_with(14680064, f"free(b); {rest}").status == 9
    assert run_with(14680064, f"free(b); {rest.replace('32', '31')}").status == 8
    assert run_with(3 * MIB + 4096, "return 9").status == 1
    assert run_with(3 * MIB + 4097, "return 9").status == 9


@pytest.mark.parametrize("size", ["1052671", "14680065", "", "8m"])
def test_areas_that_are_refused(library: pathlib.Path, size: str) -> None:
    """A line and status 2."""
    need("clang")
    said = f"--large-blocks is 1052672 to 14680064, not {size} (--help)"
    is_refused(tenant_cc(library, f"--large-blocks={size}", "a.c"), said)
