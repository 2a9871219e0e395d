"""Tenants of examples/c as the pages have them, and what programs say of them."""

import difflib
import os
import pathlib
import shutil
from collections.abc import Sequence

from tests.support.once import make_once
from tests.support.pages import Part
from tests.support.places import EXAMPLES, ROOT
from tests.support.running import succeed

FLAGS = ("-g", "-ffreestanding", "-nostdlib", "-static", "-mgeneral-regs-only")
COMPILERS = {
    "clang": ("clang", "--target=aarch64-linux-gnu", "-fuse-ld=lld", "-O2"),
    "gcc": ("aarch64-linux-gnu-gcc", "-O0"),
}


def tenant(shared: pathlib.Path, source: pathlib.Path, compiler: str = "clang") -> pathlib.Path:
    """The image of a tenant, by clang at -O2 or by gcc at -O0, compiled beside its start code."""

    def compile_tenant(path: pathlib.Path) -> None:
        for file in (source, EXAMPLES / "c" / "start.c", EXAMPLES / "c" / "tenant.h"):
            shutil.copy(file, path.parent)
        words = [*COMPILERS[compiler], *FLAGS, "-o", path.name, "./start.c", f"./{source.name}"]
        succeed(words, cwd=path.parent)

    return make_once(shared / f"{source.stem}-{compiler}" / f"{source.stem}.elf", compile_tenant)


def assert_sample(part: Part, output: str, until: str = "") -> None:
    """A page's sample is what a program printed: from the line that it begins with to the one
    that begins with `until`, or to the end."""
    lines = output.splitlines()
    assert part.lines[0] in lines, f"{part.place}: nobody prints {part.lines[0]!r}\n{output}"
    printed = lines[lines.index(part.lines[0]):]
    if until:
        ends = [number for number, line in enumerate(printed) if line.startswith(until)]
        assert ends, f"nobody prints {until!r}\n{output}"
        printed = printed[:ends[0]]
    if os.environ.get("WRITE_EXPECTED") == "1":
        store(part, printed)
    compared = difflib.unified_diff(part.lines, printed, part.place, "printed", lineterm="", n=1)
    assert list(part.lines) == printed, "\n".join(compared)


def store(part: Part, printed: Sequence[str]) -> None:
    """Puts what is printed into the page, for review. A sample is four blanks in from the text."""
    page = ROOT / part.page
    text = page.read_text(encoding="utf-8")
    held = "".join(f"    {line}\n" for line in part.lines)
    if text.count(held) == 1:
        new = "".join(f"    {line}\n" for line in printed)
        page.write_text(text.replace(held, new), encoding="utf-8")


def assert_in_order(place: str, wanted: Sequence[str], output: str) -> None:
    """Each line is printed, in this order; others may be between them."""
    rest = output
    for line in wanted:
        assert line in rest, f"{place}: {line!r} is not printed where the page has it\n{output}"
        rest = rest[rest.index(line) + len(line):]


def assert_lines_in_order(place: str, wanted: Sequence[str], lines: Sequence[str]) -> None:
    """Each line is among the others, in this order."""
    at = 0
    for line in wanted:
        assert line in lines[at:], f"{place}: {line!r} is not there"
        at = lines.index(line, at) + 1
