"""Functions and source lines of the end, the allocation and the free, inlined calls too, as
AddressSanitizer tells them of the same source natively, by two compilers at three levels."""

import pathlib
import re

import pytest

from tests.support import asan
from tests.support.places import EXAMPLES, ROOT
from tests.support.running import run, succeed
from tests.support.tools import give_up, need

Places = dict[str, list[tuple[str, int]]]

SOURCES = {
    "lru": EXAMPLES / "gdb" / "lru.c",
    "string_builder": ROOT / "tests" / "sources" / "string_builder.c",
    "json_tree": ROOT / "tests" / "sources" / "json_tree.c",
}
COMPILERS = {
    "clang": ["clang", "--target=aarch64-linux-gnu", "-fuse-ld=lld"],
    "gcc": ["aarch64-linux-gnu-gcc"],
}
FLAGS = ["-g", "-ffreestanding", "-nostdlib", "-static", "-mgeneral-regs-only",
         f"-I{EXAMPLES / 'c'}"]
# ASan finds the callers by frame pointers, which are left out natively unless they are asked for.
NATIVE = ["-g", "-fsanitize=address", "-fno-omit-frame-pointer", "-fno-optimize-sibling-calls",
          f"-I{EXAMPLES / 'c'}"]
# What compilers do otherwise for this machine: they remove the wrong access, or load the parts of a
# node in another order or another frame.
OTHERWISE = {
    ("string_builder", "clang", "-O2"): asan.KINDS, ("json_tree", "clang", "-O2"): ("end",),
    ("json_tree", "clang", "-Os"): ("end",), ("json_tree", "gcc", "-Os"): ("end",),
}
HEADS = (
    (re.compile(r"==\d+==ERROR|mte_run: fault"), "end"), (re.compile(r" *freed by"), "freed"),
    (re.compile(r" *(previously )?allocated by"), "allocated"),
    (re.compile(r"SUMMARY|tags from"), ""),
)
THEIRS = re.compile(r" +#\d+ 0x\w+ in (\w+)[^/]*/.*?:(\d+)")
OURS = re.compile(r" +#\d+ (\w+)(?:\.\w+)*(?:\+0x\w+)? at [^:]+:(\d+)")


def places_in(text: str, frame: "re.Pattern[str]") -> Places:
    """Functions and lines of the frames, the innermost first, up to main."""
    places: Places = {kind: [] for kind in asan.KINDS}
    kind = ""
    for line in text.splitlines():
        kind = next((name for head, name in HEADS if head.match(line)), kind)
        found = frame.match(line)
        is_whole = kind and "main" in [name for name, _ in places[kind]]
        if found and kind and not is_whole and asan.own_names([found[1]]):
            places[kind].append((found[1], int(found[2])))
    return places


@pytest.mark.parametrize("level", ("-O0", "-O2", "-Os"))
@pytest.mark.parametrize("compiler", sorted(COMPILERS))
@pytest.mark.parametrize("name", sorted(SOURCES))
def test_functions_and_lines_are_those_of_address_sanitizer(
    alone: pathlib.Path, tmp_path: pathlib.Path, name: str, compiler: str, level: str
) -> None:
    """Each kind of frame, but where the compiler makes another program of the source."""
    need(COMPILERS[compiler][0], compiler)
    if asan.compiler() != "clang":
        give_up("clang of this machine has no AddressSanitizer")
    source, native, image = SOURCES[name], tmp_path / "native", tmp_path / "tenant.elf"
    succeed([compiler, *NATIVE, level, "-o", native, source])
    succeed([*COMPILERS[compiler], *FLAGS, level, "-o", image, EXAMPLES / "c" / "start.c", source])
    theirs = places_in(asan.run_natively(native, "").errors, THEIRS)
    ours = places_in(run([alone, image]).errors, OURS)
    kinds = set(asan.KINDS) - set(OTHERWISE.get((name, compiler, level), ()))
    assert {kind: ours[kind] for kind in kinds} == {kind: theirs[kind] for kind in kinds}
    assert all(len(ours[kind]) > 0 for kind in kinds)
