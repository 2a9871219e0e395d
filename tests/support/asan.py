"""The calls that AddressSanitizer tells of a program, beside those that mte_run tells of it.

The same source is compiled for this machine. Compared are the names of the functions, in their
order, of the end, the allocation and the free, those that were inlined among them. Left out are the
wrappers of the services and where a program begins.
"""

import pathlib
import re
import subprocess
from collections.abc import Iterable
from typing import Optional

from tests.support.running import Ran, run, succeed
from tests.support.told import Told, read_told

WRAPPERS = re.compile(
    r"tenant_\w+|_start|__asan\w*|__interceptor_\w+|(__)?(malloc|free|calloc|realloc|memalign)$"
)
KINDS = ("end", "allocated", "freed")
HEADS = (
    (re.compile(r"==\d+==ERROR"), "end"),
    (re.compile(r"freed by"), "freed"),
    (re.compile(r"(previously )?allocated by"), "allocated"),
    (re.compile(r"SUMMARY"), ""),
)
FRAME = re.compile(r" +#\d+ 0x\w+ in (\w+)")
EMPTY = "int main(void) { return 0; }\n"


def compiler() -> Optional[str]:
    """A compiler of this machine that has AddressSanitizer, if one has."""
    for name in ("clang", "gcc"):
        words = [name, "-fsanitize=address", "-x", "c", "-o", "/dev/null", "-"]
        try:
            if subprocess.run(words, input=EMPTY.encode(), capture_output=True).returncode == 0:
                return name
        except OSError:
            continue
    return None


def compile_natively(
    name: str, source: pathlib.Path, program: pathlib.Path, *flags: str,
) -> pathlib.Path:
    """The program of a source under AddressSanitizer."""
    options = ["-g", "-O0", "-fsanitize=address", *flags]
    succeed([name, *options, "-o", str(program), str(source)])
    return program


def run_natively(program: pathlib.Path, text: str) -> Ran:
    """Runs it over an input."""
    options = {"ASAN_OPTIONS": "detect_leaks=0:allocator_may_return_null=1"}
    return run([program], stdin=text.encode(), extra=options)


def counts_of(told: Told) -> list[tuple[str, int]]:
    """How many calls of each kind are told, but of the chunk that a block was given to again."""
    counts = [("end", len(told.end))]
    for call in told.calls:
        is_later = (call.did, "") in [(did, "") for did, _ in counts]
        counts.append(("later" if is_later else call.did, len(call.frames)))
    return counts


def names_told(text: str, folder: pathlib.Path) -> dict[str, list[str]]:
    """The names of the functions that mte_run tells, the innermost first, by the command that it
    tells last. `folder` has the image."""
    told = read_told(text)
    words = told.symbolizer
    if not words:
        return {}
    said = succeed(words, cwd=folder).output.strip()
    blocks = [block.splitlines()[::2] for block in said.split("\n\n")]
    names: dict[str, list[str]] = {kind: [] for kind in KINDS}
    for kind, count in counts_of(told):
        frames, blocks = blocks[:count], blocks[count:]
        if kind in names:
            names[kind] = own_names(name for frame in frames for name in frame)
    return names


def own_names(names: Iterable[str]) -> list[str]:
    """Those of the program itself, without what compilers add to them."""
    return [name.split(".")[0] for name in names if not WRAPPERS.match(name)]


def names_by_sanitizer(text: str) -> dict[str, list[str]]:
    """The same of a report of AddressSanitizer. Calls that do not begin in main are of the C
    library: the next chunk to a wild access was its own."""
    names: dict[str, list[str]] = {kind: [] for kind in KINDS}
    kind = ""
    for line in text.splitlines():
        kind = next((name for head, name in HEADS if head.match(line)), kind)
        found = FRAME.match(line)
        if found and kind and "main" not in names[kind]:
            names[kind] += own_names([found[1]])
    return {kind: listed for kind, listed in names.items() if "main" in listed}
