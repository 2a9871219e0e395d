#!/usr/bin/env python3
"""The table of docs/project/CHECKED.md: which of the planted bugs of tests/sources who finds.

    checking.py [--write | --check]

Each bug is compiled by clang at -O0 as a tenant, which mte_run runs with tags alone, with --exact
and with --check=all,places; and for this machine, where it runs under AddressSanitizer and
Valgrind's memcheck.
Without an option the table is printed; --write puts it into the page. --check compares each cell of
mte_run with the page's, and of the other tools those that do not depend on the machine ("yes").
"""

import datetime
import functools
import os
import pathlib
import platform
import re
import shutil
import subprocess
import sys
import tempfile
from collections.abc import Iterator
from typing import NamedTuple

ROOT = pathlib.Path(__file__).resolve().parent.parent
PAGE = ROOT / "docs" / "project" / "CHECKED.md"
SOURCES = ROOT / "tests" / "sources"
SAMPLES = ROOT / "examples" / "c"
# The folder that TOMBOLOPAN_BUILT names has programs that were built elsewhere.
BUILT = pathlib.Path(os.environ.get("TOMBOLOPAN_BUILT") or ROOT / "crates" / "mte_run" / "out")
RUN = BUILT.resolve() / "mte_run"
TENANT = ("clang", "--target=aarch64-linux-gnu", "-fuse-ld=lld", "-O0", "-g", "-ffreestanding",
          "-nostdlib", "-static", "-mgeneral-regs-only", "-fno-builtin", "-w")
NATIVE = ("gcc", "-O0", "-g", "-fno-builtin", "-w")
OURS = ("tags alone", "`--exact`", "`--check`")
THEIRS = ("AddressSanitizer", "memcheck")
COLUMNS = (*OURS, *THEIRS)
FOUND, BY_CHANCE, MISSED, ABSENT = "yes", "(yes)", "-", "?"
# The sources whose bugs a tool knows of: memcheck knows chunks and values that were never given,
# AddressSanitizer knows chunks and variables. What else they report is chance: it depends on what
# is next to the bytes on the stack of the machine.
KNOWN = {
    "AddressSanitizer": ("pointer_bugs.c", "place_bugs.c", "argument_bugs.c"),
    "memcheck": ("pointer_bugs.c", "undefined_bugs.c", "argument_bugs.c"),
}
# Each of them knows what is no chunk and is freed.
FREES = re.compile("is freed$|gets another size$")
# An access to another chunk, and what is left of a pointer on the stack, are chance too.
CHANCE = ("a read far", "lost: ")
RECORD = "The columns of the other tools are of "
# What only another library's functions have: a free of a chunk by a function that is not for it.
MISMATCHES = {
    "10": "`new`, then `free`",
    "21": "`new[]`, then `delete`",
    "01": "`malloc`, then `delete`",
    "15": "`new` of 40 bytes, then `delete` of 16",
}


class Bug(NamedTuple):
    """A planted bug: its source, what is defined there, what it reads, and what it is."""

    source: str
    defined: tuple[str, ...]
    given: bytes
    title: str

    @property
    def is_leak(self) -> bool:
        """Whether lost chunks are the bug; most others lose some too, which does not count."""
        return self.title.startswith("lost")


class Row(NamedTuple):
    """A bug, and who finds it."""

    bug: Bug
    cells: tuple[str, ...]


def bugs() -> Iterator[Bug]:
    """The bugs that a checker of memory may find, in the order of their sources."""
    for source in ("pointer_bugs.c", "undefined_bugs.c", "place_bugs.c", "argument_bugs.c"):
        text = (SOURCES / source).read_text(encoding="utf-8")
        for number, title in re.findall(r"^#(?:el)?if BUG == (\d+) /\* (.*) \*/$", text, re.M):
            yield Bug(source, (f"-DBUG={number}",), b"y" * 100, title)
    for given, title in MISMATCHES.items():
        yield Bug("mismatched_frees.c", (), given.encode(), title)


def run(words: list[str], given: bytes = b"", leaks: bool = False) -> tuple[int, str]:
    """The exit status and what a command wrote on standard error; AddressSanitizer looks for leaks
    where these are wanted."""
    extra = {**os.environ, "ASAN_OPTIONS": f"detect_leaks={int(leaks)}"}
    ran = subprocess.run(words, input=given, capture_output=True, timeout=900, check=False,
                         env=extra)
    return ran.returncode, ran.stderr.decode(errors="replace")


def compile_to(image: pathlib.Path, words: tuple[str, ...], bug: Bug, *files: str) -> None:
    """Compiles a bug; a failure ends the script."""
    options = [*words, *bug.defined, f"-I{SAMPLES}", "-o", str(image)]
    sources = [*(str(SAMPLES / it) for it in files), str(SOURCES / bug.source)]
    status, errors = run([*options, *sources])
    if status:
        sys.exit(f"checking.py: {bug.source}: {errors}")


def as_tenant(bug: Bug, folder: pathlib.Path) -> list[str]:
    """Whether each way of mte_run finds a bug."""
    image, text = folder / "tenant.elf", folder / "input"
    compile_to(image, TENANT, bug, "start.c")
    text.write_bytes(bug.given)
    found = []
    for options in ((), ("--exact",), ("--check=all,places",)):
        status, errors = run([str(RUN), *options, "--input", str(text), str(image)])
        is_found = 129 <= status <= 137 or (bug.is_leak and "lost at the end" in errors)
        found.append(FOUND if is_found else MISSED)
    return found


def ends_well(words: list[str], given: bytes = b"") -> bool:
    """Whether a tool is here and a command with it ends well."""
    return shutil.which(words[0]) is not None and run(words, given)[0] == 0


@functools.cache
def tools_here() -> tuple[bool, bool]:
    """Whether AddressSanitizer and memcheck run an empty program here."""
    with tempfile.TemporaryDirectory() as folder:
        program = f"{folder}/program"
        words = [*NATIVE, "-fsanitize=address", "-x", "c", "-o", program, "-"]
        has_sanitizer = ends_well(words, b"int main(void) { return 0; }\n") and ends_well([program])
    return has_sanitizer, ends_well(["valgrind", "-q", "true"])


def cell(tool: str, bug: Bug, is_found: bool) -> str:
    """What the table says of a report of another tool, or of none."""
    if not is_found:
        return MISSED
    is_known = bug.source in KNOWN[tool] or FREES.search(bug.title) is not None
    return FOUND if is_known and not bug.title.startswith(CHANCE) else BY_CHANCE


def natively(bug: Bug, folder: pathlib.Path) -> list[str]:
    """Whether AddressSanitizer and memcheck find a bug, where they are here. They know the
    functions of C++ from their library, which the programs in C have not."""
    program = folder / "program"
    if bug.source == "mismatched_frees.c":
        return [ABSENT, ABSENT]
    found = [ABSENT, ABSENT]
    if tools_here()[0]:
        compile_to(program, (*NATIVE, "-fsanitize=address"), bug)
        _, errors = run([str(program)], bug.given, bug.is_leak)
        found[0] = cell(THEIRS[0], bug, "Sanitizer" in errors)
    if tools_here()[1]:
        compile_to(program, NATIVE, bug)
        leaks = "full" if bug.is_leak else "no"
        words = ["valgrind", "-q", f"--leak-check={leaks}", "--error-exitcode=99", str(program)]
        status, errors = run(words, bug.given)
        found[1] = cell(THEIRS[1], bug, status == 99 or "== Invalid" in errors)
    return found


def rows() -> list[Row]:
    """Each bug with who finds it."""
    found = []
    with tempfile.TemporaryDirectory() as folder:
        for bug in bugs():
            place = pathlib.Path(folder)
            found.append(Row(bug, (*as_tenant(bug, place), *natively(bug, place))))
    return found


def table(found: list[Row]) -> list[str]:
    """The lines of the table, with the sums in the last."""
    lines = [f"| Bug | {' | '.join(COLUMNS)} |", "|---|" + "---|" * len(COLUMNS)]
    for row in found:
        lines.append(f"| {row.bug.title} | {' | '.join(row.cells)} |")
    counts = [sum(row.cells[it] in (FOUND, BY_CHANCE) for row in found)
              for it in range(len(COLUMNS))]
    asked = [sum(row.cells[it] != ABSENT for row in found) for it in range(len(COLUMNS))]
    sums = " | ".join(f"{count} of {all_}" for count, all_ in zip(counts, asked))
    return [*lines, f"| found | {sums} |"]


def page_table(text: str) -> list[str]:
    """The lines of the page's table."""
    lines = text.splitlines()
    first = next(it for it, line in enumerate(lines) if line.startswith("| Bug |"))
    last = first
    while last < len(lines) and lines[last].startswith("|"):
        last += 1
    return lines[first:last]


def is_different(column: int, held: str, new: str) -> bool:
    """Whether a cell of the page does not hold. Each cell of mte_run has to, and each report of
    another tool that is here, unless it depends on the machine."""
    if column < len(OURS):
        return held != new
    return held == FOUND and new not in (FOUND, ABSENT)


def differences(held: list[str], new: list[str]) -> list[str]:
    """The cells of the page that do not hold; sums are not compared."""
    if len(held) != len(new):
        return [f"the page has {len(held)} rows, the run {len(new)}"]
    wrong = []
    for old, line in zip(held[:-1], new[:-1]):
        title, *cells = (it.strip() for it in old.strip("|").split("|"))
        now, *others = (it.strip() for it in line.strip("|").split("|"))
        if title != now:
            wrong.append(f"the page has {title!r}, the run {now!r}")
        wrong += [f"{title}: {COLUMNS[it]}: page {a}, run {b}"
                  for it, (a, b) in enumerate(zip(cells, others)) if is_different(it, a, b)]
    return wrong


def record() -> str:
    """The sentence of the page that has the day and the machine of the other tools' columns."""
    firsts = [subprocess.run([tool, "--version"], stdout=subprocess.PIPE, text=True, check=True)
              .stdout.splitlines()[0] for tool in ("gcc", "valgrind")]
    kernel = f"{platform.system()} {platform.release()}, {platform.machine()}"
    return f"{RECORD}{datetime.date.today()}, by {', '.join(firsts)}, on {kernel}."


def main() -> None:
    options = sys.argv[1:]
    if options not in ([], ["--write"], ["--check"]):
        sys.exit((__doc__ or "").strip())
    new = table(rows())
    if not options:
        print("\n".join(new))
        return
    text = PAGE.read_text(encoding="utf-8")
    held = page_table(text)
    if options == ["--write"]:
        text = text.replace("\n".join(held), "\n".join(new))
        text = re.sub(rf"^{RECORD}.*$", lambda _: record(), text, flags=re.M)
        PAGE.write_text(text, encoding="utf-8")
        return
    if wrong := differences(held, new):
        sys.exit("\n".join(["checking.py: the page differs", *wrong]))


if __name__ == "__main__":
    main()
