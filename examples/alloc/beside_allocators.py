#!/usr/bin/env python3
"""Replays one trace of heap calls on the profile's heap, on LLVM's Scudo and on this machine's
malloc, and writes what became of each as a table.

    beside_allocators.py [--rows N] [--write] TRACE

A row is written behind each part of N equal parts of the calls (4): the bytes that are mapped, and
how many chunks are where one was freed before, over how many calls in the mean of those since the
row before. Scudo is that of Debian's libclang-rt-14-dev, natively on x86-64; what it has mapped is
told by its own mallinfo2, as of this machine's. --write puts the table into docs/ALLOCATORS.md. The
library is found as over_library.py says.
"""
from __future__ import annotations

import csv
import pathlib
import subprocess
import sys
import tempfile

HERE = pathlib.Path(__file__).resolve().parent
sys.path.insert(0, str(HERE.parent))
from command_line import Parser  # noqa: E402
from over_library import NotCompiled, compile_program  # noqa: E402
from page_part import write_part  # noqa: E402
from scudo_library import NoScudo, archives, link_words, with_options  # noqa: E402

PAGE = HERE.parents[1] / "docs" / "ALLOCATORS.md"
SCRIPT = "examples/alloc/beside_allocators.py"
Row = dict[str, str]
# The heaps, in the order of the columns.
PROFILE, SCUDO, MACHINE = "profile", "Scudo", "glibc"
HEAPS = (PROFILE, SCUDO, MACHINE)


class Failed(Exception):
    """A replay ended with another status than 0."""


def rows_of(program: pathlib.Path, words: list[str]) -> list[Row]:
    """The rows that replay.c writes."""
    ran = subprocess.run([program, *words], stdout=subprocess.PIPE, text=True, check=False,
                         env=with_options("release_to_os_interval_ms=-1"))
    if ran.returncode:
        raise Failed(f"replay ended with status {ran.returncode}")
    return list(csv.DictReader(ran.stdout.splitlines()))


def compile_over_scudo(folder: pathlib.Path) -> pathlib.Path:
    """The replay whose malloc is Scudo's."""
    (folder / SCUDO).mkdir()
    return compile_program(HERE / "replay.c", folder / SCUDO, link_words(archives()[:1]))


def replay_all(trace: pathlib.Path, every: int) -> dict[str, list[Row]]:
    """The rows of each heap."""
    words = ["--every", str(every), str(trace)]
    with tempfile.TemporaryDirectory(prefix="allocators-") as folder:
        scudo = compile_over_scudo(pathlib.Path(folder))
        usual = compile_program(HERE / "replay.c", pathlib.Path(folder))
        return {PROFILE: rows_of(usual, words), SCUDO: rows_of(scudo, ["--native", *words]),
                MACHINE: rows_of(usual, ["--native", *words])}


def count_calls(trace: pathlib.Path) -> int:
    """How many lines a trace has behind its first, at least 1."""
    with open(trace, encoding="ascii", errors="replace") as file:
        return max(sum(1 for _ in file) - 1, 1)


def line_of(rows: list[Row]) -> str:
    """A line of the table, of the row of each heap. All have the same calls behind them."""
    ours = rows[0]
    cells = [f"{int(ours[name]):,}" for name in ("calls", "live_bytes")]
    cells += [f"{int(row['mapped_bytes']):,}" for row in rows]
    cells += [f"{int(row['reused']):,} over {row['reuse_distance']}" for row in rows]
    return f"| {' | '.join(cells)} |\n"


def table(found: dict[str, list[Row]]) -> str:
    """The table."""
    head = "| Calls | Live bytes |"
    for name in ("Mapped", "Reused"):
        head += "".join(f" {name}, {heap} |" for heap in HEAPS)
    text = f"{head}\n{'|---' * (2 + 2 * len(HEAPS))}|\n"
    together = zip(*(found[heap] for heap in HEAPS), strict=True)
    return text + "".join(line_of(list(rows)) for rows in together)


def main() -> int:
    """Reads the command line."""
    parser = Parser(__doc__)
    parser.add_argument("trace", type=pathlib.Path, metavar="TRACE")
    parser.add_argument("--rows", type=int, default=4)
    parser.add_argument("--write", action="store_true")
    options = parser.parse_args()
    if options.rows < 1:
        parser.error("--rows is 1 or more")
    try:
        every = -(-count_calls(options.trace) // options.rows)
        text = table(replay_all(options.trace, every))
    except (OSError, NotCompiled, NoScudo, Failed) as error:
        print(f"beside_allocators.py: {error}", file=sys.stderr)
        return 1
    if options.write:
        write_part(PAGE, SCRIPT, text)
    print(text, end="")
    return 0


if __name__ == "__main__":
    sys.exit(main())
