#!/usr/bin/env python3
"""Replays recorded heap calls (record.c) on the profile's heap and on this machine's, and writes
what became of both as CSV.

    replay.py [--every N] [--seed N] [--pages N] TRACE > statistics.csv

docs/ALLOCATORS.md has the form of a trace, and the columns. A row is written behind each N calls
(1000) and one at the end; --seed is that of the profile's tags (1 to 65535), --pages how many its
heap may map (4096). Standard error tells how many calls there were. The library is found as
over_library.py says.
"""
from __future__ import annotations

import csv
import pathlib
import subprocess
import sys
import tempfile

HERE = pathlib.Path(__file__).resolve().parent
sys.path.insert(0, str(HERE.parent))
from command_line import Parser  # noqa: E402
from over_library import NotCompiled, compile_program  # noqa: E402


def rows_of(program: pathlib.Path, words: list[str]) -> list[dict[str, str]]:
    """The rows that replay.c writes; ends the program where it fails."""
    ran = subprocess.run([program, *words], stdout=subprocess.PIPE, text=True, check=False)
    if ran.returncode:
        sys.exit(ran.returncode if ran.returncode > 0 else 1)
    return list(csv.DictReader(ran.stdout.splitlines()))


def joined(ours: dict[str, str], native: dict[str, str]) -> dict[str, str]:
    """A row of both."""
    return {**ours, **{f"native_{name}": it for name, it in native.items() if name != "calls"}}


def main() -> int:
    """Reads the command line."""
    parser = Parser(__doc__)
    parser.add_argument("trace", type=pathlib.Path, metavar="TRACE")
    for name, usual in (("every", 1000), ("seed", 1), ("pages", 4096)):
        parser.add_argument(f"--{name}", type=int, default=usual)
    options = parser.parse_args()
    words = [f"--every={options.every}", f"--seed={options.seed}", f"--pages={options.pages}"]
    given = [part for word in words for part in word.split("=")] + [str(options.trace)]
    with tempfile.TemporaryDirectory(prefix="replay-") as folder:
        try:
            program = compile_program(HERE / "replay.c", pathlib.Path(folder))
        except NotCompiled as error:
            sys.exit(f"replay.py: {error}")
        ours, native = rows_of(program, given), rows_of(program, ["--native", *given])
    rows = [joined(one, other) for one, other in zip(ours, native, strict=True)]
    if rows:
        out = csv.DictWriter(sys.stdout, list(rows[0]), lineterminator="\n")
        out.writeheader()
        out.writerows(rows)
    return 0


if __name__ == "__main__":
    sys.exit(main())
