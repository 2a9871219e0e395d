#!/usr/bin/env python3
"""Makes a file of golden steps by make_golden.c, and tells the sum of its steps.

    golden_file.py COUNT SEED FILE
    golden_file.py --count COUNT SEED

The sum is that of all lines but the first, which says how the library was built. Where sums.txt has
one for COUNT and SEED, the status is 1 if it is another. With --count the steps are made and not
written: it tells how they ended, and how long that took. Compiles make_golden.c by cc (or CC); the
library is found as the package tombolopan says (TOMBOLOPAN).
"""
from __future__ import annotations

import hashlib
import pathlib
import subprocess
import sys
import tempfile

HERE = pathlib.Path(__file__).resolve().parent
sys.path.insert(0, str(HERE.parent))
import command_line  # noqa: E402
from over_library import NotCompiled, compile_program  # noqa: E402

SUMS, ROWS = HERE / "sums.txt", HERE.parents[1] / "isa" / "a64.rows"


def run_maker(words: list[str], path: pathlib.Path | None) -> None:
    """Runs make_golden.c, with its output in a file, if there is one."""
    with tempfile.TemporaryDirectory(prefix="golden-") as folder:
        program = compile_program(HERE / "make_golden.c", pathlib.Path(folder))
        command = [str(program), *words]
        if path is None:
            ran = subprocess.run(command, check=False)
        else:
            with open(path, "wb") as out:
                ran = subprocess.run(command, stdout=out, check=False)
    if ran.returncode:
        sys.exit(f"golden_file.py: make_golden ended with status {ran.returncode}")


def sum_of(path: pathlib.Path) -> str:
    """The SHA-256 of a file's lines behind the first."""
    held = hashlib.sha256()
    with open(path, "rb") as file:
        file.readline()
        while block := file.read(1 << 20):
            held.update(block)
    return held.hexdigest()


def wanted_sum(count: int, seed: int) -> str:
    """The sum that the repository has of such a file; empty where it has none."""
    for line in SUMS.read_text(encoding="utf-8").splitlines():
        if line.split()[:2] == [str(count), str(seed)]:
            return line.split()[2]
    return ""


def tell_sum(count: int, seed: int, path: pathlib.Path) -> int:
    """Tells the sum of a file; the exit status."""
    found, wanted = sum_of(path), wanted_sum(count, seed)
    print(f"{count} {seed} {found}")
    if wanted and found != wanted:
        print(f"golden_file.py: {SUMS} has another sum, {wanted}", file=sys.stderr)
        return 1
    return 0


def main() -> int:
    """Reads the command line."""
    words = command_line.read_words(__doc__, 2, 3, ["--count"])
    is_counted = words[0] == "--count"
    numbers = words[1:] if is_counted else words[:2]
    if len(words) != 3 or not all(it.isdecimal() for it in numbers):
        command_line.refuse("golden_file.py", "COUNT and SEED are numbers, and FILE follows")
    given = [str(ROWS), *numbers]
    try:
        if is_counted:
            run_maker(["--count", *given], None)
            return 0
        run_maker(given, pathlib.Path(words[2]))
    except (OSError, NotCompiled) as error:
        sys.exit(f"golden_file.py: {error}")
    return tell_sum(int(numbers[0]), int(numbers[1]), pathlib.Path(words[2]))


if __name__ == "__main__":
    sys.exit(main())
