"""Tells the most memory that a program took, measured by a small process of its own."""

import json
import os
import pathlib
import resource
import subprocess
import sys
from collections.abc import Sequence
from dataclasses import dataclass

from tests.support.running import Ran, Word, run


@dataclass(frozen=True)
class Measured:
    """What came of a program, and the most memory that it took, in bytes."""

    ran: Ran
    peak: int


def measure(words: Sequence[Word], *, cwd: pathlib.Path, seconds: float = 60) -> Measured:
    """Runs a program and measures it.

    A child counts what its parent took until it runs its own program. So the parent has to be
    smaller than what is measured: it is this module as a process of its own, of some 10 MB.
    """
    root = pathlib.Path(__file__).resolve().parents[2]
    command: list[Word] = [sys.executable, "-m", "tests.support.peak", cwd, *words]
    told = run(command, cwd=root, seconds=seconds)
    assert told.status == 0, told.errors
    values = json.loads(told.out)
    ran = Ran(values["status"], bytes.fromhex(values["out"]), bytes.fromhex(values["err"]))
    return Measured(ran, values["peak"])


def main() -> None:
    """Runs the program of the command line in a folder, and prints what came of it."""
    folder, *words = sys.argv[1:]
    ran = subprocess.run([os.fspath(word) for word in words], cwd=folder, check=False,
                         stdin=subprocess.DEVNULL, capture_output=True)
    peak = resource.getrusage(resource.RUSAGE_CHILDREN).ru_maxrss * 1024
    json.dump({"status": ran.returncode, "out": ran.stdout.hex(), "err": ran.stderr.hex(),
               "peak": peak}, sys.stdout)


if __name__ == "__main__":
    main()
