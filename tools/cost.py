#!/usr/bin/env python3
"""What each function of a crate costs the prover, in seconds of a processor, in one run.

    cost.py [--only FUNCTION].. [--keep FOLDER] [--test] [--top N] CRATE

The libraries below the crate have to be in crates/*/out, as `rt ci` leaves them. The prover
writes each module of a function (its code, its statement, its proof ..) into a file once it has
checked it: what it took since the file before is the module's. With a FOLDER that a whole run has
filled only what was edited since is checked, so that an edited function costs half a minute. Two
runs compare only side by side: a busy machine takes up to twice the time.
"""
import argparse
import os
import pathlib
import re
import subprocess
import sys
import tempfile
import threading
import time
from bisect import bisect_left
from collections import defaultdict
from collections.abc import Iterable, Iterator
from typing import NamedTuple

from static_library import ROOT, kit, look_at, toolchain

TICK = os.sysconf("SC_CLK_TCK")
# The modules of a function; any other is of a type.
PARTS = frozenset(
    "Lts Key Mir Code Kinds Named Layout Statement Reads Tie Proof Met TheLink Measures Bounds "
    "Invariants Answers View Carried Goals Goal Facts Splits Loops Lanes Marks Frames".split())
# What ends the prover's work at a function, and what is part of making its proof.
LAST = ("Tie", "Proof", "Met")
MADE = frozenset(("Kinds", "Statement", "Lts", "View", "Carried"))
MAKING, TYPE = "making", "type"


class Event(NamedTuple):
    """A module that was written, and the seconds since the one before."""

    module: str
    seconds: float


def module_name(crate: str, file: str) -> str:
    """The module in a file of the prover's records."""
    name = re.sub(r"(\.decls)?\.oantt$", "", file)
    return re.sub(rf"Rattle-{crate}[-.]", "", name)


def split_module(module: str) -> tuple[str, str]:
    """The function or type of a module, and which of its parts this is."""
    place = re.sub(r"^(proofs|specs\.contracts|specs\.declared|specs|tests)\.", "", module)
    words = place.split(".")
    part = words[-1].split("-")[0]
    while len(words) > 1 and words[-1].split("-")[0] in PARTS:
        words.pop()
    return ".".join(words), part if part in PARTS else TYPE


def shares(events: Iterable[Event]) -> dict[str, dict[str, float]]:
    """The seconds of each function by kind of work.

    A function's proof is made after its statement was written, before the prover takes up the
    functions that it calls. So the seconds before another function's module are of making the
    first one's proof, as long as that is not written.
    """
    functions: dict[str, dict[str, float]] = defaultdict(lambda: defaultdict(float))
    finished: set[str] = set()
    before = ""
    for module, seconds in events:
        name, part = split_module(module)
        if before not in ("", name) and before not in finished and part != TYPE:
            functions[before][MAKING] += seconds
        else:
            functions[name][MAKING if part in MADE else part] += seconds
        if part in LAST:
            finished.add(name)
        if part != TYPE:
            before = name
    return {name: dict(parts) for name, parts in functions.items()}


def spent(pid: int) -> float:
    """The processor seconds of a process and of its children."""
    try:
        fields = pathlib.Path(f"/proc/{pid}/stat").read_text().rsplit(")", 1)[1].split()
        children = pathlib.Path(f"/proc/{pid}/task/{pid}/children").read_text().split()
        return sum(map(int, fields[11:15])) / TICK + sum(spent(int(it)) for it in children)
    except (OSError, ValueError, IndexError):
        return 0.0


class Clock:
    """The processor time of a process at each moment, sampled a hundred times a second."""

    def __init__(self, child: "subprocess.Popen[str]") -> None:
        self.child = child
        self.moments: list[int] = []
        self.seconds: list[float] = []
        self.thread = threading.Thread(target=self.run, daemon=True)
        self.thread.start()

    def run(self) -> None:
        """Samples until the process has ended."""
        while self.child.poll() is None:
            now, seconds = time.time_ns(), spent(self.child.pid)
            if seconds:
                self.moments.append(now)
                self.seconds.append(seconds)
            time.sleep(0.01)

    def at(self, moment: int) -> float:
        """The time that was taken until a moment."""
        place = min(bisect_left(self.moments, moment), len(self.moments) - 1)
        return self.seconds[place]


def words_of(name: str) -> tuple[list[str], pathlib.Path]:
    """The command that checks a crate over the libraries below it, and its folder."""
    folder = kit()
    rtlib = toolchain(folder)
    os.chdir(ROOT)
    crates = rtlib.crates_below(str(ROOT / "crates" / name))
    crate = next((it for it in crates if it.name == name), None)
    if crate is None:
        sys.exit(f"cost.py: there is no crate {name}")
    for below in crate.below():
        look_at(below)
    return [rtlib.RATTLE, "check", *crate.words(["--jobs", "1"], keeps=False)], crate.folder


def events_of(folder: pathlib.Path, crate: str, clock: Clock, began: int) -> Iterator[Event]:
    """The modules that were written since a moment, in their order."""
    files = [(path.stat().st_mtime_ns, path.name) for path in folder.glob("**/records/**/*.oantt")]
    last = 0.0
    for moment, file in sorted(it for it in files if it[0] >= began):
        now = max(last, clock.at(moment))
        yield Event(module_name(crate, file), now - last)
        last = now


def show(events: list[Event], top: int) -> None:
    """Prints the dearest functions, and the kinds of work of all."""
    functions = shares(events[1:])
    kinds: dict[str, float] = defaultdict(float)
    for parts in functions.values():
        for part, seconds in parts.items():
            kinds[part] += seconds
    if events:
        print(f"{events[0].seconds:8.2f}  before the first module")
    for name, parts in sorted(functions.items(), key=lambda it: -sum(it[1].values()))[:top]:
        most = sorted(parts.items(), key=lambda it: -it[1])[:3]
        named = ", ".join(f"{part} {seconds:.1f}" for part, seconds in most)
        print(f"{sum(parts.values()):8.2f}  {name}  {named}")
    print("  by kind: " + ", ".join(
        f"{part} {seconds:.1f}" for part, seconds in sorted(kinds.items(), key=lambda it: -it[1])))


def main() -> int:
    """The command line."""
    parser = argparse.ArgumentParser(description=__doc__.split("\n", 1)[0])
    parser.add_argument("crate")
    parser.add_argument("--only", action="append", default=[], help="these functions alone")
    parser.add_argument("--keep", type=pathlib.Path, help="a folder for what was checked")
    parser.add_argument("--test", action="store_true", help="with the crate's tests")
    parser.add_argument("--top", type=int, default=25, help="how many functions are listed (25)")
    given = parser.parse_args()
    words, place = words_of(given.crate)
    words += [*(word for name in given.only for word in ("--only", name)), *["--test"] * given.test]
    with tempfile.TemporaryDirectory(prefix="cost-") as scratch:
        folder = (given.keep or pathlib.Path(scratch)).absolute()
        folder.mkdir(exist_ok=True)
        began = time.time_ns()
        child = subprocess.Popen([*words, "--incremental", folder], cwd=place, text=True,
                                 stdin=subprocess.DEVNULL, stdout=subprocess.PIPE,
                                 stderr=subprocess.STDOUT)
        clock = Clock(child)
        said, _ = child.communicate()
        clock.thread.join()
        events = list(events_of(folder, given.crate, clock, began))
    print(f"{given.crate}: {clock.seconds[-1]:.1f} seconds, {len(events)} modules")
    show(events, given.top)
    print(said.strip().splitlines()[-1])
    return child.returncode


if __name__ == "__main__":
    sys.exit(main())
