#!/usr/bin/env python3
"""What a host keeps, and what its calls, rounds of its tenants and a whole session cost.

    room.py [--only WORD] HOST...

For each built mte_host, one line a figure:

- peak: resident memory in MB (1000 KiB), of 400 tenants with a reservation of 4096 pages and of
  3,333 with one of 5 pages and room for 65536 bytes that wrote two, each admitted, run to its end
  and stopped before the next;
- admission: host instructions of an admission and its stop, by pages of the reservation, and of the
  one that comes after 4,000 others;
- slice: those of a slice of one step, by the number of live, running tenants that have it in turns;
- rounds: those of a round of a loop with heap calls, or with a service that does nothing;
- start: those of the session of examples/hi.script, from start to end.

A figure in instructions is the difference of two sessions under callgrind; that of start is a whole
session's. Where the two differ in lines of the script, the reading of these lines is in it. Needed:
valgrind, and GNU time.
"""
import argparse
import pathlib
import subprocess
import sys
import tempfile
from collections.abc import Callable, Iterator, Sequence
from typing import Union

from commands import number_in

HERE = pathlib.Path(__file__).resolve().parent
sys.path.insert(0, str(HERE.parents[1] / "examples"))
from build_image import image  # noqa: E402

Word = Union[str, pathlib.Path]  # of a command
Figures = Iterator[tuple[str, str]]  # each with its name

EXAMPLES = HERE.parents[1] / "examples"
HI = EXAMPLES / "hi.elf"
BRANCH_TO_ITSELF = 0x14000000
SVC, MOVE, ADD = 0xD4000001, 0xAA0103E2, 0x91000421  # svc #0; mov x2, x1; add x1, x1, #1
MALLOC, FREE, CALLOC, REALLOC, MEMALIGN, USABLE_SIZE, NO_SERVICE = 3, 4, 5, 6, 7, 8, 99


def admit(number: int, pages: int, room: int = 16) -> str:
    terms = f"seed 0000000000000001 frames {pages} out {room}"
    return f"admit {number} image 1 input 0 {terms}\n"


class Sessions:
    """Runs sessions of a host in a folder of their own."""

    def __init__(self, host: str, folder: str) -> None:
        self.host, self.folder = host, pathlib.Path(folder)

    def command(self, script: str, frames: int, image_file: pathlib.Path = HI) -> list[Word]:
        (self.folder / "script").write_text(script)
        return [self.host, "--frames", str(frames), self.folder / "script", image_file]

    def run(self, command: list[Word]) -> subprocess.CompletedProcess[str]:
        ran = subprocess.run(command, capture_output=True, text=True, check=True)
        if "refused" in ran.stdout:
            sys.exit(f"an event was refused: {ran.stdout[:200]}")
        return ran

    def instructions(self, script: str, frames: int, image_file: pathlib.Path = HI) -> int:
        tool: list[Word] = ["valgrind", "--tool=callgrind", "--callgrind-out-file=/dev/null"]
        ran = self.run([*tool, *self.command(script, frames, image_file)])
        return number_in(r"Collected : (\d+)", ran.stderr)

    def peak(self, script: str, frames: int) -> int:
        """The most resident memory, in KiB. (What wait4 tells of a child would count this program's
        own as well.)"""
        ran = self.run(["/usr/bin/time", "--format=peak %M", *self.command(script, frames)])
        return number_in(r"^peak (\d+)$", ran.stderr)


def one_after_the_other(tenants: int, pages: int, room: int = 16) -> str:
    """A script in which each tenant is stopped before the next is admitted."""
    return "".join(admit(i, pages, room) + f"slice {i} 1000\nstop {i}\n"
                   for i in range(1, tenants + 1))


def admissions(first: int, last: int, pages: int) -> str:
    return "".join(admit(i, pages) + f"stop {i}\n" for i in range(first, last + 1))


def peaks(sessions: Sessions) -> Figures:
    peak = sessions.peak(one_after_the_other(400, 4096), 8193)
    yield "400 of 4096 pages", f"{peak / 1000:.1f} MB"
    peak = sessions.peak(one_after_the_other(3333, 5, 65536), 11)
    yield "3333 of room 65536", f"{peak / 1000:.1f} MB"


def admission_costs(sessions: Sessions) -> Figures:
    for pages in (5, 2000, 4096):
        costs = [sessions.instructions(admissions(1, tenants, pages), 2 * pages + 1)
                 for tenants in (20, 60)]
        yield f"{pages} pages", f"{(costs[1] - costs[0]) / 40:.0f} instructions"
    for before in (0, 4000):
        costs = [sessions.instructions(admissions(1, before + more, 5), 11)
                 for more in (10, 60)]
        yield f"after {before} others", f"{(costs[1] - costs[0]) / 50:.0f} instructions"


def slice_costs(sessions: Sessions) -> Figures:
    path = sessions.folder / "loop"
    path.write_bytes(image([BRANCH_TO_ITSELF]))
    for live in (1, 64, 255):
        # Numbers of three digits, so that all lines of the script are equally long.
        start = "".join(admit(100 + i, 6) for i in range(live))
        turns = ["".join(f"slice {100 + i % live} 1\n" for i in range(slices))
                 for slices in (1020, 3060)]
        costs = [sessions.instructions(start + slices, 13 * live, path) for slices in turns]
        yield f"{live} live in turns", f"{(costs[1] - costs[0]) / 2040:.0f} instructions"


def constant(register: int, value: int) -> list[int]:
    return [0xD2800000 | (value & 0xFFFF) << 5 | register,
            0xF2A00000 | (value >> 16) << 5 | register]


def move_number(register: int, value: int) -> int:
    """MOVZ of a number below 65536."""
    return 0xD2800000 | value << 5 | register


def endless_image(words: list[int], start: Sequence[int] = ()) -> bytes:
    """An image that executes some words for ever."""
    return image([*start, *words, 0x14000000 | (-len(words) & 0x3FFFFFF)])


def call(service: int, *arguments: int) -> list[int]:
    """The words of a service's call, with its arguments."""
    words = [move_number(8, service)]
    for register, value in enumerate(arguments):
        words += constant(register, value) if value >> 16 else [move_number(register, value)]
    return [*words, SVC]


# Rounds of a loop, by their words: a call leaves its pointer in x0 for the next.
FREE_WORDS = [*call(FREE), MOVE, ADD]
ROUND_WORDS = {
    "malloc and free of 24": [*call(MALLOC, 24), *FREE_WORDS],
    "malloc and free of 1024": [*call(MALLOC, 1024), *FREE_WORDS],
    "malloc and free of 4000": [*call(MALLOC, 4000), *FREE_WORDS],
    "calloc of 3 by 8 and free": [*call(CALLOC, 3, 8), *FREE_WORDS, MOVE],
    "memalign to 64 of 24 and free": [*call(MEMALIGN, 64, 24), *FREE_WORDS, MOVE],
    "malloc of 24, realloc to 200, free": [
        *call(MALLOC, 24), move_number(8, REALLOC), move_number(1, 200), SVC,
        *FREE_WORDS, MOVE, ADD],
    "a service that does nothing": [*call(NO_SERVICE), MOVE, ADD, MOVE],
}
LARGE_ROUNDS = {
    "malloc and free of 100000": [*call(MALLOC, 100_000), *FREE_WORDS],
    "malloc and free of 200000": [*call(MALLOC, 200_000), *FREE_WORDS],
}
# The same behind a malloc of 24 bytes, whose pointer is in x3.
LIVE = [*call(MALLOC, 24), 0xAA0003E3]  # mov x3, x0
LIVE_ROUNDS = {
    "two reallocations in place": [
        move_number(8, REALLOC), move_number(1, 20), SVC, move_number(1, 24), SVC, MOVE, MOVE],
    "the usable size": [move_number(8, USABLE_SIZE), 0xAA0303E0, SVC, MOVE, MOVE],  # mov x0, x3
}


def round_cost(sessions: Sessions, name: str, words: list[int], start: Sequence[int] = (),
               rounds: int = 1_000) -> tuple[str, str]:
    """What a round takes, by sessions of some rounds and of four times as many."""
    path = sessions.folder / "round"
    path.write_bytes(endless_image(words, start))
    steps = len(words) + 1
    costs = [sessions.instructions(admit(1, 64) + f"slice 1 {steps * count}\n", 129, path)
             for count in (rounds, 4 * rounds)]
    return f"{name}, {steps} steps", f"{(costs[1] - costs[0]) / (3 * rounds):.0f} instructions"


def round_costs(sessions: Sessions) -> Figures:
    for name, words in ROUND_WORDS.items():
        yield round_cost(sessions, name, words)
    for name, words in LARGE_ROUNDS.items():
        yield round_cost(sessions, name, words, rounds=50)
    for name, words in LIVE_ROUNDS.items():
        yield round_cost(sessions, name, words, LIVE)


def start_cost(sessions: Sessions) -> Figures:
    script = (EXAMPLES / "hi.script").read_text(encoding="utf-8")
    yield "hi.script", f"{sessions.instructions(script, 64)} instructions"


FIGURES: dict[str, Callable[[Sessions], Figures]] = {
    "peak": peaks, "admission": admission_costs, "slice": slice_costs,
    "rounds": round_costs, "start": start_cost,
}


def show(host: str, kind: str, folder: str) -> None:
    """Prints the figures of a kind, one a line."""
    for name, figure in FIGURES[kind](Sessions(host, folder)):
        print(f"{host}: {kind}, {name}: {figure}", flush=True)


def main() -> None:
    parser = argparse.ArgumentParser(description=__doc__,
                                     formatter_class=argparse.RawDescriptionHelpFormatter)
    parser.add_argument("--only", choices=FIGURES)
    parser.add_argument("hosts", metavar="HOST", nargs="+")
    options = parser.parse_args()
    kinds = [options.only] if options.only else list(FIGURES)
    with tempfile.TemporaryDirectory() as folder:
        for host in options.hosts:
            for kind in kinds:
                show(host, kind, folder)


if __name__ == "__main__":
    main()
