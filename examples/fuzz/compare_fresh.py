#!/usr/bin/env python3
"""Compares runs from a snapshot with runs of tenants that start anew, over random inputs.

    compare_fresh.py [--corpus FOLDER] [--pages N] IMAGE COUNT [SEED]

Each run of the tenant's machine is restored from behind its setup and given an input; then a tenant
is admitted with that input and run alone. How they end has to be the same: status, code, PC, fault,
steps, bytes written, heap calls. The tenant witness.c reads its registers, its memory, its tags and
its heap and ends by what it has found. Inputs are of 0 to 89 bytes, or those of a folder, each with
some bytes changed, left out or doubled. Exit status 1: a run differs, and its input is told. The
package of Python is found as docs/PYTHON.md says.
"""
import pathlib
import random
import resource
import sys
import time
from collections.abc import Iterator

HERE = pathlib.Path(__file__).resolve().parent
sys.path[:0] = [str(HERE.parent / "embed"), str(HERE.parent)]
from command_line import Parser  # noqa: E402
from tombolopan import Fuzz, FuzzRun, Tenant, alone  # noqa: E402

SETUP, SLICE = 1 << 20, 1 << 20
# Growth of the process that is none, in KiB: what the first runs take is not counted.
GROWTH = 4096


def drawn_inputs(drawn: random.Random) -> Iterator[bytes]:
    """Random inputs, of which some are those of before with a byte changed."""
    last = b""
    while True:
        if last and drawn.random() < 0.3:
            at = drawn.randrange(len(last))
            last = last[:at] + bytes([drawn.randrange(256)]) + last[at + 1 :]
        else:
            last = drawn.randbytes(drawn.randrange(90))
        yield last


def changed_inputs(drawn: random.Random, kept: list[bytes]) -> Iterator[bytes]:
    """Inputs that are kept, each with some changes."""
    while True:
        text = drawn.choice(kept)
        for _ in range(drawn.randrange(4)):
            at, end = sorted(drawn.randrange(len(text) + 1) for _ in range(2))
            middle = drawn.choice((b"", drawn.randbytes(1), text[at:end] * 2, drawn.choice(kept)))
            text = text[:at] + middle + text[at + 1 :]
        yield text[:4096]


def peak() -> int:
    """The most memory that the process has had, in KiB."""
    return resource.getrusage(resource.RUSAGE_SELF).ru_maxrss


def assert_alike(kept: FuzzRun, fresh: Tenant, where: str) -> None:
    """Ends where a run is not that of a fresh tenant."""
    told = (kept.status, kept.number, kept.pc, kept.pointer, str(kept.fault), kept.steps,
            kept.written, kept.heap)
    wanted = (fresh.status, fresh.number, fresh.pc, fresh.pointer, str(fresh.fault), fresh.steps,
              len(fresh.output), fresh.heap)
    if told != wanted:
        sys.exit(f"{told}\nanew: {wanted}\n{where}")


def main() -> None:
    """The command line."""
    parser = Parser(__doc__)
    parser.add_argument("image", type=pathlib.Path)
    parser.add_argument("count", type=int)
    parser.add_argument("seed", nargs="?", type=int, default=1)
    parser.add_argument("--corpus", type=pathlib.Path)
    parser.add_argument("--pages", type=int, default=64)
    wanted = parser.parse_args()
    image, drawn, pages = wanted.image.read_bytes(), random.Random(wanted.seed), wanted.pages
    files = sorted(wanted.corpus.iterdir()) if wanted.corpus else []
    inputs = changed_inputs(drawn, [it.read_bytes() for it in files]) if files else drawn_inputs(
        drawn)
    ends: dict[str, int] = {}
    began, early = time.process_time(), 0
    with Fuzz(image, setup=[SETUP], pages=pages) as fuzz:
        for number, text in zip(range(wanted.count), inputs):
            kept = fuzz.run(text, slices=[SLICE])
            fresh = alone(image, text, slices=[SETUP, SLICE], pages=pages)
            assert_alike(kept, fresh, f"run {number}, input: {text.hex()}")
            ends[str(kept.status)] = ends.get(str(kept.status), 0) + 1
            if number == wanted.count // 10:
                early = peak()
    grown = peak() - early
    if grown > GROWTH:
        sys.exit(f"the process grew by {grown} KiB")
    told_ends = ", ".join(f"{it} {ends[it]}" for it in sorted(ends))
    print(f"{wanted.count} runs are those of fresh tenants ({told_ends}); "
          f"{time.process_time() - began:.1f} s; {early} KiB after a tenth of them, grown by "
          f"{grown} KiB")


if __name__ == "__main__":
    main()
