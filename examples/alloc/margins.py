#!/usr/bin/env python3
"""With which probability a tag finds a mistake on the profile's heap: by one run, and by several.

    margins.py [--states N] [--write]

Counts by margins.c under how many states of the generator of tags a run finds it: all 1,048,576 (14
seconds of a processor), or the first N. `--write` writes the table into docs/ATTACKS.md. The
library is found as over_library.py says.
"""
from __future__ import annotations

import pathlib
import subprocess
import sys
import tempfile

HERE = pathlib.Path(__file__).resolve().parent
sys.path.insert(0, str(HERE.parent))
from command_line import Parser  # noqa: E402
from over_library import NotCompiled, compile_program  # noqa: E402
from page_part import write_part  # noqa: E402

PAGE = HERE.parents[1] / "docs" / "ATTACKS.md"
SCRIPT = "examples/alloc/margins.py"
STATES = 1 << 20
RUNS = (1, 2, 4)
# By a name, a number and 0 or 1 under how many states a mistake is found.
Counts = dict[tuple[str, int, int], int]
# What laws say, before what is counted; docs/PROVED.md has them.
ALWAYS = (
    ("the granule before its live chunk, or after it", "chunks_are_guarded"),
    ("a live chunk of the class, an odd number of blocks away", "odd_distances_differ"),
    ("a freed chunk, until its block is taken", "freed_chunks_are_refused"),
    ("the own pages of a freed chunk, until they are mapped again", "freed_pages_are_refused"),
    ("a second free, while its block is free and its header stays", "double_frees_abort"),
)
# What is counted: of several counts the table has the least.
COUNTED = (
    ("a live chunk 2 blocks away", [("apart", 2)]),
    ("one 4, 6 or 8 blocks away", [("apart", it) for it in (4, 6, 8)]),
    ("a freed chunk whose block was taken once", [("stale", 1)]),
    ("one whose block was taken twice to 8 times", [("stale", it) for it in range(2, 9)]),
    ("the last chunk but one of a block taken 8 times", [("before", 8)]),
)
NEVER = "past a chunk's size, in its last granule"


def count(states: int) -> Counts:
    """Counts over the first states; raises NotCompiled."""
    with tempfile.TemporaryDirectory(prefix="margins-") as folder:
        program = compile_program(HERE / "margins.c", pathlib.Path(folder))
        ran = subprocess.run([program, "0", str(states)], stdout=subprocess.PIPE, text=True,
                             check=True)
    counts: Counts = {}
    for line in ran.stdout.splitlines():
        name, number, half, found = line.split()
        counts[name, int(number), int(half)] = int(found)
    return counts


def check(counts: Counts, states: int) -> list[str]:
    """What is not as laws say, and where the size of the chunks matters."""
    wrong = []
    for (name, number, half), found in counts.items():
        if name.startswith("apart") and number % 2 == 1 and found != states:
            wrong.append(f"{name} {number}: {found} of {states}")
        if name.startswith("apart_") and found != counts["apart", number, half]:
            wrong.append(f"{name} {number}: {found}, of 24 bytes {counts['apart', number, half]}")
    return wrong


def probabilities(found: tuple[int, int], states: int) -> str:
    """The cells of a row: of odd and even tags by one run, and of the worse of them by more."""
    odd, even = (it / states for it in found)
    worse = min(odd, even)
    cells = [f"{odd:.4f}", f"{even:.4f}", *(f"{1 - (1 - worse) ** runs:.6f}" for runs in RUNS[1:])]
    return " | ".join(cells)


def row(text: str, keys: list[tuple[str, int]], counts: Counts, states: int) -> str:
    """A row of what is counted."""
    odd, even = (min(counts[(*key, half)] for key in keys) for half in (0, 1))
    return f"| {text} | {probabilities((odd, even), states)} | counted |\n"


def table(counts: Counts, states: int) -> str:
    """The table of the page."""
    head = "".join(f"{it} runs | " for it in RUNS[1:])
    text = f"| Mistake | 1 run, odd tags | 1 run, even tags | {head}By |\n"
    text += "|---" * (len(RUNS) + 3) + "|\n"
    always = " | ".join(["1"] * (len(RUNS) + 1))
    text += "".join(f"| {mistake} | {always} | `{law}` |\n" for mistake, law in ALWAYS)
    text += "".join(row(mistake, keys, counts, states) for mistake, keys in COUNTED)
    return text + f"| {NEVER} | {' | '.join(['0'] * (len(RUNS) + 1))} | tags are of 16 bytes |\n"


def main() -> int:
    """Reads the command line."""
    parser = Parser(__doc__)
    parser.add_argument("--states", type=int, default=STATES)
    parser.add_argument("--write", action="store_true")
    options = parser.parse_args()
    if not 1 <= options.states <= STATES or (options.write and options.states != STATES):
        parser.error(f"--states is 1 to {STATES}, and --write is for all of them")
    try:
        counts = count(options.states)
    except (NotCompiled, subprocess.CalledProcessError) as error:
        sys.exit(f"margins.py: {error}")
    wrong = check(counts, options.states)
    for line in wrong:
        print(f"margins.py: {line}", file=sys.stderr)
    text = table(counts, options.states)
    if options.write and not wrong:
        write_part(PAGE, SCRIPT, text)
    print(text, end="")
    return 1 if wrong else 0


if __name__ == "__main__":
    sys.exit(main())
