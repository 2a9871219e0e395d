#!/usr/bin/env python3
"""Replays the crashes of a fuzzer: each ends the same way each time, and is explained.

    replay.py [--times N] [--seed HEX] [--pages N] [--program MTE_RUN] [--exact] IMAGE CRASH...

Runs each crash N times (1000) by mte_run, from a start of its own, and compares all that it says,
byte for byte. A line for each crash: its cause, the source line of the access, of the call that
made the chunk and of the one that freed it. Exit status 1: a run said something else, or was no
crash; 2 to 6: that of mte_run, which says why there is no run: 5 where a file cannot be read. SEED
and pages (256) are those of the fuzzer; --exact is for crashes of one with EXACT=1.
"""
import pathlib
import re
import shutil
import subprocess
import sys

sys.path.insert(0, str(pathlib.Path(__file__).resolve().parents[1]))
from command_line import Parser  # noqa: E402

# The exit statuses of mte_run: of a crash, and where it runs nothing (docs/MTE_RUN.md). A tenant
# may exit with each of them, which the last line tells.
CRASHES, NOTHING = {129, 130, 131, 132, 133, 137}, range(2, 7)
STACK = re.compile(r"\s+(allocated|freed) by call")
LINE = re.compile(r"\s+#\d+ .* at (\S+:\d+)")
STACKS = {"allocated": "made", "freed": "freed"}


def told(words: list[str]) -> tuple[int, str]:
    """The exit status, and what is said on standard error."""
    ran = subprocess.run(words, stdin=subprocess.DEVNULL, stdout=subprocess.DEVNULL,
                         stderr=subprocess.PIPE, check=False)
    return ran.returncode, ran.stderr.decode(errors="replace")


def places(report: str) -> dict[str, list[str]]:
    """The source lines of each stack of a report, the innermost first."""
    found: dict[str, list[str]] = {"access": []}
    stack = "access"
    for line in report.splitlines()[1:]:
        begun, place = STACK.match(line), LINE.match(line)
        if begun:
            stack = STACKS[begun[1]]
            found.setdefault(stack, [])
        elif place and stack:
            found[stack].append(place[1])
        elif not re.match(r"\s+#", line):
            stack = ""
    return found


def main() -> None:
    """The command line."""
    parser = Parser(__doc__)
    parser.add_argument("image", type=pathlib.Path)
    parser.add_argument("crash", nargs="+", type=pathlib.Path)
    parser.add_argument("--times", type=int, default=1000)
    parser.add_argument("--seed", default="1")
    parser.add_argument("--pages", default="256")
    parser.add_argument("--program", default="mte_run")
    parser.add_argument("--exact", action="store_true")
    wanted = parser.parse_args()
    if not shutil.which(wanted.program):
        parser.error(f"{wanted.program} is not there")
    program = [wanted.program, *["--exact"] * wanted.exact, "--seed", wanted.seed.rjust(16, "0"),
               "--pages", wanted.pages]
    for crash in wanted.crash:
        words = [*program, "--input", str(crash), str(wanted.image)]
        status, said = first = told(words)
        is_exit = said.endswith(f"mte_run: exited with {status}\n")
        if status in NOTHING and not is_exit:
            sys.stderr.write(said)
            sys.exit(status)
        if status not in CRASHES or is_exit:
            sys.exit(f"{crash}: no crash (status {status})")
        for number in range(1, wanted.times):
            if told(words) != first:
                sys.exit(f"{crash}: run {number} differs from the first one")
        cause = re.search(r"^Cause: (.*)$", said, re.M)
        stacks = "; ".join(f"{name} {' '.join(its)}" for name, its in places(said).items())
        print(f"{crash}: {wanted.times} runs alike: {cause[1] if cause else 'no cause'}; {stacks}",
              flush=True)


if __name__ == "__main__":
    main()
