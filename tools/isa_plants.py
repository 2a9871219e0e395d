#!/usr/bin/env python3
"""Plants one wrong change after another, and asks tools/isa.py --check of each.

    isa_plants.py [--count N] [--seed N]

In a copy of what isa.py reads and writes it changes a fixed bit of each row, numbers and words of
the rows and of the forms, lines of the written files, and numbers of the definitions by hand. The
check must be red each time, and green before the first and after the last. Of all changes, some
180, --count draws as many as it says.
"""

import argparse
import pathlib
import random
import re
import shutil
import subprocess
import sys
import tempfile
from collections.abc import Iterator
from dataclasses import dataclass
from typing import Optional

ROOT = pathlib.Path(__file__).resolve().parents[1]
CRATES = ("a64_bits", "a64_instr", "a64_asm", "a64_decode", "a64_registers", "a64_access",
          "a64_step", "a64_ops", "a64_execute", "a64_forms", "a64_run", "a64_text", "tombolopan",
          "run_records", "run_cause")
FOLDERS = ["isa", "tools", "docs", *(f"crates/{name}" for name in CRATES)]
DEFINITIONS = {"crates/a64_asm/specs/Encoding.antt": r"^(word_of|tests) |^    ",
               "crates/a64_step/specs/Steps.antt": r"^step_of_instr \(instr"}


@dataclass(frozen=True)
class Plant:
    """A wrong change: the file, what it is, and the file's text with it."""
    path: str
    what: str
    text: str


def copied() -> pathlib.Path:
    top = pathlib.Path(tempfile.mkdtemp())
    ignored = shutil.ignore_patterns("out", "__pycache__")
    for folder in FOLDERS:
        shutil.copytree(ROOT / folder, top / folder, ignore=ignored)
    return top


def is_green(top: pathlib.Path) -> bool:
    command = [sys.executable, str(top / "tools/isa.py"), "--check"]
    return subprocess.run(command, capture_output=True, check=False).returncode == 0


def data_lines(text: str) -> list[int]:
    """The numbers of the lines that say something."""
    return [n for n, line in enumerate(text.split("\n"))
            if line.strip() and not line.startswith("#")]


def changed_digit(source: random.Random, line: str) -> Optional[str]:
    """The line with one digit changed, or None where it has none."""
    places = [m.start() for m in re.finditer(r"(?<![A-Za-z])\d", line)]
    if not places:
        return None
    at = source.choice(places)
    digit = source.choice([d for d in "01234567" if d != line[at]])
    return line[:at] + digit + line[at + 1:]


def without_word(source: random.Random, line: str) -> Optional[str]:
    """The line without one of its words, or None where it has few."""
    words = line.split(" ")
    filled = [n for n, word in enumerate(words) if word]
    if len(filled) < 3:
        return None
    del words[source.choice(filled[1:])]
    return " ".join(words)


def flipped_bits(path: str, text: str) -> Iterator[Plant]:
    """For each row the text with one of its fixed bits changed."""
    lines = text.split("\n")
    for n in data_lines(text):
        found = None if lines[n].startswith(" ") else re.search(r"(?<= )[01]+(?= |$)", lines[n])
        if found:
            at = found.start()
            bit = "1" if lines[n][at] == "0" else "0"
            line = lines[n][:at] + bit + lines[n][at + 1:]
            yield Plant(path, f"a fixed bit of {line.split()[0]}",
                        "\n".join([*lines[:n], line, *lines[n + 1:]]))


def changed_lines(source: random.Random, path: str, numbers: list[int], count: int,
                  text: str) -> Iterator[Plant]:
    """The text with a digit changed or a word taken out, so many times; in a definition whose right
    side isn't compared, in its left side alone."""
    lines = text.split("\n")
    head_only = path.endswith("Steps.antt")
    while count > 0:
        n = source.choice(numbers)
        line = source.choice([changed_digit, without_word])(source, lines[n])
        if line is None or line.split() == lines[n].split():
            continue
        if not head_only or line.split(" = ")[0] != lines[n].split(" = ")[0]:
            count -= 1
            yield Plant(path, f"{lines[n].strip()} -> {line.strip()}",
                        "\n".join([*lines[:n], line, *lines[n + 1:]]))


def written_files(top: pathlib.Path) -> list[str]:
    command = [sys.executable, str(top / "tools/isa.py"), "--files"]
    return subprocess.run(command, capture_output=True, text=True, check=True).stdout.split()


def lines_of_definition(path: str, text: str) -> list[int]:
    """The numbers of the lines of a definition by hand that are compared."""
    start = re.search(r"\n(step_of_instr|word_of) \(", text)
    if start is None:
        sys.exit(f"isa_plants.py: {path} has no definition")
    first = text[:start.start()].count("\n") + 1
    lines = text.split("\n")
    return [n for n in data_lines(text)
            if first <= n < first + 80 and re.search(DEFINITIONS[path], lines[n])]


def plants(source: random.Random, top: pathlib.Path) -> Iterator[Plant]:
    """Each change."""
    rows = (top / "isa/a64.rows").read_text()
    yield from flipped_bits("isa/a64.rows", rows)
    for path, count in [("isa/a64.rows", 40), ("isa/a64.forms", 40), ("isa/a64.absent", 20),
                        *((path, 2) for path in written_files(top))]:
        text = (top / path).read_text()
        yield from changed_lines(source, path, data_lines(text), count, text)
    for path in DEFINITIONS:
        text = (top / path).read_text()
        yield from changed_lines(source, path, lines_of_definition(path, text), 10, text)


def drawn(source: random.Random, top: pathlib.Path, count: Optional[int]) -> list[Plant]:
    """All changes, or so many of them, in their order."""
    found = list(plants(source, top))
    if count is None:
        return found
    places = sorted(source.sample(range(len(found)), min(count, len(found))))
    return [found[place] for place in places]


def main() -> int:
    parser = argparse.ArgumentParser(description=__doc__,
                                     formatter_class=argparse.RawDescriptionHelpFormatter)
    parser.add_argument("--count", type=int, help="how many changes are tried, of all")
    parser.add_argument("--seed", type=int, default=1, help="of what is drawn (1)")
    options = parser.parse_args()
    top = copied()
    if not is_green(top):
        sys.exit("the check is red before anything is planted")
    noticed = missed = 0
    for plant in drawn(random.Random(options.seed), top, options.count):
        stood = (top / plant.path).read_text()
        (top / plant.path).write_text(plant.text)
        if is_green(top):
            missed += 1
            print(f"not noticed: {plant.path}: {plant.what}")
        else:
            noticed += 1
        (top / plant.path).write_text(stood)
    green = is_green(top)
    shutil.rmtree(top)
    print(f"{noticed} noticed, {missed} not, {'green' if green else 'RED'} after the last")
    return 0 if green and not missed else 1


if __name__ == "__main__":
    sys.exit(main())
