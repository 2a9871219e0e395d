#!/usr/bin/env python3
"""Makes the file of golden steps that a release carries beside its packages (tools/deb.sh).

    golden_release.py [--count N] [--library FILE.a] OUT

OUT is the folder to write tombolopan-golden-steps_VERSION.jsonl.xz into; its path and its SHA-256
are printed. It has N steps (100,000) of the first seed for which examples/golden/sums.txt has a sum
of so many, and is not written where it has another sum. FILE.a is the library for C that makes the
steps, crates/tombolopan_c/out/libtombolopan_c.a without it: the one that the gate proved, which
says so itself in the first line of the file. VERSION is as tools/deb.sh has it, and ends with
~unproved where the library is built without proof. Made twice by one library on one commit, the
file has the same bytes. Needed: cc, rt, git.
"""
from __future__ import annotations

import argparse
import hashlib
import json
import lzma
import os
import pathlib
import subprocess
import sys
import tempfile

from packing.release import find_release

ROOT = pathlib.Path(__file__).resolve().parent.parent
GOLDEN = ROOT / "examples" / "golden"
LIBRARY = ROOT / "crates" / "tombolopan_c" / "out" / "libtombolopan_c.a"
COUNT = 100_000
# 18 MB of 74, in a minute; more takes twice the time for a twentieth.
PRESET = 4


class NotMade(Exception):
    """There is no file, with the reason."""


def seed_of(count: int) -> str:
    """The seed of the sum that the repository has of so many steps."""
    for line in (GOLDEN / "sums.txt").read_text(encoding="utf-8").splitlines():
        if line.split()[0] == str(count):
            return line.split()[1]
    raise NotMade(f"examples/golden/sums.txt has no sum of {count} steps")


def run(words: list[str], library: pathlib.Path) -> None:
    """Runs a script over a library; what it prints is not shown unless it fails."""
    ran = subprocess.run(words, stdout=subprocess.PIPE, stderr=subprocess.STDOUT, text=True,
                         check=False, env={**os.environ, "TOMBOLOPAN": str(library)})
    if ran.returncode:
        raise NotMade(ran.stdout.strip() or f"{words[0]} ended with status {ran.returncode}")


def make_steps(archive: pathlib.Path, count: int, folder: pathlib.Path) -> pathlib.Path:
    """The steps that a library makes, whose sum is that of the repository."""
    library, steps = folder / "libtombolopan.so", folder / "steps.jsonl"
    run([str(ROOT / "examples" / "embed" / "shared.sh"), str(library), str(archive)], library)
    run([sys.executable, str(GOLDEN / "golden_file.py"), str(count), seed_of(count), str(steps)],
        library)
    return steps


def is_proved(steps: pathlib.Path) -> bool:
    """Whether the library that made the steps says that it was proved."""
    with open(steps, encoding="utf-8") as file:
        return bool(json.loads(file.readline())["library"]["build"] == "proved")


def pack(steps: pathlib.Path, path: pathlib.Path) -> str:
    """Packs the steps into a file, which is there only when it is whole; its SHA-256."""
    packed = lzma.compress(steps.read_bytes(), preset=PRESET)
    part = path.with_name(f".{path.name}")
    part.write_bytes(packed)
    part.replace(path)
    return hashlib.sha256(packed).hexdigest()


def main() -> int:
    """Reads the command line."""
    form = argparse.RawDescriptionHelpFormatter
    parser = argparse.ArgumentParser(description=__doc__, formatter_class=form)
    parser.add_argument("out", type=pathlib.Path, metavar="OUT")
    parser.add_argument("--count", type=int, default=COUNT)
    parser.add_argument("--library", type=pathlib.Path, default=LIBRARY)
    options = parser.parse_args()
    try:
        if not options.library.exists():
            raise NotMade(f"{options.library} is not there (tools/static_library.py makes it)")
        with tempfile.TemporaryDirectory(prefix="golden-release-") as folder:
            steps = make_steps(options.library, options.count, pathlib.Path(folder))
            version = find_release(not is_proved(steps)).version
            options.out.mkdir(parents=True, exist_ok=True)
            path = options.out / f"tombolopan-golden-steps_{version}.jsonl.xz"
            print(f"{pack(steps, path)}  {path}")
    except (OSError, NotMade) as error:
        print(f"golden_release.py: {error}", file=sys.stderr)
        return 1
    return 0


if __name__ == "__main__":
    sys.exit(main())
