"""The command line of tools/release.sh."""

import argparse
import hashlib
import pathlib
import shutil
import subprocess
import sys
import tempfile

from batch.envelope import NoKey, key_of
from packing import artefacts, built
from packing.artefacts import Made, Request, say
from packing.built import NotMade
from packing.gate_log import read_gate

REFUSED, NOT_MADE = 1, 2


def read_words() -> argparse.Namespace:
    """Reads the command line."""
    parser = argparse.ArgumentParser(
        prog="release.sh", allow_abbrev=False,
        description="Makes all files of a release. OUT is a folder that is not there yet.")
    parser.add_argument("--gate", type=pathlib.Path, metavar="LOG",
                        help="what tests/run.sh wrote on this commit")
    parser.add_argument("--key", type=pathlib.Path, metavar="PRIVATE",
                        help="the key of ed25519 that signs the statement")
    parser.add_argument("--built", type=pathlib.Path, metavar="FOLDER",
                        help="what was built elsewhere, as tools/install.sh takes it")
    parser.add_argument("--dry-run", action="store_true",
                        help="make what needs no proof, of what is built, and say what a release "
                        "would be refused for")
    parser.add_argument("out", type=pathlib.Path, metavar="OUT")
    return parser.parse_args()


def request_of(words: argparse.Namespace) -> Request:
    """What is asked for; an error where a file cannot be read."""
    gate = words.gate and read_gate(words.gate.read_text(encoding="utf-8", errors="replace"))
    key = words.key and key_of(str(words.key), words.key.read_bytes(), True)
    return Request(words.gate, gate, key, words.built and words.built.resolve(), words.dry_run)


def table(made: Made) -> list[str]:
    """The files with their bytes and sums, and those that are missing."""
    lines = []
    for path in sorted(made.out.iterdir()):
        data = path.read_bytes()
        mark = "  unproved" if "unproved" in path.name else ""
        total = hashlib.sha256(data).hexdigest()[:12]
        lines.append(f"{len(data):>11}  {total}  {path.name}{mark}")
    return [*lines, *(f"{'-':>11}  {'-' * 12}  {name}  {why}"
                      for name, why in sorted(made.missing.items()))]


def make(request: Request, out: pathlib.Path) -> list[str]:
    """Makes the files beside OUT, which gets its name when all are there."""
    out.parent.mkdir(parents=True, exist_ok=True)
    part = pathlib.Path(tempfile.mkdtemp(prefix=f".{out.name}-", dir=out.parent))
    try:
        part.chmod(0o755)
        lines = table(artefacts.make_all(request, part))
        if out.exists():
            out.rmdir()
        part.rename(out)
        return lines
    finally:
        shutil.rmtree(part, ignore_errors=True)


def main() -> int:
    """Makes what the command line asks for."""
    words = read_words()
    out = words.out.resolve()
    try:
        if out.exists() and (not out.is_dir() or any(out.iterdir())):
            raise NotMade(f"{out} is there, and is not empty")
        request = request_of(words)
        why = artefacts.obstacles(request, built.places(request.folder),
                                  built.tenants_of(request.folder))
        for line in why:
            say(f"{'no release' if request.is_dry else 'refused'}: {line}")
        if why and not request.is_dry:
            return REFUSED
        print("\n".join(make(request, out)))
    except (NotMade, NoKey, OSError, subprocess.CalledProcessError) as error:
        say(str(error))
        return NOT_MADE
    return 0


if __name__ == "__main__":
    sys.exit(main())
