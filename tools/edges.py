#!/usr/bin/env python3
"""The edges of crates.txt that no file of the crate names.

    edges.py            list them
    edges.py --check    exit with 1 where there is one that KNOWN has not

A proof may need a crate that no file names: where code reads a field whose type is of that crate,
the prover's own modules import it, and a name leads there only if the crate stands on it.
"""

import pathlib
import re
import sys

ROOT = pathlib.Path(__file__).resolve().parent.parent
# Edges that no file names, by why they are there.
KNOWN: dict[tuple[str, str], str] = {}


def read_crates(text: str) -> dict[str, list[str]]:
    """The crates, each with what it stands on."""
    lines = (line.partition("#")[0] for line in text.splitlines())
    parts = (line.partition(":") for line in lines if line.strip())
    return {head.split()[0]: rest.split() for head, _, rest in parts}


def text_of(crate: pathlib.Path) -> str:
    """All that the files of a crate say, but in comments."""
    files = [*crate.glob("src/**/*.rt"), *crate.glob("specs/**/*.antt"),
             *crate.glob("proofs/**/*.antt")]
    texts = (it.read_text(encoding="utf-8") for it in files)
    return "\n".join(re.sub(r"(?://|--\s).*", "", text) for text in texts)


def unnamed(root: pathlib.Path) -> list[tuple[str, str]]:
    """The edges that no file names."""
    crates = read_crates((root / "crates.txt").read_text(encoding="utf-8"))
    found = []
    for crate, below in crates.items():
        words = set(re.findall(r"\w+", text_of(root / "crates" / crate)))
        found += [(crate, it) for it in below if it not in words]
    return found


def main() -> int:
    """The command line."""
    found = unnamed(ROOT)
    if "--check" not in sys.argv[1:]:
        print("".join(f"{crate}: {it}\n" for crate, it in found), end="")
        return 0
    wrong = [edge for edge in found if edge not in KNOWN]
    stale = [edge for edge in KNOWN if edge not in found]
    for crate, it in wrong:
        print(f"crates.txt: no file of {crate} names {it}", file=sys.stderr)
    for crate, it in stale:
        print(f"tools/edges.py: {crate} names {it}, or does not stand on it", file=sys.stderr)
    return 1 if wrong or stale else 0


if __name__ == "__main__":
    sys.exit(main())
