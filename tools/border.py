#!/usr/bin/env python3
"""The border to C: its numbers are written once, and its structs and calls in the header and in
the package of Python, which are compared; those of Rust are written from the header.

    border.py --check    exit with 1 where the header, tombolopan.rs, the package of Python or
                         docs/C.md says something else than the crate tombolopan_c, or the
                         header does not compile as C99, C11 and C++17
    border.py --write    write what tools/border_to_c/codes.toml has into these files, the
                         structs and calls of the header into tombolopan.rs, and the numbers of
                         refusals into tombolopan_c
    border.py --root DIR --check    the same in another copy of the repository

Proofs name the fields of a struct and the arguments of a call; in which order they stand is in no
contract. So what C sees is compared here: names, types, order and offsets.
"""

import argparse
import functools
import pathlib
import sys

import findings
from border_to_c import compare, compiled, refusals, tables, written

HERE = pathlib.Path(__file__).resolve().parent.parent


def crate_files(root: pathlib.Path) -> list[str]:
    """The sources of the border's crates, as paths of the repository."""
    found = (it for folder in compare.FOLDERS for it in (root / folder).glob("*.rt"))
    return sorted(str(it.relative_to(root)) for it in found)


def write(root: pathlib.Path) -> None:
    """Writes each part that is not what the tables give."""
    known = tables.read((root / tables.SOURCE).read_text(encoding="utf-8"))
    for part in written.PARTS:
        path = root / part.path
        text = path.read_text(encoding="utf-8")
        header = (root / written.HEADER).read_text(encoding="utf-8")
        new = written.replaced(part, text, known, header)
        if new != text:
            path.write_text(new, encoding="utf-8")
            print(f"wrote {part.name} of {part.path}")
    write_files(root, refusals.files(known, lambda name: (root / name).read_text(encoding="utf-8")))


def write_files(root: pathlib.Path, files: dict[str, str]) -> None:
    """Writes each file that has not its text."""
    for name, text in files.items():
        path = root / name
        if not path.exists() or path.read_text(encoding="utf-8") != text:
            path.write_text(text, encoding="utf-8")
            print(f"wrote {name}")


def check(root: pathlib.Path) -> list[str]:
    """Everything that differs, and what compilers say of the header."""
    @functools.cache
    def read_file(path: str) -> str:
        return (root / path).read_text(encoding="utf-8")

    try:
        found = compare.differences(read_file, crate_files(root))
        return found or compiled.complaints(root, read_file, crate_files(root))
    except OSError as error:
        return [str(error)]


def main() -> int:
    """The command line."""
    parser = argparse.ArgumentParser(
        description=__doc__, formatter_class=argparse.RawDescriptionHelpFormatter
    )
    what = parser.add_mutually_exclusive_group(required=True)
    what.add_argument("--check", action="store_true", help="compare, and write nothing")
    what.add_argument("--write", action="store_true", help="write what follows from the tables")
    parser.add_argument("--root", type=pathlib.Path, default=HERE, help="the repository")
    options = parser.parse_args()
    if options.write:
        write(options.root)
        return 0
    return findings.status_of(check(options.root))


if __name__ == "__main__":
    sys.exit(main())
