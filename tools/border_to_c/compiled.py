"""Has compilers read the header, and compare the crate's layouts with what they make of it."""

import pathlib
import shutil
import subprocess
import sys
from collections.abc import Iterator

from .compare import Read, crate_border
from .shapes import Border, layout
from .tables import SOURCE, read

STANDARDS = (("c", "c99"), ("c", "c11"), ("c++", "c++17"))
WARNINGS = "-Wall -Wextra -Wpedantic -Wshadow -Wconversion -Werror".split()


def assertions(crate: Border) -> str:
    """A program of C that asserts the size of each struct and the offset of each field."""
    lines = ["#include <tombolopan.h>"]
    for name, places in crate.structs.items():
        offsets, size = layout(name, crate.structs)
        lines.append(f"TB_ASSERT(sizeof({name}) == {size});")
        lines += [
            f"TB_ASSERT(offsetof({name}, {place.name}) == {at});"
            for place, at in zip(places, offsets) if " " not in place.name
        ]
    return "\n".join(lines) + "\n"


def complaints_of(compiler: str, language: str, standard: str, root: pathlib.Path,
                  program: str) -> Iterator[str]:
    """What a compiler says of the program by a standard."""
    words = [compiler, "-x", language, f"-std={standard}", *WARNINGS, "-fsyntax-only",
             "-I", str(root / "include"), "-"]
    ran = subprocess.run(words, input=program, capture_output=True, text=True, check=False)
    if ran.returncode or ran.stderr:
        yield f"include/tombolopan.h as {standard} by {compiler}: {ran.stderr.strip()[:2000]}"


def complaints(root: pathlib.Path, read_file: Read, crate_files: list[str]) -> list[str]:
    """What compilers say of the header: gcc and clang, those that are there."""
    known = read(read_file(SOURCE))
    program = assertions(crate_border({it: read_file(it) for it in crate_files}, known))
    missing = [it for it in ("gcc", "clang") if shutil.which(it) is None]
    for it in missing:
        print(f"border.py: {it} is missing: the header was not compiled by it", file=sys.stderr)
    found: list[str] = []
    for compiler in ("gcc", "clang"):
        for language, standard in STANDARDS if compiler not in missing else ():
            found += complaints_of(compiler, language, standard, root, program)
    return found
