"""Where the repository's files and the built programs are."""

import os
import pathlib

ROOT = pathlib.Path(__file__).resolve().parents[2]
TESTS = ROOT / "tests"
EXAMPLES = ROOT / "examples"
EXPECTED = TESTS / "expected"
IMAGES = TESTS / "images"
# A folder with the programs and libtombolopan_c.a that were built elsewhere.
BUILT = os.environ.get("TOMBOLOPAN_BUILT")


def program(name: str) -> pathlib.Path:
    """The built program of a crate, or the library for C."""
    if BUILT is not None:
        return pathlib.Path(BUILT).resolve() / name
    crate = name.removeprefix("lib").removesuffix(".a")
    return ROOT / "crates" / crate / "out" / name
