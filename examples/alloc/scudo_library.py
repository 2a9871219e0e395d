"""LLVM's Scudo, as Debian's libclang-rt-14-dev has it."""
from __future__ import annotations

import os
import pathlib
import subprocess
from collections.abc import Sequence

ARCHIVES = ("libclang_rt.scudo_standalone-x86_64.a", "libclang_rt.scudo_standalone_cxx-x86_64.a")
# Without GWP-ASan, which puts one chunk in some 5,000, chosen at random, between guard pages.
OPTIONS = "GWP_ASAN_Enabled=false"


class NoScudo(Exception):
    """It is not installed, with where it was looked for."""


def archives() -> list[pathlib.Path]:
    """Its archives, for C and for C++."""
    words = ["clang", "--print-resource-dir"]
    try:
        told = subprocess.run(words, stdout=subprocess.PIPE, text=True, check=True)
    except (OSError, subprocess.CalledProcessError) as error:
        raise NoScudo(str(error)) from error
    library = pathlib.Path(told.stdout.strip()) / "lib" / "linux"
    found = [library / name for name in ARCHIVES]
    if not all(path.exists() for path in found):
        raise NoScudo(f"{library} has no Scudo (Debian's libclang-rt-14-dev)")
    return found


def link_words(found: Sequence[pathlib.Path]) -> list[str]:
    """The words that link a program with archives whole, so that its malloc is theirs."""
    names = [str(path) for path in found]
    return ["-Wl,--whole-archive", *names, "-Wl,--no-whole-archive", "-lpthread", "-ldl"]


def with_options(more: str) -> dict[str, str]:
    """The variables of a run with options of Scudo's."""
    return {**os.environ, "SCUDO_OPTIONS": f"{OPTIONS}:{more}" if more else OPTIONS}
