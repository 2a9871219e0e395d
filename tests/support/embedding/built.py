"""Programs over the library, each built once: in C and C++ by two compilers, and in Rust."""

import os
import pathlib
import sys
from dataclasses import dataclass

from tests.support import library
from tests.support.once import make_once
from tests.support.places import EXAMPLES, ROOT
from tests.support.running import succeed
from tests.support.tools import need

EMBED = EXAMPLES / "embed"
DRIVERS = pathlib.Path(__file__).parent
WARNINGS = ("-Wall", "-Wextra", "-Wpedantic", "-Werror")
SANITIZED = ("-g", "-fsanitize=address,undefined", "-fno-sanitize-recover=all")
# By name: the compiler and its words.
COMPILERS = {
    "gcc-c99": ("gcc", "-std=c99", "-O2"),
    "gcc-c11": ("gcc", "-std=c11", "-O2"),
    "gcc-c++17": ("g++", "-x", "c++", "-std=c++17", "-O2"),
    "gcc-sanitized": ("gcc", "-std=c11", *SANITIZED),
    "clang-c99": ("clang", "-std=c99", "-O2"),
    "clang-c11": ("clang", "-std=c11", "-O2"),
    "clang-c++17": ("clang++", "-x", "c++", "-std=c++17", "-O2"),
    "clang-sanitized": ("clang", "-std=c99", *SANITIZED),
}
# What a sanitizer finds ends the program; a leak is found too.
OPTIONS = {"ASAN_OPTIONS": "detect_leaks=1", "UBSAN_OPTIONS": "print_stacktrace=1"}

# Runs the examples in the texts of all modules of the package.
DOCTESTS = """
import doctest, importlib, pkgutil, tombolopan
LEFT_OUT = ("__main__", "libtombolopan")
parts = [it.name for it in pkgutil.iter_modules(tombolopan.__path__) if it.name not in LEFT_OUT]
modules = [tombolopan, *(importlib.import_module(f"tombolopan.{it}") for it in parts)]
found = [doctest.testmod(it) for it in modules]
tried = sum(it.attempted for it in found)
print(f"{tried - sum(it.failed for it in found)} of {tried}")
"""


@dataclass(frozen=True)
class Program:
    """A program's words and the variables that it is run with."""

    words: tuple[str, ...]
    extra: dict[str, str]


def in_c(shared: pathlib.Path, variant: str, source: pathlib.Path, *more: str) -> Program:
    """A program of C, built as a variant says."""
    compiler, *words = COMPILERS[variant]
    need(compiler)
    archive, heap = library.static_library(shared), library.heap()

    def build(path: pathlib.Path) -> None:
        succeed([compiler, *words, *WARNINGS, "-I", ROOT / "include", *more, "-o", path, source,
                 *(("-x", "none") if "c++" in words else ()), archive, heap])

    path = make_once(shared / "embedding" / f"{source.stem}-{variant}", build)
    return Program((str(path),), OPTIONS)


def in_rust(shared: pathlib.Path, source: pathlib.Path, edition: str = "2021") -> Program:
    """A program of Rust, built beside tombolopan.rs."""
    compiler = library.rustc()
    archive, heap = library.static_library(shared), library.heap()

    def build(path: pathlib.Path) -> None:
        folder = path.with_suffix(".sources")
        folder.mkdir()
        for it in (source, EMBED / "tombolopan.rs"):
            (folder / it.name).write_bytes(it.read_bytes())
        (folder / "libtombolopan_c.a").symlink_to(archive.resolve())
        succeed([compiler, "--edition", edition, "-O", "-D", "warnings", "-L", f"native={folder}",
                 "-L", f"native={heap.parent}", "-l", "static=tombolopan_c", "-l", "static=libc_c",
                 "-o", path, folder / source.name])

    path = make_once(shared / "embedding" / f"{source.stem}-rust", build)
    return Program((str(path),), {})


def in_python(shared: pathlib.Path, source: pathlib.Path) -> Program:
    """A program of Python, which finds the package tombolopan and the shared object."""
    path = os.pathsep.join(map(str, (EMBED, ROOT)))
    words = ("-m", source.name) if source.is_dir() else (str(source),)
    return Program((sys.executable, "-B", *words),
                   {"PYTHONPATH": path, "TOMBOLOPAN": str(library.shared_object(shared))})


def program(shared: pathlib.Path, variant: str, name: str) -> Program:
    """The program of a name in C, Rust or Python, from examples/embed or from beside this file."""
    folder = DRIVERS if name == "calls" else EMBED
    if variant == "rust":
        return in_rust(shared, folder / f"{name}.rs")
    if variant == "python":
        return in_python(shared, folder / f"{name}.py")
    return in_c(shared, variant, folder / f"{name}.c")
