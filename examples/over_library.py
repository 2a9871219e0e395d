"""Compiles a program in C over the library, by cc (or CC), for scripts beside this folder."""
from __future__ import annotations

import os
import pathlib
import shlex
import shutil
import subprocess
from collections.abc import Sequence

TOP = pathlib.Path(__file__).resolve().parents[1]
SONAME = "libtombolopan.so.2"
# The static library of a prefix, which has the heap that the one of a checkout lacks.
INSTALLED = "libtombolopan.a"
ARCHIVE_MAKER = ("tools/build.sh [--unproved] --only libtombolopan_c.a makes it, "
                 "Debian's libtombolopan-dev has it")
FLAGS = ("-O3", "-std=c11", "-Wall", "-Wextra")


class NotCompiled(Exception):
    """A program was not compiled, with the reason."""


def prefix() -> pathlib.Path:
    """The folder with `include`: of this checkout, or the prefix in which it is installed."""
    return TOP if (TOP / "include").is_dir() else TOP.parents[1]


def archive() -> pathlib.Path:
    """The static library of this checkout or prefix, which may not be there."""
    if prefix() == TOP:
        return TOP / "crates" / "tombolopan_c" / "out" / "libtombolopan_c.a"
    lib = prefix() / "lib"
    return next(iter(sorted(lib.glob(f"*/{INSTALLED}"))), lib / INSTALLED)


def library() -> pathlib.Path | None:
    """The shared object that TOMBOLOPAN names, else that of this checkout or prefix; none where it
    is the system's."""
    named = os.environ.get("TOMBOLOPAN")
    if named and not pathlib.Path(named).exists():
        raise NotCompiled(f"{named} is not there (examples/embed/shared.sh makes it)")
    near = TOP / "examples" / "embed" / "libtombolopan.so"
    installed = prefix() / "lib" / "libtombolopan.so"
    found = [pathlib.Path(named)] if named else [it for it in (near, installed) if it.exists()]
    return found[0].resolve() if found else None


def compile_program(
    source: pathlib.Path, folder: pathlib.Path, more: Sequence[str] = ()
) -> pathlib.Path:
    """The program of a source, in a folder that it is run in; raises NotCompiled."""
    program, found = folder / source.stem, library()
    link = ["-ltombolopan"]
    if found is not None:
        link = [str(found), f"-Wl,-rpath,{folder.resolve()}"]
        near = folder / SONAME
        if not near.exists():
            near.symlink_to(found)
    words = [*shlex.split(os.environ.get("CC", "cc")), *FLAGS, f"-I{prefix() / 'include'}", *more]
    if not shutil.which(words[0]):
        raise NotCompiled(f"{words[0]} is not there (Debian: gcc)")
    if not (prefix() / "include" / "tombolopan.h").exists():
        raise NotCompiled("tombolopan.h is not there (Debian: libtombolopan-dev)")
    try:
        subprocess.run([*words, "-o", str(program), str(source), *link], check=True)
    except (OSError, subprocess.CalledProcessError) as error:
        raise NotCompiled(f"{source.name} is not compiled over the library: {error}") from error
    return program
