"""Copies of what was built, marked with how, in a folder that the scripts of packages read."""

import hashlib
import pathlib
import shutil
import subprocess
import sys
from collections.abc import Mapping
from typing import Optional

from packing.release import ROOT
from wasm.lowered import is_current

PROGRAMS, LIBRARY = ("mte_host", "mte_run"), "libtombolopan_c.a"
FILES = (*PROGRAMS, LIBRARY)
TENANTS, ARM64 = "libc", "arm64"


class NotMade(Exception):
    """A file is not made, with the reason."""


def run(*words: object) -> bytes:
    """What a command writes; what it says otherwise is shown where it fails."""
    ran = subprocess.run([str(it) for it in words], stdout=subprocess.PIPE,
                         stderr=subprocess.PIPE, check=False)
    if ran.returncode:
        said = (ran.stderr or ran.stdout).decode(errors="replace").strip()
        raise NotMade(said or f"{words[0]} ended with status {ran.returncode}")
    return ran.stdout


def places(folder: Optional[pathlib.Path], part: str = "") -> dict[str, pathlib.Path]:
    """Where what was built is: in a folder, or in this checkout; or in a part of it."""
    if folder:
        return {name: folder / part / name for name in FILES}
    crates = {name: name.removeprefix("lib").removesuffix(".a") for name in FILES}
    return {name: ROOT / "crates" / crate / "out" / part / name for name, crate in crates.items()}


def tenants_of(folder: Optional[pathlib.Path]) -> pathlib.Path:
    """Where the libraries of tenants are."""
    return folder / TENANTS if folder else ROOT / "examples" / "libc" / "out"


def is_of_proved(path: pathlib.Path) -> bool:
    """Whether a file for arm64 is there, of the proved build of the sources that are there."""
    note = path.with_name(f"{path.name}.unproved")
    return (path.exists() and note.exists() and is_current(ROOT, path)
            and "the proved build" in note.read_text(encoding="utf-8"))


def take_arm64(folder: Optional[pathlib.Path], to: pathlib.Path) -> bool:
    """Puts links to what is built for arm64 into a folder; whether all of it is."""
    files = places(folder, ARM64)
    if not all(it.exists() for it in files.values()):
        return False
    (to / ARM64).mkdir()
    for name, path in files.items():
        (to / ARM64 / name).symlink_to(path.resolve())
    return True


def is_unproved(path: pathlib.Path) -> bool:
    """Whether a file is marked as built without proof."""
    real = path.resolve()
    note = real.with_name(f"{path.name}.unproved")
    total = hashlib.sha256(real.read_bytes()).hexdigest()
    return note.is_file() and total in note.read_text(encoding="utf-8")


def take(files: Mapping[str, pathlib.Path], tenants: pathlib.Path, folder: pathlib.Path) -> bool:
    """Copies files into a folder and marks them; whether one of them is built without proof."""
    marks = []
    for name, path in files.items():
        copy = folder / name
        shutil.copy(path, copy)
        how = ["--unproved"] if is_unproved(path) else []
        marks += how
        run(sys.executable, ROOT / "tools" / "mark.py", *how, copy)
        if how:
            total = hashlib.sha256(copy.read_bytes()).hexdigest()
            copy.with_name(f"{name}.unproved").write_text(f"{total}  {name}\n", encoding="utf-8")
    if tenants.exists():
        (folder / TENANTS).symlink_to(tenants.resolve())
    return bool(marks)
