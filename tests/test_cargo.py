"""The crate for cargo: it is built without network, by a folder and by pkg-config."""

import os
import pathlib
import shutil
import subprocess

import pytest

from tests.support import library
from tests.support.embedding.built import EMBED
from tests.support.running import HANG

CRATE = EMBED / "cargo" / "tombolopan-sys"
WANTED = "0x10000: add x0, x0, #0x1\n0x10004: brk #0x1\nbreakpoint 1, x0 is 42\n"


def ran(folder: pathlib.Path, **extra: str) -> subprocess.CompletedProcess[str]:
    """The example of a copy of the crate, with some variables."""
    for path in (CRATE, EMBED / "tombolopan.rs"):
        to = folder / path.relative_to(EMBED)
        to.parent.mkdir(parents=True, exist_ok=True)
        if path.is_dir():
            shutil.copytree(path, to, ignore=shutil.ignore_patterns("target"))
        else:
            shutil.copy(path, to)
    kept = {name: value for name, value in os.environ.items()
            if name not in ("TOMBOLOPAN_LIB_DIR", "PKG_CONFIG_PATH")}
    return subprocess.run(
        [library.rust_program("cargo"), "run", "--offline", "--quiet", "--example", "first"],
        text=True, check=False,
        cwd=folder / CRATE.relative_to(EMBED), env={**kept, **extra}, capture_output=True,
        timeout=HANG,
    )


def folder_of(path: pathlib.Path, *files: pathlib.Path) -> str:
    """A folder with links to files."""
    path.mkdir()
    for it in files:
        (path / it.name).symlink_to(it.resolve())
    return str(path)


def test_the_archive_of_a_folder(shared: pathlib.Path, tmp_path: pathlib.Path) -> None:
    """TOMBOLOPAN_LIB_DIR names a folder with the static library."""
    held = folder_of(tmp_path / "lib", library.static_library(shared), library.heap())
    it = ran(tmp_path, TOMBOLOPAN_LIB_DIR=held)
    assert (it.returncode, it.stdout) == (0, WANTED), it.stderr[-3000:]


def test_what_pkg_config_tells(shared: pathlib.Path, tmp_path: pathlib.Path) -> None:
    """Without it pkg-config names the shared object's folder."""
    held = folder_of(tmp_path / "lib", library.shared_object(shared))
    (tmp_path / "lib" / "libtombolopan.so.2").symlink_to(library.shared_object(shared).resolve())
    (tmp_path / "told").write_text(f"#!/bin/sh\necho -L{held} -ltombolopan\n", encoding="utf-8")
    (tmp_path / "told").chmod(0o755)
    it = ran(tmp_path, PKG_CONFIG=str(tmp_path / "told"), LD_LIBRARY_PATH=held)
    assert (it.returncode, it.stdout) == (0, WANTED), it.stderr[-3000:]


@pytest.mark.parametrize("extra, words", [
    ({"TOMBOLOPAN_LIB_DIR": "/nowhere"}, "which has neither libtombolopan.so nor"),
    ({"PKG_CONFIG": "/nowhere/pkg-config"}, "TOMBOLOPAN_LIB_DIR may name the folder"),
    ({"PKG_CONFIG": "false"}, "false finds no tombolopan"),
])
def test_a_library_that_is_not_there(
    tmp_path: pathlib.Path, extra: dict[str, str], words: str
) -> None:
    """The build says what it looked for."""
    it = ran(tmp_path, **extra)
    assert it.returncode != 0 and words in it.stderr, it.stderr[-3000:]
