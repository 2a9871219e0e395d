"""The library for C, as an archive and as a shared object, and what programs are linked with."""

import functools
import os
import pathlib
import re
import shutil
import sys

from tests.support.once import make_once
from tests.support.places import BUILT, EXAMPLES, ROOT, program
from tests.support.running import Word, run, succeed
from tests.support.tools import give_up, need

ARCHIVE = "libtombolopan_c.a"


# Whether a file is one of the sources that are there, without proof.
IS_UNPROVED = 'source tools/sources.sh; has_sum "$1.unproved" && is_current . "$1"'


@functools.cache
def is_unproved(path: pathlib.Path) -> bool:
    """Whether tools/build.sh has built a file without proof, from the sources that are there."""
    return run(["bash", "-c", IS_UNPROVED, "bash", path], cwd=ROOT).status == 0


def static_library(shared: pathlib.Path) -> pathlib.Path:
    """The archive: one that was built elsewhere, one that tools/build.sh has built without proof,
    or one over what the gate has just proved."""
    found = program(ARCHIVE)
    if BUILT is not None:
        assert found.exists(), f"{found} is not there"
    if BUILT is not None or is_unproved(found):
        return found
    need("rt")
    return make_once(shared / ARCHIVE, lambda path: build(path))


def build(path: pathlib.Path) -> None:
    """Proves tombolopan_c over the gate's libraries and builds its archive: about two minutes."""
    words: list[Word] = [sys.executable, ROOT / "tools" / "static_library.py", path]
    succeed(words, seconds=1800)


def kit() -> pathlib.Path:
    """The folder of the toolchain."""
    need("rt")
    page = succeed(["rt", "doc"]).output.splitlines()[0]
    return pathlib.Path(page).resolve().parent


def heap() -> pathlib.Path:
    """The archive that calls malloc, realloc and free by the names that the library uses."""
    return kit() / "c" / "liblibc_c.a"


def shared_object(shared: pathlib.Path) -> pathlib.Path:
    """The library as a shared object, linked by the script that users have for it."""
    archive = static_library(shared)

    def link(path: pathlib.Path) -> None:
        succeed([EXAMPLES / "embed" / "shared.sh", path, archive])

    need("cc")
    return make_once(shared / "libtombolopan.so", link)


# The oldest Rust that the bindings are for: examples/embed/cargo/tombolopan-sys/Cargo.toml.
OLDEST_RUST = 82


def rust_program(name: str, least: int = OLDEST_RUST) -> str:
    """rustc or cargo of Rust 1.`least` or later, which are not always where commands are looked
    for."""
    at_home = pathlib.Path.home() / ".cargo" / "bin" / name
    found = shutil.which(name) or (str(at_home) if os.access(at_home, os.X_OK) else None)
    if found is None:
        give_up(f"missing: {name}")
    version = re.match(rf"{name} 1\.(\d+)", succeed([str(found), "--version"]).output)
    if version is None or int(version[1]) < least:
        give_up(f"{found} is older than Rust 1.{least}")
    return str(found)


def rustc() -> str:
    """Rust's compiler."""
    return rust_program("rustc")
