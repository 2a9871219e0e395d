"""What takes minutes to build and changes rarely: kept outside of the checkout, by the content of
what it is made from, so that a fresh clone has it at once."""

import hashlib
import os
import pathlib
import shutil
import subprocess
import sys
from collections.abc import Callable, Iterable

from tests.support.once import make_once
from tests.support.places import EXAMPLES
from tests.support.running import run
from tests.support.tools import give_up, need

LIBC, RUST = EXAMPLES / "libc", EXAMPLES / "rust"
BUILD_SECONDS = 1800


def cache_folder() -> pathlib.Path:
    """Where it is kept: below XDG_CACHE_HOME, or ~/.cache."""
    base = os.environ.get("XDG_CACHE_HOME") or os.path.expanduser("~/.cache")
    return pathlib.Path(base) / "tombolopan"


def key_of(files: Iterable[pathlib.Path], *words: str) -> str:
    """A name for the content of files and for words, as the versions of compilers."""
    held = hashlib.sha256("\0".join(words).encode())
    for path in sorted(files):
        held.update(path.relative_to(EXAMPLES).as_posix().encode() + b"\0" + path.read_bytes())
    return held.hexdigest()[:16]


def kept(name: str, build: Callable[[pathlib.Path], None]) -> pathlib.Path:
    """A folder of the cache. It gets its name when it is whole."""

    def make(folder: pathlib.Path) -> None:
        part = folder.with_name(f"{folder.name}.part")
        shutil.rmtree(part, ignore_errors=True)
        build(part)
        part.rename(folder)

    return make_once(cache_folder() / name, make)


def version_of(*words: str) -> str:
    """What a tool says of its version."""
    return subprocess.run(words, capture_output=True, text=True, check=True).stdout


def sources_of(*folders: str) -> list[pathlib.Path]:
    """What the C library is made of in the repository, in these folders of it."""
    files = [LIBC / "build.py", EXAMPLES / "debian_source.py", EXAMPLES / "c" / "tenant.h"]
    return files + [path for name in folders for path in (LIBC / name).rglob("*") if path.is_file()]


def tenant_library() -> pathlib.Path:
    """The C library of tenants. The first time this takes two minutes, and fetches 131 MB of source
    from Debian's archive."""
    need("clang", "llvm-ar", "apt-get", "tar", "xz")
    files = sources_of("arch", "include", "src")
    key = key_of(files, version_of("clang", "--version"))
    return kept(f"libc-{key}", build_library)


def build_library(folder: pathlib.Path, *more: str) -> None:
    """Builds it into a folder."""
    words = [*more, "--out", str(folder), "--sources", str(cache_folder() / "sources")]
    ran = run([sys.executable, str(LIBC / "build.py"), *words], seconds=BUILD_SECONDS)
    if ran.status and "was not fetched" in ran.errors + ran.output:
        give_up(f"the C library of tenants is not built: {ran.errors.strip()[-300:]}")
    assert ran.status == 0, ran.output[-3000:] + ran.errors[-3000:]
    shutil.rmtree(folder / "objects", ignore_errors=True)


def package_source(name: str) -> pathlib.Path:
    """The source of a package of Debian's, without Debian's changes."""
    folder = cache_folder() / "sources"
    ran = run([sys.executable, EXAMPLES / "debian_source.py", folder, name], seconds=BUILD_SECONDS)
    if ran.status:
        give_up(f"{name} is not fetched: {ran.errors.strip()[-300:]}")
    return folder / name


def tenant_cxx_library() -> pathlib.Path:
    """The C and C++ libraries of tenants; the second takes a minute more the first time."""
    need("aarch64-linux-gnu-as")
    library = tenant_library()

    def build(folder: pathlib.Path) -> None:
        for part in ("include", "lib"):
            shutil.copytree(library / part, folder / part)
        build_library(folder, "--only-c++")

    files = [LIBC / "cxx_library.py", LIBC / "single_thread.s"]
    files += sources_of("arch", "include", "src", "src_cxx")
    key = key_of(files, version_of("clang", "--version"))
    return kept(f"libcxx-{key}", build)
