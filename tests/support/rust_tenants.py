"""The tenants of examples/rust: what their comments expect, and how they are built."""

import os
import pathlib
import re
import shutil
from dataclasses import dataclass

from tests.support.cache import RUST, kept, key_of, tenant_library, version_of
from tests.support.running import Ran, Word, run
from tests.support.tools import give_up, need

BUILD, CARGO = RUST / "build.sh", RUST / "cargo.sh"
REGISTRY = pathlib.Path("/usr/share/cargo/registry")


@dataclass(frozen=True)
class RustTenant:
    """A tenant, and what its first comment says of it."""

    name: str

    @property
    def source(self) -> pathlib.Path:
        """Its source."""
        return RUST / f"{self.name}.rs"

    def values(self, name: str) -> list[str]:
        """What the comment says under a name, a line each."""
        return re.findall(rf"^//! {name}: (.*)$", self.source.read_text(encoding="utf-8"), re.M)

    def text(self, name: str) -> str:
        """The same as lines."""
        return "".join(f"{line}\n" for line in self.values(name))


def names() -> list[str]:
    """All tenants of the folder."""
    return sorted(path.stem for path in RUST.glob("*.rs") if path.stem != "tenant")


def missing() -> str:
    """What core and alloc need and is not there."""
    rustc = os.environ.get("RUSTC") or "/usr/bin/rustc"
    if not shutil.which(rustc):
        return f"missing: {rustc} (Debian: rustc)"
    sysroot = pathlib.Path(version_of(rustc, "--print", "sysroot").strip())
    if not (sysroot / "lib/rustlib/src/rust/library/core/src/lib.rs").exists():
        return "missing: the source of Rust's library (Debian: rust-src)"
    return ""


def compiler() -> str:
    """Debian's compiler, or the one that RUSTC names, with the source of core beside it."""
    if missing():
        give_up(missing())
    need("ld.lld")
    return os.environ.get("RUSTC") or "/usr/bin/rustc"


def settings(folder: pathlib.Path) -> dict[str, str]:
    """Which compiler and library the scripts take, and where they build."""
    library = str(tenant_library())
    return {"RUSTC": compiler(), "TENANT_LIBRARY": library, "TENANT_OUT": str(folder)}


def build(folder: pathlib.Path, *programs: str) -> None:
    """Runs the script that builds tenants, into a folder that has core and alloc."""
    ran = run([BUILD, *programs], seconds=900, extra=settings(folder))
    # It also names words that the host lacks; there are none.
    assert ran.status == 0 and not ran.err, ran.output[-2000:] + ran.errors[-2000:]


def build_crates(folder: pathlib.Path) -> None:
    """Builds core and alloc, which change with the compiler and the script alone."""
    extra = {"RUSTC": compiler(), "TENANT_LIBRARY": str(folder), "TENANT_OUT": str(folder)}
    ran = run([BUILD], seconds=900, extra=extra)
    assert (ran.status, ran.output) == (0, f"{folder}/rust\n"), ran.errors[-2000:]


def crates() -> pathlib.Path:
    """A folder whose folder `rust` has core and alloc; the first time this takes a minute."""
    rustc = compiler()
    place = version_of(rustc, "--print", "sysroot")
    return kept(f"rust-{key_of([BUILD], version_of(rustc, '-vV'), place)}", build_crates)


def link_crates(folder: pathlib.Path) -> None:
    """Puts core and alloc where the scripts build."""
    (folder / "rust").symlink_to(crates() / "rust")


def need_cargo() -> None:
    """Skips the test where cargo or a crate that a package names is missing."""
    need("/usr/bin/cargo")
    for name in ("hashbrown", "serde_json"):
        if not any(REGISTRY.glob(f"{name}-*")):
            give_up(f"missing: the crate {name} (Debian: librust-{name.replace('_', '-')}-dev)")


def run_package(alone: pathlib.Path, folder: pathlib.Path, package: str, data: bytes) -> Ran:
    """Builds a package by cargo, in a folder, and runs it with an input."""
    need_cargo()
    link_crates(folder)
    # cargo splits the command of a runner at blanks.
    link = folder / "alone"
    link.symlink_to(alone)
    extra = {**settings(folder), "TENANT_ALONE": str(link)}
    copy = folder / "package"
    shutil.copytree(RUST, copy, ignore=shutil.ignore_patterns("out", "Cargo.lock"))
    words: list[Word] = [CARGO, "run", "--quiet", "--release"]
    return run(words, cwd=copy / package, stdin=data, seconds=900, extra=extra)


def build_tenants(folder: pathlib.Path) -> dict[str, pathlib.Path]:
    """The images of all tenants, in a folder of their own."""
    link_crates(folder)
    build(folder, *(f"{name}.rs" for name in names()))
    return {name: folder / f"{name}.elf" for name in names()}
