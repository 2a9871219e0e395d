"""Tombolopan installed into a folder, as tools/install.sh does it with what was built."""

import os
import pathlib
import shutil
from collections.abc import Sequence

from tests.support import rust_tenants
from tests.support.cache import tenant_cxx_library, tenant_library
from tests.support.library import static_library
from tests.support.once import make_once
from tests.support.places import ROOT, program
from tests.support.running import Ran, run, succeed
from tests.support.tools import need

INSTALLER = ROOT / "tools" / "install.sh"
PROGRAMS = ("mte_host", "mte_run")
# A program for the host or for a tenant, which reads what it has freed.
FREED = """\
#include <stdio.h>
#include <stdlib.h>
int main(void)
{
    char *text = malloc(8);
    free(text);
    puts("hello");
    return text[0];
}
"""


def tenant_libraries() -> dict[str, pathlib.Path]:
    """The folders of the libraries of tenants: C's, and those of C++ and Rust where their tools are
    there."""
    has_cxx = shutil.which("aarch64-linux-gnu-as")
    made = tenant_cxx_library() if has_cxx else tenant_library()
    rust = {} if rust_tenants.missing() else {"rust": rust_tenants.crates() / "rust"}
    return {**{part.name: part for part in made.iterdir()}, **rust}


def built_folder(shared: pathlib.Path, folder: pathlib.Path) -> pathlib.Path:
    """A folder with the programs, the archive and the libraries of tenants."""
    (folder / "libc").mkdir(parents=True, exist_ok=True)
    files = {path.name: path for path in (*map(program, PROGRAMS), static_library(shared))}
    parts = {f"libc/{name}": part for name, part in tenant_libraries().items()}
    for name, file in {**files, **parts}.items():
        (folder / name).unlink(missing_ok=True)
        (folder / name).symlink_to(file)
    return folder


def files_below(folder: pathlib.Path) -> set[str]:
    """The files of a folder, also those behind links."""
    return {str((pathlib.Path(at) / name).relative_to(folder))
            for at, _, names in os.walk(folder, followlinks=True) for name in names}


def install(words: Sequence[str], path: str = "", root: str = "") -> Ran:
    """Runs the installer."""
    extra = {"DESTDIR": root, **({"PATH": path} if path else {})}
    return run([INSTALLER, *words], extra=extra)


def prefix(shared: pathlib.Path) -> pathlib.Path:
    """A prefix that is installed into once; what the installer wrote is beside it."""
    need("cc", "ar", "python3", "rt")
    top = shared / "installed"

    def fill(done: pathlib.Path) -> None:
        folder = built_folder(shared, top / "built")
        ran = install([str(top / "prefix"), str(folder)])
        assert ran.status == 0 and ran.errors == "", ran.errors
        done.write_text(ran.output)

    make_once(top / "written", fill)
    return top / "prefix"


def moved(shared: pathlib.Path) -> pathlib.Path:
    """A copy of that prefix elsewhere."""
    place = prefix(shared)

    def copy(target: pathlib.Path) -> None:
        part = target.with_name("moving")
        shutil.copytree(place, part, symlinks=True)
        part.rename(target)

    return make_once(shared / "moved" / "prefix", copy)


def variables(place: pathlib.Path) -> dict[str, str]:
    """What a program needs to find what is installed, as the installer says."""
    path = f"{place}/bin{os.pathsep}{os.environ['PATH']}"
    return {"PATH": path, "PKG_CONFIG_PATH": f"{place}/lib/pkgconfig",
            "LD_LIBRARY_PATH": f"{place}/lib", "PYTHONPATH": f"{place}/share/tombolopan"}


def completed(moved: pathlib.Path, name: str, *words: str) -> set[str]:
    """What bash offers for the last of the words."""
    file = moved / "share" / "bash-completion" / "completions" / name
    script = ('source "$1"; shift; COMP_WORDS=("$@"); COMP_CWORD=$(($# - 1)); '
              'call=$(complete -p "$1"); call=${call#*-F }; ${call% *}; '
              'printf "%s\\n" "${COMPREPLY[@]}"')
    ran = succeed(["bash", "-c", script, "bash", file, name, *words])
    return set(ran.output.splitlines()) - {""}
