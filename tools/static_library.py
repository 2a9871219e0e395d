#!/usr/bin/env python3
"""Builds the static library of the crates tombolopan_c and explain_c over the libraries that `rt
ci` has proved.

    tools/static_library.py OUT.a
    tools/static_library.py --join OUT.a

`rt ci` proves a static library and builds no archive, and `rt lib` would prove all crates below it
once more, since it takes none of the gate's. This proves the two crates again, at the same time, in
some four minutes, over crates/*/out/rlib as the gate left them, and builds the archive. It trusts
what rt ci itself trusts between crates, the statements of the libraries below, and takes nothing
else from an earlier run. A library that is older than its sources is refused.

With --join it proves nothing, and joins the archives that `rt lib` has built of the two.
"""

import importlib.machinery
import importlib.util
import os
import pathlib
import shutil
import subprocess
import sys
import tempfile
from types import ModuleType
from typing import Any

from unproved import LIBRARY, take_errno

ROOT = pathlib.Path(__file__).resolve().parent.parent
CRATES = [ROOT / "crates" / name for name in LIBRARY]


def stop(why: str) -> None:
    """Says why there is no archive."""
    sys.exit(f"static_library.py: {why}")


def kit() -> pathlib.Path:
    """The folder of the toolchain: that of the page which `rt doc` names."""
    if shutil.which("rt") is None:
        stop("rt is not there")
    page = subprocess.run(["rt", "doc"], capture_output=True, text=True, check=True).stdout
    return pathlib.Path(page.splitlines()[0]).resolve().parent


def toolchain(folder: pathlib.Path) -> ModuleType:
    """The toolchain's own rules of how a crate is built."""
    sys.dont_write_bytecode = True
    loader = importlib.machinery.SourceFileLoader("rtlib", str(folder / "bin" / "rtlib.py"))
    spec = importlib.util.spec_from_loader("rtlib", loader)
    assert spec is not None
    made = importlib.util.module_from_spec(spec)
    sys.modules["rtlib"] = made
    loader.exec_module(made)
    return made


def newest(folder: pathlib.Path) -> float:
    """When a source of the crate in a folder was written last."""
    parts = [folder / it for it in ("src", "specs", "proofs")]
    files = [it for part in parts for it in part.rglob("*") if it.is_file()]
    return max(it.stat().st_mtime for it in files)


def look_at(crate: Any) -> None:
    """Stops where the built library of a crate is missing or older than its sources.

    The gate keeps a built library as links to its store, whose dates are of the first build; the
    folder is of this checkout.
    """
    built, folder = pathlib.Path(crate.rlib), pathlib.Path(crate.folder)
    if not (built / "format").is_file():
        stop(f"{crate.name} is not built: run rt ci first")
    stamp = built.parent / "stamp"
    is_new = stamp.read_text() == crate.stamp() if stamp.is_file() else (
        newest(folder) <= built.stat().st_mtime
    )
    if not is_new:
        stop(f"{crate.name} is older than its sources: run rt ci first")


def start(rtlib: ModuleType, folder: pathlib.Path, crate: Any,
          archive: pathlib.Path) -> "subprocess.Popen[bytes]":
    """Begins to prove the crate over the libraries below it and to build its archive."""
    words = [*crate.words(["--jobs", "1"], keeps=False), "--toolchain", f"{folder}/toolchain"]
    if "--backend" in rtlib.help_of("build"):
        words += ["--backend", "llvm"]
    whole = [*rtlib.guarded(), rtlib.RATTLE, "build", *words, "-o", str(archive)]
    return subprocess.Popen(whole, cwd=crate.folder, stdin=subprocess.DEVNULL)


def join(parts: list[pathlib.Path], folder: pathlib.Path, room: pathlib.Path,
         out: pathlib.Path) -> None:
    """One archive of the objects of several, and of the toolchain's for `errno`."""
    whole, more = room / "whole.a", take_errno(folder, room)
    script = "".join([f"create {whole}\n", *(f"addlib {part}\n" for part in parts),
                      f"addmod {more}\n", "save\nend\n"])
    subprocess.run(["ar", "-M"], input=script, text=True, check=True)
    out.parent.mkdir(parents=True, exist_ok=True)
    shutil.copyfile(whole, out)


def build_all(rtlib: ModuleType, folder: pathlib.Path, parts: list[pathlib.Path]) -> int:
    """Builds the archive of each crate, while no other command changes what is below them."""
    every = {it.name: it for path in CRATES for it in rtlib.crates_below(str(path))}
    held = rtlib.lock(list(every.values()))
    crates = [every[path.name] for path in CRATES]
    for crate in crates:
        for it in crate.below():
            look_at(it)
    started = [start(rtlib, folder, crate, part) for crate, part in zip(crates, parts)]
    statuses = [process.wait() for process in started]
    for it in held:
        os.close(it)
    return next((it for it in statuses if it != 0), 0)


def main() -> int:
    """The command line."""
    words = sys.argv[1:]
    is_built = words[:1] == ["--join"]
    if len(words) != 1 + is_built:
        sys.exit(__doc__)
    out, folder = pathlib.Path(words[-1]).absolute(), kit()
    with tempfile.TemporaryDirectory(prefix="static-library-") as made:
        room = pathlib.Path(made)
        if is_built:
            parts = [path / "out" / f"lib{path.name}.a" for path in CRATES]
        else:
            rtlib = toolchain(folder)
            os.chdir(ROOT)
            parts = [room / f"{path.name}.a" for path in CRATES]
            status = build_all(rtlib, folder, parts)
            if status != 0:
                return status
        join(parts, folder, room, out)
    return 0


if __name__ == "__main__":
    sys.exit(main())
