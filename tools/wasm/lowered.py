"""The LLVM modules of the page's programs, as text, for x86-64: of a proved build where there is
one, else of one without proof."""

import os
import pathlib
import re
import shutil
import subprocess
import sys

import unproved

PROGRAM, SESSION = "mte_run", "session_frames"
# What the page has beside mte_run is no crate of the gate: it is proved where a page is made.
OWN = {SESSION: ["common", "a64_run", "mte_sched", "mte_session"]}
HERE = pathlib.Path(__file__).resolve().parent
X86 = "x86_64-unknown-linux-gnu"
# In place of clang: keeps the module that it is asked to compile, and stops.
KEEPER = """#!/bin/sh
for word in "$@"; do
    if [ "$word" = module.bc ]; then cp module.bc "{module}"; exit 1; fi
done
exec "{clang}" "$@"
"""


def is_current(checkout: pathlib.Path, file: pathlib.Path) -> bool:
    """Whether a built file is of the sources that are there (tools/sources.sh)."""
    script = 'source "$1/tools/sources.sh" && is_current "$1" "$2"'
    words = ["bash", "-c", script, "bash", str(checkout), str(file)]
    return subprocess.run(words, check=False).returncode == 0


def is_proved(checkout: pathlib.Path) -> bool:
    """Whether the program of a checkout is there, of its sources, and proved."""
    crate = checkout / "crates" / PROGRAM
    program = crate / "out" / PROGRAM
    has_mark = program.with_name(f"{PROGRAM}.unproved").exists()
    return not has_mark and is_current(checkout, program)


def dependencies(checkout: pathlib.Path, name: str) -> list[str]:
    """The crates that a program names, and those that each crate has."""
    if name in OWN:
        return ["core", "std", *OWN[name]]
    text = (checkout / "crates.txt").read_text(encoding="utf-8")
    found = re.search(rf"^{name}(?: staticlib)?: *(.*)$", text, re.M)
    assert found, name
    return ["core", "std", *found[1].split()]


def folder_of(checkout: pathlib.Path, work: pathlib.Path, name: str) -> pathlib.Path:
    """Where a program is written. One of the page's own is copied, since a checkout has sources of
    the toolchain in its crates alone."""
    if name not in OWN:
        return checkout / "crates" / name
    folder = work / "own" / name
    if not folder.exists():
        (folder / "src").mkdir(parents=True)
        for path in (HERE / name).glob("*.txt"):
            shutil.copy(path, folder / "src" / f"{path.stem}.rt")
    return folder


def library(checkout: pathlib.Path, kit: pathlib.Path, crate: str) -> pathlib.Path:
    """The proved library of a crate of the checkout or of the toolchain."""
    own = checkout / "crates" / crate / "out" / "rlib" / f"{crate}.rlib"
    return own if own.is_dir() else kit / "rlibs" / f"{crate}.rlib"


def words_over_libraries(checkout: pathlib.Path, kit: pathlib.Path, name: str,
                         command: str) -> list[str]:
    """A command of rattle on a program, or on a library for C, over proved libraries."""
    kind = ["src/main.rt"]
    if name in unproved.LIBRARY:
        kind = ["src/lib.rt", "--crate-type", "staticlib"]
    words = ["rattle", command, "--crate-name", name, *kind, "-L", f"dependency={kit}/rlibs"]
    for crate in dependencies(checkout, name):
        words += ["--extern", f"{crate}={library(checkout, kit, crate)}"]
    for folder in sorted((checkout / "crates").glob("*/out/rlib")):
        words += ["-L", f"dependency={folder}"]
    return [*words, "--antt-project", f"{kit}/rattle/logic/antt-project.json", "--logic-built",
            f"{kit}/logic_built", "--jobs", "1"]


def build_words(checkout: pathlib.Path, kit: pathlib.Path, work: pathlib.Path,
                name: str) -> list[str]:
    """The command that proves it and compiles it."""
    return [
        *words_over_libraries(checkout, kit, name, "build"), "--links", f"{name}=", "--target",
        X86, "--toolchain", f"{work}/toolchain", "--backend", "llvm", "--incremental",
        f"{work}/incremental", "-o", f"{work}/{name}.o"]


def lower_proved(checkout: pathlib.Path, work: pathlib.Path, name: str) -> pathlib.Path:
    """The module that a proved program is compiled from: it is proved over the proved libraries,
    and a script in clang's place keeps the module."""
    kit, kept = unproved.find_kit(), work / "module.bc"
    clang = kit / "toolchain/bin/clang"
    (work / "incremental").mkdir()
    unproved.link_all(kit / "toolchain", work / "toolchain", {"bin"})
    unproved.link_all(kit / "toolchain/bin", work / "toolchain/bin", {"clang"})
    unproved.write_program(work / "toolchain/bin/clang",
                           KEEPER.format(module=kept, clang=clang))
    path = f"{kit}/bin:{os.environ['PATH']}"
    ran = subprocess.run(
        build_words(checkout, kit, work, name), cwd=folder_of(checkout, work, name), text=True,
        stdout=subprocess.PIPE, stderr=subprocess.STDOUT, check=False,
        env={**os.environ, "PATH": path})
    if not kept.exists():
        sys.exit(f"{ran.stdout[-4000:]}\nwasm.sh: {name} was not lowered")
    text = work / "clean.ll"
    subprocess.run([clang, *unproved.TARGET, "-S", "-emit-llvm", "-Xclang",
                    "-disable-llvm-passes", "-x", "ir", kept, "-o", text], check=True)
    return text


def with_own(checkout: pathlib.Path, work: pathlib.Path, name: str) -> pathlib.Path:
    """A copy of the crates with one of the page's own beside them: `rt try` lowers it there."""
    root = work / "checkout"
    shutil.copytree(checkout / "crates", root / "crates", symlinks=True,
                    ignore=shutil.ignore_patterns("out", "must-fail", "proofs"))
    shutil.copytree(folder_of(checkout, work, name), root / "crates" / name)
    shutil.copy(checkout / "HANDLES", root)
    listed = (checkout / "crates.txt").read_text(encoding="utf-8")
    (root / "crates.txt").write_text(f"{listed}\n{name}: {' '.join(OWN[name])}\n",
                                     encoding="utf-8")
    return root


def lower(checkout: pathlib.Path, work: pathlib.Path, name: str, *,
          is_proved: bool) -> pathlib.Path:
    """The module of a program of a checkout."""
    if is_proved:
        return lower_proved(checkout, work, name)
    root = with_own(checkout, work, name) if name in OWN else checkout
    return unproved.make_module(root, name, work)
