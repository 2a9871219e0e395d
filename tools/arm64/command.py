"""Builds a program or the library for C for Linux on arm64.

    PYTHONPATH=tools python3 -m arm64.command [--unproved] CHECKOUT OUT CRATE

OUT is the program to write, or the archive of the library where CRATE is tombolopan_c. It is
compiled from the LLVM module of the proved build for x86-64 where the checkout has one, else, and
with --unproved, of a build without proof (as tools/wasm.sh does it); the last line says which. The
module gets another data layout, name and attributes, and C functions (linux.c) in place of those
that the toolchain has for x86-64 alone. That step is not proved. Needed (Debian): rt,
gcc-aarch64-linux-gnu.
"""

import pathlib
import subprocess
import sys
import tempfile

import retarget
import unproved
from wasm import lowered

TRIPLE = "aarch64-unknown-linux-gnu"
TARGET = [f"--target={TRIPLE}", "--no-default-config"]
FROM_IR = ["-O3", "-Wno-override-module", "-ffunction-sections", "-fdata-sections", "-x", "ir"]
GENERIC = ' "target-cpu"="generic"'
WORDS = {retarget.PROBED: "", retarget.PROCESSOR: GENERIC, retarget.OLDEST: GENERIC,
         **retarget.FRAMES}
COMPILER = "aarch64-linux-gnu-gcc"
OWN_C = ["-O2", "-fPIC", "-Wall", "-Wextra", "-Werror"]
SYSTEM = pathlib.Path(__file__).resolve().parent / "linux.c"


def run(*words: object) -> None:
    """Runs a command, which has to end with 0."""
    subprocess.run([str(it) for it in words], check=True)


def compile_module(text: pathlib.Path, out: pathlib.Path, position: str) -> None:
    """Compiles a module for x86-64 as an object for arm64."""
    clang = unproved.find_kit() / "toolchain/bin/clang"
    layout = retarget.data_layout(clang, TARGET, text.parent)
    whole = retarget.retargeted(text.read_text(encoding="utf-8"), layout, TRIPLE, WORDS)
    module = text.with_name("arm64.ll")
    module.write_text(whole, encoding="utf-8")
    run(clang, *TARGET, "-c", position, *FROM_IR, module, "-o", out)


def compile_crate(checkout: pathlib.Path, name: str, folder: pathlib.Path,
                  is_proved: bool) -> pathlib.Path:
    """The object of a crate."""
    work, out = folder / name, folder / f"{name}.o"
    work.mkdir()
    text = lowered.lower(checkout, work, name, is_proved=is_proved)
    unproved.say(2)
    compile_module(text, out, "-fPIC" if name in unproved.LIBRARY else "-fPIE")
    return out


def build(checkout: pathlib.Path, out: pathlib.Path, name: str, is_proved: bool) -> None:
    """Builds the program of a crate, or the archive of the library's crates."""
    is_library = name in unproved.LIBRARY
    crates = unproved.LIBRARY if is_library else (name,)
    with tempfile.TemporaryDirectory(prefix="arm64-") as made:
        folder = pathlib.Path(made)
        parts = [compile_crate(checkout, it, folder, is_proved) for it in crates]
        system = folder / "linux.o"
        run(COMPILER, *OWN_C, "-c", SYSTEM, "-o", system)
        unproved.say(3)
        out.unlink(missing_ok=True)
        if is_library:
            run("aarch64-linux-gnu-ar", "rcsD", out, *parts, system)
        else:
            run(COMPILER, "-pie", "-Wl,--gc-sections", "-Wl,--build-id=none", "-o", out, *parts,
                system)


def main() -> None:
    """Reads the command line."""
    words = sys.argv[1:]
    may_be_proved = words[:1] != ["--unproved"]
    words = words if may_be_proved else words[1:]
    if len(words) != 3:
        sys.exit(__doc__)
    checkout, out, name = pathlib.Path(words[0]).resolve(), pathlib.Path(words[1]), words[2]
    is_proved = may_be_proved and lowered.is_proved(checkout)
    build(checkout, out.resolve(), name, is_proved)
    print(f"of the LLVM module of {'the proved build' if is_proved else 'a build without proof'}")


if __name__ == "__main__":
    main()
