"""The tenants that the stored dialogs with GDB debug: their images, and how these were built.

The texts of the dialogs have addresses and lines, which are a compiler's. So the images are stored.
"""

import pathlib
import shutil

from tests.support.places import EXAMPLES, TESTS
from tests.support.running import succeed

STORED = TESTS / "images_gdb"
NAMES = ("hello", "use_after_free", "double_free", "lru")
COMPILER = "aarch64-linux-gnu-gcc"
# Debian 12's, which the stored images are of.
VERSION = "12.2.0"
SOURCES = ("start.c", "tenant.h", "hello.c", "use_after_free.c", "double_free.c")


def with_sources(folder: pathlib.Path) -> pathlib.Path:
    """The folder, with the sources of the tenants in it, where GDB looks for their lines."""
    for name in SOURCES:
        shutil.copy(EXAMPLES / "c" / name, folder)
    shutil.copy(EXAMPLES / "gdb" / "lru.c", folder)
    return folder


def with_images(folder: pathlib.Path) -> pathlib.Path:
    """The folder, with the sources and the stored images in it. GDB warns of a source that is newer
    than its image."""
    with_sources(folder)
    for name in NAMES:
        shutil.copy(STORED / f"{name}.elf", folder)
    return folder


def built(folder: pathlib.Path, name: str) -> bytes:
    """The image of a tenant, of the sources in a folder, with lines and not optimised."""
    words = [COMPILER, "-g", "-O0", f"-fdebug-prefix-map={folder}=.", "-ffreestanding", "-nostdlib",
             "-static", "-mgeneral-regs-only", "-o", f"{name}.elf", "start.c", f"{name}.c"]
    succeed(words, cwd=folder)
    return (folder / f"{name}.elf").read_bytes()


def compiler_version() -> str:
    """The version of the compiler that is there."""
    return succeed([COMPILER, "-dumpfullversion"]).output.strip()
