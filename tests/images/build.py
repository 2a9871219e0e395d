#!/usr/bin/env python3
"""Builds the images of the tenants in this folder, by clang and by gcc, at -O0 and at -O2.

    build.py FOLDER

The images that stand here were made so by clang 14 and gcc 12 of Debian 12: other compilers move
addresses, which the stored texts of the tests tell. No path of this machine gets into an image.
Needed (Debian): clang, lld, gcc-aarch64-linux-gnu.
"""
import pathlib
import subprocess
import sys
from dataclasses import dataclass

HERE = pathlib.Path(__file__).resolve().parent
# Where the sources seem to be, by the images' line tables.
SEEMING = "/tenants/images"
START = "../../examples/c"

COMPILERS = {
    "clang": ["clang", "--target=aarch64-linux-gnu", "-fuse-ld=lld"],
    "gcc": ["aarch64-linux-gnu-gcc"],
}
LEVELS = ("-O0", "-O2")
FLAGS = [
    "-g", "-ffreestanding", "-nostdlib", "-static", "-mgeneral-regs-only", "-Wall", "-Wextra",
    f"-ffile-prefix-map={HERE}={SEEMING}", f"-I{START}", "-Wl,--build-id=none",
    "-Wl,-z,max-page-size=4096", "-Wl,-z,norelro",
]
# What the source of a name needs besides, by compiler.
MORE = {
    ("sums", "clang"): ["-fsanitize=undefined", "-fsanitize-trap=all"],
    ("sums", "gcc"): ["-fsanitize=undefined", "-fsanitize-undefined-trap-on-error"],
    ("objects", "clang"): ["-march=armv8-a+memtag", "-fsanitize=memtag"],
    # The functions that call themselves are to stay calls.
    ("stack", "gcc"): ["-fno-optimize-sibling-calls", "-Wno-infinite-recursion"],
    ("stack", "clang"): ["-Wno-infinite-recursion"],
}
# gcc has no tags for objects on the stack.
LEFT_OUT = {("objects", "gcc")}


@dataclass(frozen=True)
class Build:
    """A tenant by a compiler at a level."""

    source: str
    compiler: str
    level: str

    @property
    def name(self) -> str:
        """The file name of its image."""
        return f"{self.source}.{self.compiler}{self.level}.elf"


def sources() -> list[str]:
    """The names of the tenants."""
    return sorted(path.stem for path in HERE.glob("*.c"))


def builds(compilers: tuple[str, ...] = ("clang", "gcc")) -> list[Build]:
    """All images, those of a source one after the other."""
    return [
        Build(source, compiler, level)
        for source in sources() for compiler in compilers for level in LEVELS
        if (source, compiler) not in LEFT_OUT
    ]


def make(build: Build, folder: pathlib.Path) -> pathlib.Path:
    """Builds an image into a folder."""
    image = folder / build.name
    command = [
        *COMPILERS[build.compiler], build.level, *FLAGS,
        *MORE.get((build.source, build.compiler), []), "-o", str(image), f"{START}/start.c",
        f"{build.source}.c",
    ]
    subprocess.run(command, cwd=HERE, check=True)
    return image


def main() -> None:
    if len(sys.argv) != 2 or sys.argv[1].startswith("-"):
        sys.exit(__doc__)
    folder = pathlib.Path(sys.argv[1]).resolve()
    folder.mkdir(parents=True, exist_ok=True)
    for build in builds():
        make(build, folder)


if __name__ == "__main__":
    main()
