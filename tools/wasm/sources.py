"""The examples of the page: their images, compiled from the checkout, and their sources."""

import pathlib
import shutil
import subprocess
import tomllib
from dataclasses import dataclass, field
from typing import Union

HERE = pathlib.Path(__file__).resolve().parent
ROOT = HERE.parent.parent
START, HEADER = ROOT / "examples/c/start.c", ROOT / "examples/c/tenant.h"
# What compilers write into an image is the same in each folder.
FLAGS = ["--target=aarch64-linux-gnu", "-O1", "-g", "-ffreestanding", "-nostdlib", "-static",
         "-mgeneral-regs-only", "-fdebug-compilation-dir=."]
LINK = ["-fuse-ld=lld", "-Wl,--build-id=none"]
CXX = ["-std=c++17", "-fno-exceptions", "-fno-rtti"]


@dataclass(frozen=True)
class Example:
    """A row of examples.toml."""

    name: str
    title: str
    source: str
    about: str
    input: str = ""
    options: dict[str, Union[str, bool]] = field(default_factory=dict)

    @property
    def path(self) -> pathlib.Path:
        """Its source."""
        return ROOT / self.source


def read_examples() -> list[Example]:
    """All examples, in their order."""
    with open(HERE / "examples.toml", "rb") as file:
        return [Example(**it) for it in tomllib.load(file)["example"]]


@dataclass(frozen=True)
class Session:
    """A session of examples.toml."""

    name: str
    title: str
    about: str
    script: str
    frames: str
    images: list[str]
    input: str
    sources: list[str]


def read_sessions() -> list[Session]:
    """All sessions."""
    with open(HERE / "examples.toml", "rb") as file:
        return [Session(**it) for it in tomllib.load(file)["session"]]


def compile_example(example: Example, folder: pathlib.Path) -> bytes:
    """Its image."""
    for path in (START, HEADER, example.path):
        shutil.copy(path, folder)
    is_cxx = example.path.suffix == ".cc"
    own = ["clang++", *FLAGS, *CXX] if is_cxx else ["clang", *FLAGS]
    commands = [["clang", *FLAGS, "-c", "-o", "start.o", "./start.c"],
                [*own, "-c", "-o", "own.o", f"./{example.path.name}"],
                [own[0], *FLAGS, *LINK, "-o", "image.elf", "start.o", "own.o"]]
    for words in commands:
        subprocess.run(words, cwd=folder, check=True)
    return (folder / "image.elf").read_bytes()
