"""A module of LLVM for x86-64, as text, made one for another target."""

import pathlib
import re
import subprocess
from collections.abc import Mapping, Sequence

# Words of functions for x86-64 that no other target has.
PROBED = ' "probe-stack"="inline-asm" "stack-probe-size"="3072"'
PROCESSOR = ' "target-cpu"="x86-64-v2"'
# Of what starts a program that is proved.
OLDEST = ' "target-cpu"="x86-64"'
# Both targets have frame pointers anyway. A group has one word at least.
FRAMES = {' "frame-pointer"="all"': " nounwind"}


def data_layout(clang: pathlib.Path, target: Sequence[str], work: pathlib.Path) -> str:
    """How LLVM lays out data for a target."""
    empty = work / "empty.c"
    empty.write_text("int empty;\n", encoding="utf-8")
    words = [str(clang), *target, "-S", "-emit-llvm", str(empty), "-o", "-"]
    text = subprocess.run(words, check=True, stdout=subprocess.PIPE, text=True).stdout
    return next(it for it in text.splitlines() if it.startswith("target datalayout"))


def with_words(line: str, words: Mapping[str, str]) -> str:
    """A line in which some words are others."""
    for old, new in words.items():
        line = line.replace(old, new)
    return line


def retargeted(text: str, layout: str, triple: str, words: Mapping[str, str]) -> str:
    """The module with the layout and the name of a target, and with other words in its groups of
    attributes."""
    text = re.sub(r"^target datalayout.*$", lambda _: layout, text, count=1, flags=re.M)
    text = re.sub(r"^target triple.*$", f'target triple = "{triple}"', text, count=1, flags=re.M)
    return "\n".join(with_words(line, words) if line.startswith("attributes #") else line
                     for line in text.split("\n"))
