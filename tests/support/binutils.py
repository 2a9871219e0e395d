"""What other tools say of an image: its symbols, its source lines, its instructions."""

import json
import pathlib
import re
from collections.abc import Iterable
from dataclasses import dataclass
from functools import lru_cache
from typing import Optional

from tests.support.running import succeed

# How far from a symbol without a size an address is still told by it.
REACH = 65536
# All that a word may be, so that the disassembler knows more than the host does.
FEATURES = "+mte,+v8.5a,+crc,+lse,+sve,+rand,+pauth,+fullfp16"


@dataclass(frozen=True)
class Symbol:
    """A name of the symbol table."""

    name: str
    value: int
    size: int

    def holds(self, address: int) -> bool:
        """Whether the address is among its bytes."""
        return self.value <= address < self.value + (self.size or REACH)


@dataclass(frozen=True)
class Source:
    """Where an address comes from: the function and the line, of those that were inlined the
    innermost, the function that was not inlined, and the names and lines of all, the innermost
    first."""

    function: str
    file: str
    line: int
    outermost: str
    chain: tuple[tuple[str, Optional[tuple[str, int]]], ...]


@lru_cache(maxsize=4)
def symbols(image: pathlib.Path) -> list[Symbol]:
    """The names of an image as nm lists them, without the marks between code and data."""
    listed = succeed(["llvm-nm", "--print-size", "--numeric-sort", image]).output
    found = re.findall(r"^([0-9a-f]{16}) (?:([0-9a-f]{16}) )?[A-Za-z] (\S+)$", listed, re.M)
    return [
        Symbol(name, int(value, 16), int(size or "0", 16))
        for value, size, name in found if not name.startswith("$")
    ]


def nearest(table: Iterable[Symbol], address: int) -> list[Symbol]:
    """The symbols that may tell an address: of those that hold it the highest ones."""
    holding = [symbol for symbol in table if symbol.holds(address)]
    highest = max((symbol.value for symbol in holding), default=0)
    return [symbol for symbol in holding if symbol.value == highest]


def sources(image: pathlib.Path, addresses: Iterable[int]) -> dict[int, Source]:
    """The source of each address, by llvm-symbolizer."""
    wanted = sorted(set(addresses))
    if not wanted:
        return {}
    words = ["llvm-symbolizer", "--output-style=JSON", f"--obj={image}", *map(hex, wanted)]
    found = {}
    for said in json.loads(succeed(words).output):
        frames = said["Symbol"]
        inner, outer = frames[0], frames[-1]
        found[int(said["Address"], 16)] = Source(
            inner["FunctionName"], inner["FileName"], inner["Line"], outer["FunctionName"],
            tuple((it["FunctionName"], place(it["FileName"], it["Line"])) for it in frames),
        )
    return found


@lru_cache(maxsize=4)
def instructions(image: pathlib.Path) -> dict[int, tuple[int, str]]:
    """The word and the text of each address of an image's code, by llvm-objdump."""
    words = ["llvm-objdump", "--disassemble-all", f"--mattr={FEATURES}", str(image)]
    found = re.findall(
        r"^ *([0-9a-f]+): ((?:[0-9a-f]{2} ){4}) *\t(.*)$", succeed(words).output, re.M
    )
    return {
        int(address, 16): (
            int.from_bytes(bytes.fromhex(word), "little"), with_target(text, int(address, 16))
        )
        for address, word, text in found
    }


def with_target(text: str, address: int) -> str:
    """An ADR with the address that it is of, where the disassembler has the distance."""
    found = re.match(r"(adr\t\w+, )#(-?\d+)", text)
    return f"{found[1]}{address + int(found[2]):#x}" if found else text


def normal(text: str) -> str:
    """A text of an instruction without what disassemblers write in ways of their own: blanks,
    names of targets, two names of a condition, and numbers as decimal or hexadecimal ones."""
    bare = re.sub(r"\s+", " ", re.sub(r"<.*?>|//.*", "", text)).strip()
    bare = re.sub(r"\bhs\b", "cs", re.sub(r"\blo\b", "cc", bare))
    most = (1 << 32 if re.match(r"\w+ w\d", bare) else 1 << 64) - 1

    def decimal(found: "re.Match[str]") -> str:
        return str(int(found[0], 0) & most)

    return re.sub(r"(?<![\w.])-?(?:0x[0-9a-f]+|\d+)(?!\w)", decimal, bare)


def calls(image: pathlib.Path) -> set[int]:
    """The addresses of the calls (BL, BLR) of an image."""
    return {
        address for address, (_, text) in instructions(image).items()
        if text.split()[0] in ("bl", "blr")
    }


def place(file: str, line: int) -> Optional[tuple[str, int]]:
    """The file's own name and the line; none where the line is not known."""
    return (pathlib.PurePosixPath(file).name, line) if line else None
