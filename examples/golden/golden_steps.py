"""Reads golden steps: the format of docs/GOLDEN.md.

`read_steps` gives the steps of a file, and refuses one that has not the format; `differences` tells
in what an emulator's state after a step differs from the one that the file has.
"""
from __future__ import annotations

import json
import pathlib
import sys
from collections.abc import Callable, Iterator
from dataclasses import dataclass, field
from typing import Any

sys.path.insert(0, str(pathlib.Path(__file__).resolve().parent.parent))
import command_line  # noqa: E402

FORMAT = "tombolopan golden steps 1"
# What is mapped: the first page's address, how many pages, and READ, WRITE, EXEC, TAGGED.
MAP = ((0x100000, 2, "RX"), (0x110000, 1, "R"), (0x120000, 2, "RWT"), (0x122000, 1, "R"),
       (0x123000, 1, "RWT"))
CODE = 0x100000
# Rows whose instructions are those of memory tagging.
TAG_ROWS = ("AddG", "SubP", "Irg", "Gmi", "Ldg", "StG", "StGP")


@dataclass
class State:
    """Registers and memory: `granules` has the bytes and the tag by the granule's address, and what
    it does not name is zero with tag 0."""

    x: list[int]
    sp: int
    pc: int
    nzcv: int
    rgsr: tuple[int, int]
    pending: bool
    granules: dict[int, tuple[bytes, int]] = field(default_factory=dict)

    def put(self, at: int, data: bytes) -> None:
        """Puts bytes at an address, within one granule."""
        start, offset = at & ~15, at & 15
        old, tag = self.granules.get(start, (bytes(16), 0))
        self.granules[start] = (old[:offset] + data + old[offset + len(data):], tag)


@dataclass(frozen=True)
class Step:
    """A step: its number in the file, the group it was drawn for, the word at PC (none is fetched
    for the group Fetch), the tag mode, both states, and how it ended."""

    number: int
    row: str
    word: int | None
    asynchronous: bool
    before: State
    end: dict[str, Any]
    after: State


def page_attrs(address: int) -> str:
    """The letters of the page that holds an address; empty where none is mapped."""
    for start, count, letters in MAP:
        if start <= address < start + 4096 * count:
            return letters
    return ""


def read_granules(of: dict[str, Any]) -> dict[int, tuple[bytes, int]]:
    """Granules by their addresses."""
    return {int(at, 16): (bytes.fromhex(it[0]), it[1]) for at, it in of.items()}


def read_step(number: int, it: dict[str, Any]) -> Step:
    """A step of the object of its line."""
    old, new = it["before"], it["after"]
    before = State([int(x, 16) for x in old["x"]], int(old["sp"], 16), int(old["pc"], 16),
                   old["nzcv"], (old["rgsr"][0], old["rgsr"][1]), old["pending"],
                   read_granules(old["granules"]))
    x = list(before.x)
    for name, value in new.get("x", {}).items():
        x[int(name)] = int(value, 16)
    rgsr = new.get("rgsr", before.rgsr)
    after = State(x, int(new.get("sp", old["sp"]), 16), int(new.get("pc", old["pc"]), 16),
                  new.get("nzcv", old["nzcv"]), (rgsr[0], rgsr[1]),
                  new.get("pending", old["pending"]),
                  {**before.granules, **read_granules(new.get("granules", {}))})
    word = None if it["word"] is None else int(it["word"], 16)
    return Step(number, it["row"], word, it["mode"] == "async", before, it["end"], after)


def read_steps(path: pathlib.Path) -> Iterator[Step]:
    """The steps of a file. Ends the program with a line where the file has not the format."""
    with open(path, encoding="utf-8") as file:
        number = 0
        try:
            head = json.loads(file.readline())
            if not isinstance(head, dict) or head.get("format") != FORMAT:
                raise ValueError(f"the first line does not name the format {FORMAT!r}")
            for number, line in enumerate(file, 1):
                yield read_step(number, json.loads(line))
        except (ValueError, KeyError, TypeError, IndexError, AttributeError) as error:
            sys.exit(f"{path}: step {number}: {error or type(error).__name__}")


def differences(want: State, got: State, names: tuple[str, ...]) -> list[str]:
    """In what two states differ, of x, sp, nzcv, granules (their bytes) and tags."""
    told = []
    if "x" in names:
        told += [f"x{n} {a:#x} not {b:#x}" for n, (a, b) in enumerate(zip(got.x, want.x)) if a != b]
    for name in sorted({"sp", "nzcv"} & set(names)):
        a, b = getattr(got, name), getattr(want, name)
        if a != b:
            told.append(f"{name} {a:#x} not {b:#x}")
    if "granules" in names:
        told += [f"granule {at:#x} {bytes_of(got, at).hex()} not {bytes_of(want, at).hex()}"
                 for at in sorted({*want.granules, *got.granules})
                 if bytes_of(got, at) != bytes_of(want, at)]
    if "tags" in names:
        told += [f"tag of {at:#x} {tag_of(got, at)} not {tag_of(want, at)}"
                 for at in sorted({*want.granules, *got.granules})
                 if tag_of(got, at) != tag_of(want, at)]
    return told


def tag_of(state: State, at: int) -> int:
    """The tag of a granule."""
    return state.granules.get(at, (b"", 0))[1]


def bytes_of(state: State, at: int) -> bytes:
    """The bytes of a granule."""
    return state.granules.get(at, (bytes(16), 0))[0]


def end_text(end: dict[str, Any]) -> str:
    """How a step ended, in one line."""
    if end["is"] == "fault":
        return f"fault {end['kind']} {end['access']} at {end['at']}"
    return str(end["is"])


def are_near(end: str, other: str) -> bool:
    """Whether two ends are faults at addresses that one access may have."""
    if not (end.startswith("fault") and other.startswith("fault")):
        return False
    one, two = (int(it.split()[-1], 16) for it in (end, other))
    return abs(one - two) < 32


@dataclass
class Tally:
    """What a consumer counts: steps that agree and that differ, by their group; that differ as
    is known, with the first of each kind; and that were left out, by the reason."""

    shown: int
    same: dict[str, int] = field(default_factory=dict)
    differ: dict[str, int] = field(default_factory=dict)
    known: dict[str, list[str]] = field(default_factory=dict)
    left: dict[str, int] = field(default_factory=dict)

    def enter(self, step: Step, told: list[str], known: str) -> None:
        """Counts a step that was compared, in what it differs, and what is known of that; prints
        the first ones of which nothing is."""
        word = "none" if step.word is None else f"{step.word:08x}"
        text = f"step {step.number} {step.row} {word} {end_text(step.end)}: {'; '.join(told)}"
        if told and known:
            self.known.setdefault(known, []).append(text)
            return
        counts = self.differ if told else self.same
        counts[step.row] = counts.get(step.row, 0) + 1
        if told and sum(self.differ.values()) <= self.shown:
            print(text)

    def leave(self, why: str) -> None:
        """Counts a step that is not compared."""
        self.left[why] = self.left.get(why, 0) + 1

    def finish(self) -> int:
        """Prints the counts; the exit status is 1 where a step differs."""
        same, differ = sum(self.same.values()), sum(self.differ.values())
        known = sum(map(len, self.known.values()))
        print(f"same {same} in {len(self.same)} groups, different as is known {known}, "
              f"different {differ}, left out {sum(self.left.values())}")
        for name, texts in sorted(self.known.items()):
            print(f"  known: {name}: {len(texts)}, as {texts[0]}")
        for name, count in sorted(self.differ.items()):
            print(f"  different: {name} {count}")
        for why, count in sorted(self.left.items()):
            print(f"  left out: {why} {count}")
        return 1 if differ else 0


def compare_file(usage: str | None, compare: Callable[[Iterator[Step], Tally], None]) -> None:
    """The command line of a consumer: FILE, and how many differences are shown."""
    words = command_line.read_words(usage, 1, 2)
    if len(words) == 2 and not words[1].isdecimal():
        command_line.refuse(pathlib.Path(sys.argv[0]).name, f"SHOWN is a number, not {words[1]}")
    path = pathlib.Path(words[0])
    if not path.is_file():
        print(f"{path}: no such file", file=sys.stderr)
        sys.exit(2)
    tally = Tally(int(words[1]) if len(words) == 2 else 20)
    compare(read_steps(path), tally)
    sys.exit(tally.finish())
