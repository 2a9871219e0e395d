#!/usr/bin/env python3
"""Makes golden steps: single steps of an A64 core as the library's tb_step makes them, as JSON
lines. docs/GOLDEN.md has the format.

    make_golden.py COUNT SEED > steps.jsonl

Steps are drawn for each row of isa/a64.rows, for words that are no instruction (Refused) and for
fetches that fault (Fetch): the same number of each, but for a remainder. The same COUNT and SEED
give the same steps. The library is found as the package tombolopan says (TOMBOLOPAN).
"""
from __future__ import annotations

import json
import pathlib
import random
import sys
from collections.abc import Iterator
from typing import Any

HERE = pathlib.Path(__file__).resolve().parent
sys.path[:0] = [str(HERE.parent / "embed"), str(HERE.parent)]
import command_line  # noqa: E402
from golden_rows import Row, read_rows, row_of  # noqa: E402
from golden_steps import CODE, FORMAT, MAP, page_attrs  # noqa: E402
import tombolopan as tb  # noqa: E402

LETTERS = {"R": tb.READ, "W": tb.WRITE, "X": tb.EXEC, "T": tb.TAGGED}
PLACES = sum(count for _, count, _ in MAP)
PLAIN = (1 << 56) - 1
ENDS = {"ok": "next", "svc": "svc", "breakpoint": "break", "illegal instruction": "illegal",
        "fault": "fault"}
# Addresses that accesses are aimed at: within pages, and where two of them meet.
FOCUS = (0x120100, 0x120100, 0x120ff8, 0x120ff0, 0x121080, 0x121ff8, 0x122ff8, 0x123040, 0x123ff8,
         0x11fff8, 0x110020, 0x100ff8, 0x200000)
# Where a fetch faults: not a multiple of 4, not mapped, without EXEC.
FETCHES = (0x100801, 0x100802, 0x100ffe, 0x102000, 0x0ffffc, 0x110000, 0x120010, 0x122100)


def new_memory(asynchronous: bool) -> tb.Memory:
    """A memory with the map of all steps, and zero bytes."""
    memory = tb.Memory(PLACES, asynchronous)
    for start, count, letters in MAP:
        memory.map(start, 4096 * count, sum(LETTERS[it] for it in letters))
    return memory


def blind_memory(word: int, pc: int) -> tb.Memory:
    """A memory in which nothing but the word can be fetched, and every access faults."""
    memory = tb.Memory(1)
    memory.map(pc & ~4095, 4096, tb.EXEC)
    memory.load(pc, word.to_bytes(4, "little"))
    return memory


def is_literal(word: int) -> bool:
    """Whether the word is a load at an offset from the PC."""
    return word & 0x3F000000 == 0x18000000


class Maker:
    """Draws steps of a seed."""

    def __init__(self, rows: list[Row], seed: int) -> None:
        self.rows, self.source = rows, random.Random(seed)

    def value(self) -> int:
        """A register's value: of all bits, small, a power of two, near the top, or an address."""
        source = self.source
        kind = source.randrange(8)
        if kind < 2:
            return source.getrandbits(64)
        if kind < 6:
            return (source.randrange(64), 1 << source.randrange(64),
                    (1 << 64) - 1 - source.randrange(16), source.getrandbits(32))[kind - 2]
        return source.choice(FOCUS) + source.randrange(-16, 16) | source.randrange(16) << 56

    def regs(self) -> tb.Regs:
        """Registers, with the PC at a word of the code."""
        source = self.source
        regs = tb.Regs()
        for n in range(31):
            regs.x[n] = self.value()
        regs.sp = source.choice(FOCUS) & ~15
        if source.randrange(8) == 0:
            regs.sp += source.randrange(16)
        regs.pc = CODE + 4 * source.randrange(16, 1024)
        regs.nzcv = source.getrandbits(4) << 28
        regs.rgsr_tag, regs.rgsr_seed = source.getrandbits(4), source.getrandbits(16)
        return regs

    def draw_word(self, group: str) -> int:
        """A word of a row, or one that is no instruction."""
        while True:
            row = self.source.choice(self.rows)
            if group != "Refused":
                row = next(it for it in self.rows if it.name == group)
            word = row.draw(self.source)
            if group == "Refused" and self.source.random() < 0.3:
                word = self.source.getrandbits(32)
            is_none = self.probe(word, tb.Regs(pc=CODE)).code == "illegal instruction"
            if is_none == (group == "Refused") and (is_none or row_of(self.rows, word) == group):
                return word

    def probe(self, word: int, regs: tb.Regs) -> tb.Stop:
        """How a word's step ends where every access faults; it changes a copy alone."""
        return tb.step(blind_memory(word, regs.pc), regs.copy())

    def aim(self, word: int, regs: tb.Regs) -> tuple[int, int] | None:
        """Moves the base register of a load or a store, so that it accesses one of FOCUS. The plain
        address that is accessed and the pointer's tag, if there is an access."""
        fault = self.probe(word, regs).fault
        if fault is None or fault.kind == "SpAlignment":
            return None
        target = self.source.choice(FOCUS) + self.source.choice((0, 0, 0, 8, -8, 1, 3, 5, 12))
        if word >> 24 in (0xD9, 0x69, 0x68) and self.source.random() < 0.8:
            target &= ~15
        delta, base = target - fault.address, word >> 5 & 31
        if not is_literal(word) and self.source.random() < 0.9:
            if base == 31:
                tag = self.source.choice((0, 3))
                regs.sp = (regs.sp + delta & PLAIN & ~15) | tag << 56
            else:
                regs.x[base] = (regs.x[base] + delta & PLAIN) | self.source.choice((0, 3, 9)) << 56
        fault = self.probe(word, regs).fault
        return (fault.address, fault.pointer_tag) if fault else None

    def fill(self, memory: tb.Memory, near: tuple[int, int]) -> list[int]:
        """Draws bytes and tags of the granules about an access; their addresses."""
        address, tag = near
        first = (address & ~15) - 16
        granules = [at for at in range(first, first + 80, 16) if page_attrs(at)]
        odd = self.source.random() < 0.3
        for at in granules:
            memory.load(at, self.source.randbytes(16))
            if "T" in page_attrs(at):
                drawn = self.source.randrange(16) if odd and self.source.random() < 0.6 else tag
                memory.store_tags(at, 1, drawn)
        return granules

    def aim_literal(self, word: int, pc: int) -> int:
        """The word of a load of a literal with an offset that leads to one of FOCUS."""
        offset = (self.source.choice(FOCUS) - pc) // 4 + self.source.choice((0, 0, 1, 2))
        return word & ~(0x7FFFF << 5) | (offset & 0x7FFFF) << 5

    def step(self, group: str) -> dict[str, Any]:
        """A step of a group."""
        asynchronous = self.source.random() < 0.25
        memory, regs, word, granules = new_memory(asynchronous), self.regs(), None, []
        if asynchronous and self.source.random() < 0.3:
            memory.read(0x120000 | 5 << 56, 1)
        if group == "Fetch":
            regs.pc = self.source.choice(FETCHES)
        else:
            word = self.draw_word(group)
            if is_literal(word) and self.source.random() < 0.8:
                word = self.aim_literal(word, regs.pc)
            near = self.aim(word, regs)
            granules = self.fill(memory, near) if near else []
            memory.load(regs.pc, word.to_bytes(4, "little"))
        old = full(regs, memory, granules)
        stop = tb.step(memory, regs)
        check_rest(memory, granules, regs.pc if word is None else int(old["pc"], 16))
        return {"row": group, "word": None if word is None else f"{word:08x}",
                "mode": "async" if asynchronous else "sync", "before": old, "end": end_of(stop),
                "after": changed(old, full(regs, memory, granules))}


def granule(memory: tb.Memory, at: int) -> list[Any]:
    """A granule's bytes and tag."""
    return [memory.read(at, 16, check=False).hex(), memory.load_tag(at)]


def full(regs: tb.Regs, memory: tb.Memory, granules: list[int]) -> dict[str, Any]:
    """All registers, the flag and some granules."""
    return {"x": [f"{it:x}" for it in regs.x], "sp": f"{regs.sp:x}", "pc": f"{regs.pc:x}",
            "nzcv": regs.nzcv >> 28, "rgsr": [regs.rgsr_tag, regs.rgsr_seed],
            "pending": memory.pending,
            "granules": {f"{at:x}": granule(memory, at) for at in granules}}


def changed(old: dict[str, Any], new: dict[str, Any]) -> dict[str, Any]:
    """What of a state differs from the one before."""
    found = {name: new[name] for name in ("sp", "pc", "nzcv", "rgsr", "pending")
             if new[name] != old[name]}
    x = {str(n): b for n, (a, b) in enumerate(zip(old["x"], new["x"])) if a != b}
    granules = {at: it for at, it in new["granules"].items() if it != old["granules"][at]}
    return {**({"x": x} if x else {}), **found, **({"granules": granules} if granules else {})}


def check_rest(memory: tb.Memory, granules: list[int], pc: int) -> None:
    """Ends unless the bytes of each page are zero but for the granules and the word."""
    named = {*granules, pc & ~15}
    for start, count, _ in MAP:
        data = memory.read(start, 4096 * count, check=False)
        if any(data):
            stray = [at for at in range(0, len(data), 16)
                     if any(data[at:at + 16]) and start + at not in named]
            if stray:
                sys.exit(f"make_golden.py: a step changes {start + stray[0]:#x}")


def end_of(stop: tb.Stop) -> dict[str, Any]:
    """How a step ended."""
    end: dict[str, Any] = {"is": ENDS[stop.code]}
    if stop.code == "breakpoint":
        end["number"] = stop.number
    if stop.fault is not None:
        end |= {"kind": stop.fault.kind, "access": "write" if stop.fault.write else "read",
                "at": f"{stop.fault.address:x}", "pointer_tag": stop.fault.pointer_tag,
                "memory_tag": stop.fault.memory_tag}
    return end


def steps(count: int, seed: int) -> Iterator[dict[str, Any]]:
    """So many steps, the groups in turn."""
    rows = read_rows(HERE.parent.parent / "isa" / "a64.rows")
    groups = [*(row.name for row in rows), "Refused", "Fetch"]
    maker = Maker(rows, seed)
    for number in range(count):
        yield maker.step(groups[number % len(groups)])


def main() -> None:
    """Reads the command line."""
    words = command_line.read_words(__doc__, 2, 2)
    if not all(it.isdecimal() for it in words):
        command_line.refuse("make_golden.py", "COUNT and SEED are numbers")
    count, seed = map(int, words)
    build = dict(line.split(":", 1) for line in tb.build_info().splitlines()[1:] if ":" in line)
    head = {"format": FORMAT, "count": count, "seed": seed,
            "library": {name: it.strip() for name, it in build.items()},
            "pages": [[f"{start:x}", number, letters] for start, number, letters in MAP]}
    print(json.dumps(head))
    for it in steps(count, seed):
        print(json.dumps(it, separators=(",", ":")))


if __name__ == "__main__":
    main()
