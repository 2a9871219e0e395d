#!/usr/bin/env python3
"""Which behaviours of LLVM's Scudo the heap of this repository has: each is measured in both, in
one run.

    beside_scudo.py

Writes the tables of docs/ALLOCATORS.md. Scudo is that of Debian's libclang-rt-14-dev, natively on
x86-64, where it has no tags; ours is the library (TOMBOLOPAN names it). Status 1
where a row is not as this file says: the same in both, or not.
"""
from __future__ import annotations

import pathlib
import sys
from collections.abc import Callable
from dataclasses import dataclass

sys.path.insert(0, str(pathlib.Path(__file__).resolve().parent.parent))
import command_line  # noqa: E402
from scudo_facts import MISTAKES, Facts, facts_of_ours, facts_of_scudo  # noqa: E402


@dataclass(frozen=True)
class Row:
    """A behaviour: its text, the fact that tells it, whether both have the same, and what of the
    fact's value is shown. `ours` says what the heap does that has no such call."""

    text: str
    fact: str
    is_same: bool = True
    shown: Callable[[str], str] = str
    ours: str = ""


def classes(value: str) -> str:
    """How many classes there are, with the least and the largest."""
    sizes = [it.split(":")[1] for it in value.split()]
    return f"{len(sizes)} classes, {sizes[0]} to {sizes[-1]} bytes"


def header(value: str) -> str:
    """A header's class, state, origin, and size or unused bytes. Its offset depends on where the
    block lies."""
    return ", ".join(value.split()[:4])


def order(value: str) -> str:
    """In which order freed chunks come back."""
    numbers = [int(it) for it in value.split()]
    if numbers == sorted(numbers, reverse=True) and min(numbers) >= 0:
        return "last freed first"
    return "not at once" if min(numbers) < 0 else "another order"


def fresh(value: str) -> str:
    """In which order blocks come that were never used."""
    return "by address" if set(value.split()) == {"1"} else "shuffled"


def last_word(value: str) -> str:
    """What is left, without where the chunk is."""
    return value.split()[-1]


def entry(*names: str) -> Callable[[str], str]:
    """Some entries of a list of NAME:VALUE."""
    def show(value: str) -> str:
        held = dict(it.rsplit(":", 1) for it in value.split())
        return ", ".join(dict.fromkeys(held[name] for name in names))
    return show


def entries_but(*names: str) -> Callable[[str], str]:
    """All entries but some."""
    def show(value: str) -> str:
        return ", ".join(it.replace(":", " ").replace(">", " to ") for it in value.split()
                         if it.rsplit(":", 1)[0] not in names)
    return show


HEADERS = {
    "malloc_24": "malloc(24)", "malloc_1000": "malloc(1000)", "calloc_10_100": "calloc(10, 100)",
    "memalign_64_100": "memalign(64, 100)", "memalign_4096_24": "memalign(4096, 24)",
    "malloc_200000": "malloc(200000)", "malloc_300001": "malloc(300001)",
    "freed_24": "malloc(24), freed",
}
MISTAKE_TEXTS = {
    "misaligned": "free(p + 8)", "unmapped": "free of an address that is not mapped",
    "corrupt": "free(p), a bit of its header flipped", "freed": "free(p) again",
    "within": "free(p + 16)", "misaligned_freed": "free(p + 8), p freed",
    "freed_corrupt": "free(p) again, a bit of its header flipped",
    "misaligned_corrupt": "free(p + 8), a bit of p's header flipped",
    "realloc_freed": "realloc(p), p freed", "realloc_misaligned": "realloc(p + 8)",
    "realloc_corrupt": "realloc(p), a bit of its header flipped",
    "usable_freed": "usable_size(p), p freed", "usable_misaligned": "usable_size(p + 8)",
    "usable_corrupt": "usable_size(p), a bit of its header flipped",
}
DIFFERENT_MISTAKES = ("unmapped", "usable_misaligned")
ROWS = [
    Row("blocks of requests of 1 to 131,040 bytes", "classes", True, classes),
    Row("first request with pages of its own, bytes", "first_without_class"),
    *(Row(f"header of {text}", f"header_{name}", True, header) for name, text in HEADERS.items()),
    Row("header of operator new(24)", "header_new_24", False, header, "no such call"),
    Row("checksum of all headers", "checksum"),
    *(Row(f"{count} chunks of {size} bytes freed, and allocated again", f"reuse_{size}_{count}",
          True, order) for size, count in ((24, 3), (72, 28), (136, 64), (600, 64))),
    Row("freed chunks allocated again, with `quarantine_size_kb=256`", "reuse_quarantine", False,
        order, "no quarantine"),
    Row("blocks that were never used", "fresh", False, fresh),
    Row("bytes of a freed chunk, in the next one", "left_of_freed", False, last_word),
    Row("the same with `zero_contents=1`", "left_of_freed_zeroing", False, last_word,
        "none, always"),
    Row("bytes that are not 0 after calloc", "left_in_calloc"),
    Row("usable size of a request", "usable", True, entries_but()),
    Row("memalign of 1, 2, 8 .. 4096", "alignments", True,
        entry("1", "2", "8", "16", "32", "64", "1024", "4096")),
    Row("memalign of 24", "alignments", True, entry("24")),
    Row("memalign of 0", "alignments", False, entry("0")),
    Row("memalign of 8192", "alignments", False, entry("8192")),
    Row("realloc", "realloc", True, entries_but("20000>8000")),
    Row("realloc of 20000 to 8000, less by a page or more", "realloc", False,
        entry("20000>8000")),
    Row("malloc of 0, 1, 131056 and 1048576", "sizes", True,
        entry("0", "1", "131056", "1048576")),
    Row("malloc of 1048577 and of 16 MiB", "sizes", False, entry("1048577", "16777216")),
    Row("malloc of 2^64 - 1", "sizes", True, entry("18446744073709551615")),
    Row("calloc whose product does not fit", "calloc_overflow"),
    *(Row(MISTAKE_TEXTS[name], f"mistake_{name}", name not in DIFFERENT_MISTAKES)
      for name in MISTAKES),
    Row("pages of freed blocks, once asked to release them", "freed_pages_of_blocks", False),
    Row("pages of a freed chunk with pages of its own", "freed_pages_of_large", False),
]


def cells_of(row: Row, theirs: Facts, ours: Facts) -> tuple[str, str, bool]:
    """What both have of a row, and whether it is the same."""
    them = row.shown(theirs[row.fact])
    us = row.ours or row.shown(ours[row.fact])
    is_same = not row.ours and them == us
    if row.shown in (classes, order):
        is_same = not row.ours and theirs[row.fact] == ours[row.fact]
    return them, us, is_same


def main() -> int:
    """Measures both, and writes the tables: of what is the same, and of the rest."""
    command_line.read_words(__doc__, 0, 0)
    theirs, ours = facts_of_scudo(), facts_of_ours()
    same = "| What | Both |\n|---|---|\n"
    other = "| What | LLVM's Scudo | The profile |\n|---|---|---|\n"
    status = 0
    for row in ROWS:
        them, us, is_same = cells_of(row, theirs, ours)
        if is_same:
            same += f"| {row.text} | {them} |\n"
        else:
            other += f"| {row.text} | {them} | {us} |\n"
        if is_same != row.is_same:
            print(f"beside_scudo.py: {row.text}: {theirs[row.fact]} and "
                  f"{ours.get(row.fact, row.ours)}", file=sys.stderr)
            status = 1
    sizes = list(zip(theirs["classes"].split(), ours["classes"].split()))
    print(f"{same}\n{other}\n{sum(a == b for a, b in sizes)} of {len(sizes)} sizes of blocks, and "
          f"the first request that gets each, are the same; so are "
          f"{sum(row.is_same for row in ROWS)} of {len(ROWS)} rows.")
    return status


if __name__ == "__main__":
    sys.exit(main())
