"""Pages of `mte_run --html`: their data, and what these say of the heap at each step."""

import json
import pathlib
import re
from dataclasses import dataclass, field
from typing import Any, Optional

DATA = re.compile(r"<script type='application/json' id='data'>\n(.*?)\n</script>", re.S)
GRANULE, ROW = 16, 512


@dataclass
class HeapPage:
    """A page, what is in it beside its data, and its data."""

    text: str
    frame: str
    data: Any


def read_page(path: pathlib.Path) -> HeapPage:
    """The page in a file."""
    text = path.read_text(encoding="utf-8")
    found = DATA.search(text)
    assert found
    return HeapPage(text, text.replace(found[1], ""), json.loads(found[1]))


def plain(pointer: str) -> int:
    """An address without its tag."""
    return int(pointer, 16) & (1 << 56) - 1


@dataclass
class PageHeap:
    """The tags that heap calls and instructions gave to granules; None where it is not known."""

    tags: dict[int, Optional[int]] = field(default_factory=dict)
    sizes: dict[int, int] = field(default_factory=dict)

    def paint(self, start: int, end: int, tag: Optional[int]) -> None:
        """Gives the granules of a range a tag."""
        for address in range(start, end, GRANULE):
            self.tags[address] = tag

    def forget(self, start: int, end: int) -> None:
        """The granules of a range are no longer mapped."""
        for address in range(start, end, GRANULE):
            self.tags.pop(address, None)

    def note(self, call: Any) -> None:
        """Enters a heap call."""
        made = plain(call["made"]) if "made" in call else None
        if "ended" in call:
            self.end(call, plain(call["ended"]), made)
        if made is None:
            return
        end = made + (max(call["size"], 1) + GRANULE - 1) // GRANULE * GRANULE
        self.sizes[made] = end - made
        self.paint(made, end, int(call["made"], 16) >> 56 & 15)
        if "block" in call:
            self.tags[made - GRANULE] = 0
            if end < plain(call["block"]) + call["room"]:
                self.tags[end] = 0

    def end(self, call: Any, start: int, made: Optional[int]) -> None:
        """Enters that a chunk was freed, or got another size where it is."""
        size = self.sizes.pop(start, None)
        if size is None:
            return
        if made == start:
            self.paint(start, start + size, 0)
        elif start >= 0x3D000000:
            self.forget(start, start + size)
        else:
            self.paint(start, start + size, call.get("drawn"))


def heap_at_end(data: Any) -> PageHeap:
    """The heap behind all events of a page, in the order of their steps."""
    heap, calls = PageHeap(), {call["step"]: call for call in data["calls"]}
    for call in data["calls"]:
        if call["step"] < data["first"]:
            heap.note(call)
    for step, text in enumerate(data["steps"], data["first"]):
        if step in calls:
            heap.note(calls[step])
        if found := re.search(r" g([0-9a-f]+)[+]([12])=([0-9a-f])", text):
            start = plain(found[1])
            heap.paint(start, start + GRANULE * int(found[2]), int(found[3], 16))
    return heap


def tags_at_end(data: Any) -> dict[int, Optional[int]]:
    """The tags of the granules of all rows, as the memory has them at the end."""
    return {int(start, 16) + GRANULE * at: None if sign == "." else int(sign, 16)
            for start, signs in data["rows"] for at, sign in enumerate(signs)}
