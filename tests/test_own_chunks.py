"""What a program says of memory that it hands out itself (tenant_check.h), in a checked run: drawn
arenas beside a model of docs/CHECKING.md."""

import pathlib
import random
import re
import struct
from dataclasses import dataclass, field
from typing import Optional

import pytest

from tests.support.running import run
from tests.test_arguments import EACH_STEP
from tests.test_checks import BUILDS, SOURCES, image

FAULT, FOUND = 129, 137
ARENA, GRANULE = 1024, 16
OWN = "{}-byte chunk of the program's own at {:#018x}"
DRAWN = 50


@dataclass
class Chunk:
    """A chunk of the program's own: its first byte in the arena and its bytes, whether it was given
    back, and whether that was said of its bytes."""

    start: int
    size: int
    is_live: bool = True
    is_forbidden: bool = False

    def has(self, place: int) -> bool:
        """Whether a byte of the arena is its own."""
        return self.start <= place < self.start + self.size


@dataclass(frozen=True)
class Act:
    """An act of own_chunks.c."""

    name: str
    slot: int = 0
    place: int = 0
    size: int = 0

    def packed(self) -> bytes:
        """As the program reads it."""
        return struct.pack("<BBhH", ord(self.name), self.slot, self.place, self.size)


@dataclass
class Arena:
    """An arena by the rules of the page: the newest chunk of each granule, the chunk of each slot's
    pointer, the bytes without a value, and whether the heap has it back."""

    is_heap: bool
    address: int = 0
    owners: "dict[int, Chunk]" = field(default_factory=dict)
    slots: "dict[int, Chunk]" = field(default_factory=dict)
    undefined: "set[int]" = field(default_factory=set)
    is_freed: bool = False

    def __post_init__(self) -> None:
        if self.is_heap:
            self.undefined = set(range(ARENA))

    def own(self, chunk: Chunk, granules: range) -> None:
        """Granules of which a chunk is the newest."""
        self.owners.update(dict.fromkeys(granules, chunk))

    def named(self, chunk: Chunk) -> str:
        """A chunk in the words of a cause."""
        return OWN.format(chunk.size, self.address + chunk.start)

    def chunk(self, slot: int, start: int, size: int) -> None:
        """CHECK_CHUNK: another size of the live chunk there, or a new one."""
        old = self.owners.get(start // GRANULE)
        is_same = old is not None and old.is_live and old.start == start
        made = old if old is not None and is_same else Chunk(start, 0)
        self.undefined |= set(range(start + made.size, start + size))
        made.size = size
        self.slots[slot] = made
        self.own(made, granules(start, size))

    def forbid(self, start: int, size: int) -> None:
        """CHECK_NO_ACCESS."""
        for granule in granules(start, size):
            owner = self.owners.get(granule)
            if owner and owner.is_live and owner.start >= start:
                owner.is_live, owner.is_forbidden = False, True
        self.own(Chunk(start, size, False, True), granules(start, size))

    def define(self, start: int, size: int) -> None:
        """CHECK_DEFINED."""
        for granule in granules(start, size):
            owner = self.owners.get(granule)
            if owner and not owner.is_live:
                del self.owners[granule]
        self.undefined -= set(range(start, start + size))

    def free(self) -> None:
        """The arena is given back to the heap, with its chunks."""
        self.is_freed = True
        for chunk in self.owners.values():
            chunk.is_live = False

    def wrong(self, slot: Optional[int], offset: int) -> Optional[str]:
        """What is wrong with an access by a slot's pointer, or by the arena's own."""
        chunk = None if slot is None else self.slots[slot]
        place = offset + (chunk.start if chunk else 0)
        if chunk and not chunk.is_live:
            return f"Use After Free, {counted(max(offset, 0))} into a {self.named(chunk)}"
        if chunk and offset < 0:
            return f"Buffer Underflow, {counted(-offset)} left of a {self.named(chunk)}"
        if chunk and offset >= chunk.size:
            return (f"Buffer Overflow, {counted(offset - chunk.size)} right of a "
                    f"{self.named(chunk)}")
        if self.is_freed:
            return f"Use After Free, {counted(place)} into a {ARENA}-byte allocation"
        owner = self.owners.get(place // GRANULE)
        if owner and owner.is_forbidden and not owner.is_live and owner.has(place):
            return f"Forbidden Access, {counted(place - owner.start)} into a {self.named(owner)}"
        return None

    def use(self, act: Act) -> Optional[str]:
        """What is wrong with a use of a byte."""
        slot = act.slot if act.name.islower() else None
        if wrong := self.wrong(slot, act.place):
            return wrong
        place = act.place + (0 if slot is None else self.slots[slot].start)
        if act.name in "bB" and place in self.undefined:
            return "Uninitialized Value"
        return None


def counted(number: int) -> str:
    """A number of bytes in words."""
    return f"{number} byte{'' if number == 1 else 's'}"


def granules(start: int, size: int) -> range:
    """The granules that have bytes of a range."""
    return range(start // GRANULE, -(-(start + size) // GRANULE))


def use(source: random.Random, arena: Arena) -> Act:
    """A use of a byte."""
    name = source.choice("wwwrb")
    if not arena.slots or source.random() < 0.2:
        return Act(name.upper(), place=source.randrange(ARENA))
    slot = source.choice(sorted(arena.slots))
    return Act(name, slot, source.randrange(-1, arena.slots[slot].size + 1))


def mostly_right(source: random.Random, arena: Arena) -> Act:
    """A use of a byte that is right where one of twenty is, but for one of twenty; of those that
    are wrong each kind as often."""
    uses = [use(source, arena) for _ in range(20)]
    kinds = {(arena.use(it) or "")[:16]: it for it in uses}
    wrong = [kinds[it] for it in sorted(kinds) if it]
    right = kinds.get("")
    return right if right and (not wrong or source.random() < 0.95) else source.choice(wrong)


def draw(source: random.Random, arena: Arena) -> Act:
    """An act."""
    start, size = source.randrange(0, 800, GRANULE), source.randrange(1, 200)
    name = source.choice("ccnd" + 8 * "u") if source.random() < 0.98 or not arena.is_heap else "f"
    if name == "u":
        return mostly_right(source, arena)
    return Act(name, source.randrange(16), start, size)


def effect(arena: Arena, act: Act) -> Optional[str]:
    """What an act does; what is wrong with it."""
    if act.name == "c":
        arena.chunk(act.slot, act.place, act.size)
    elif act.name == "n":
        arena.forbid(act.place, act.size)
    elif act.name == "d":
        arena.define(act.place, act.size)
    elif act.name == "f":
        arena.free()
    elif wrong := arena.use(act):
        return wrong
    elif act.name in "wW":
        start = arena.slots[act.slot].start if act.name == "w" else 0
        arena.undefined.discard(start + act.place)
    return None


def drawn(source: random.Random, arena: Arena) -> "tuple[list[Act], Optional[str]]":
    """Acts up to the first one that is wrong, and what is wrong with it."""
    acts = [Act("h" if arena.is_heap else "s")]
    while len(acts) < 64 and not arena.is_freed:
        acts.append(draw(source, arena))
        if wrong := effect(arena, acts[-1]):
            return acts, wrong
    return acts, None


def told(alone: pathlib.Path, program: pathlib.Path, acts: "list[Act]", folder: pathlib.Path,
         *words: str) -> "tuple[int, str, str]":
    """The arena's address, the cause that a checked run tells, or none, and the report."""
    (folder / "acts").write_bytes(b"".join(act.packed() for act in acts))
    ran = run([alone, "--check=provenance,undefined,frees", "--input", folder / "acts", *words,
               program])
    causes = re.findall(r"^Cause: \[check\]: (.*)$", ran.errors, re.M)
    assert ran.status == (FOUND if causes else 0), ran.errors
    return struct.unpack("<Q", ran.out)[0], "".join(causes), ran.errors


@pytest.mark.parametrize("build", sorted(BUILDS))
@pytest.mark.parametrize("is_heap", (True, False), ids=("heap", "image"))
def test_drawn_arenas(alone: pathlib.Path, shared: pathlib.Path, tmp_path: pathlib.Path,
                      build: str, is_heap: bool) -> None:
    """The first wrong use is told, with the chunk and the distance, and nothing else is; the same
    where each attempt is looked at."""
    program = image(shared, build, "own_chunks.c")
    address, nothing, _ = told(alone, program, [Act("h" if is_heap else "s")], tmp_path)
    assert nothing == ""
    source, kinds = random.Random(f"{build}{is_heap}"), set()
    for number in range(DRAWN):
        acts, wrong = drawn(source, Arena(is_heap, address))
        _, cause, report = told(alone, program, acts, tmp_path)
        if number % 5 == 0:
            assert told(alone, program, acts, tmp_path, *EACH_STEP)[1:] == (cause, report)
        assert cause.startswith(wrong or "") and bool(cause) == bool(wrong), (acts, wrong, report)
        kinds.add(cause.partition(",")[0].partition(" of ")[0])
    assert len(kinds) > 3, kinds


def test_instructions_that_say_it(alone: pathlib.Path, shared: pathlib.Path,
                                  tmp_path: pathlib.Path) -> None:
    """The report names the line that made the chunk, or forbade the bytes."""
    program = image(shared, "gcc-O0", "own_chunks.c")
    text = (SOURCES / "own_chunks.c").read_text(encoding="utf-8").splitlines()
    lines = {name: 1 + next(n for n, line in enumerate(text) if f"{name}(" in line)
             for name in ("CHECK_CHUNK", "CHECK_NO_ACCESS")}
    made = [Act("s"), Act("c", 1, 64, 20)]
    for acts, name, verb in (([Act("w", 1, 20)], "CHECK_CHUNK", "made"),
                             ([Act("b", 1, 3)], "CHECK_CHUNK", "made"),
                             ([Act("n", 0, 64, 20), Act("r", 1)], "CHECK_NO_ACCESS", "forbidden")):
        _, _, report = told(alone, program, [*made, *acts], tmp_path)
        found = rf"^  {verb} with {name} by .* own_chunks\.c:{lines[name]}"
        assert re.search(found, report, re.M), report


def test_services_of_any_size(alone: pathlib.Path, shared: pathlib.Path,
                              tmp_path: pathlib.Path) -> None:
    """One that fails is judged at once, however many bytes were asked for."""
    program = image(shared, "clang-O2", "own_stack.c")
    source = random.Random("sizes")
    for bits in (*source.sample(range(17, 64), 6), 64):
        size = source.randrange(1 << (bits - 1), 1 << bits)
        (tmp_path / "size").write_bytes(struct.pack("<Q", size))
        for kind in ("provenance", "undefined"):
            ran = run([alone, f"--check={kind}", "--input", tmp_path / "size", program], seconds=60)
            assert ran.status == FAULT, ran.errors
