#!/usr/bin/env python3
"""How far a hostile program gets on its own heap, by strategy, measured and by theory.

    attacks.py [--seeds N] [--write]

A strategy is a function of a heap that makes chunks, may look at tags, and makes one forbidden
access; it succeeds if this completes. It is run over N seeds (400) on the library's heap, and on a
model of its tags with 3 bits, and without odd and even tags in turn; with the heap's own numbers
the model has to give the heap's pointers. A cell is in how many runs it succeeds, and in brackets
how many tag_theory.py expects, with the standard error. Status 1 where a cell is farther away than
3 of these and a run, or at all where it is certain. `--write` writes the table into
docs/ATTACKS.md. TOMBOLOPAN names the library.
"""
from __future__ import annotations

import functools
import itertools
import math
import pathlib
import sys
from collections.abc import Callable, Iterator
from dataclasses import dataclass, field
from typing import Protocol

HERE = pathlib.Path(__file__).resolve().parent
sys.path[:0] = [str(HERE.parent / "embed"), str(HERE.parent)]
import tag_theory as theory  # noqa: E402
import tombolopan as tb  # noqa: E402
from command_line import Parser  # noqa: E402
from page_part import write_part  # noqa: E402
from tag_model import ModelHeap, Numbers, address_of, tag_of, with_tag  # noqa: E402

PAGE = HERE.parents[1] / "docs" / "ATTACKS.md"
SCRIPT = "examples/alloc/attacks.py"
SEEDS, ERRORS = 400, 3
SIZE = 24  # A chunk has two granules.
HEAD = "| Reaches | The heap | 3 bits | No odd and even | By |\n|---|---|---|---|---|\n"
HEAP, OTHERS = Numbers(), (Numbers(bits=3), Numbers(odd_and_even=False))


class Heap(Protocol):
    """The calls that a strategy may make."""

    def malloc(self, size: int) -> int:
        """The pointer to a new chunk of 1 to 48 bytes, its tag in bits 59 to 56."""

    def free(self, pointer: int) -> None:
        """Frees a chunk."""

    def tag_at(self, address: int) -> int:
        """The tag of a granule, as LDG loads it."""

    def opens(self, pointer: int) -> bool:
        """Whether a checked access through a pointer completes."""


Strategy = Callable[[Heap], bool]


@dataclass
class LibraryHeap:
    """The library's heap, by the low 20 bits of a tenant's seed. Each call makes all those before
    it again."""

    state: int
    steps: list[tuple[int, int, int]] = field(default_factory=list)
    pointers: list[int] = field(default_factory=list)

    def ask(self, op: int, first: int) -> tb.HeapAnswer:
        """The answer of a call after those that are entered."""
        heap = tb.Heap(pages=16, rgsr_seed=self.state & 0xFFFF, rgsr_tag=self.state >> 16)
        return heap.replay([*self.steps, (op, first, 0)])[-1]

    def enter(self, op: int, first: int) -> int:
        """Enters a call, which has to answer."""
        answer = self.ask(op, first)
        assert answer.code == tb.Code.OK
        self.steps.append((op, first, 0))
        return answer.answer

    def malloc(self, size: int) -> int:
        """The pointer to a new chunk."""
        self.pointers.append(self.enter(tb.MALLOC, size))
        return self.pointers[-1]

    def free(self, pointer: int) -> None:
        """Frees a chunk."""
        self.enter(tb.FREE, pointer)

    def tag_at(self, address: int) -> int:
        """The tag of a granule."""
        return self.ask(tb.LOAD_TAG, address).answer

    def opens(self, pointer: int) -> bool:
        """Whether a load of eight bytes completes."""
        return self.ask(tb.LOAD, pointer).code == tb.Code.OK


# The strategies.

def spray(heap: Heap, count: int) -> list[int]:
    """The pointers to new chunks, from the lowest block up."""
    return [heap.malloc(SIZE) for _ in range(count)]


def moved(pointer: int, target: int) -> int:
    """The pointer that an offset makes of one, at the address of another."""
    return with_tag(target, tag_of(pointer))


def leave_a_chunk(heap: Heap) -> bool:
    """Accesses the granule after a chunk."""
    return heap.opens(heap.malloc(SIZE) + 32)


def reach(distance: int, heap: Heap) -> bool:
    """Accesses the chunk so many blocks after one."""
    first, *_, last = spray(heap, distance + 1)
    return heap.opens(moved(first, last))


def reach_a_neighbour(count: int, heap: Heap) -> bool:
    """Makes chunks, and accesses one from its neighbour of the same tag, if there is one."""
    chunks = spray(heap, count)
    pairs = [(one, other) for one, other in zip(chunks, chunks[1:]) if tag_of(one) == tag_of(other)]
    return bool(pairs) and heap.opens(moved(*pairs[0]))


def reach_any(count: int, heap: Heap) -> bool:
    """Makes chunks, and accesses one from another of the same tag, if there are two."""
    pairs = itertools.combinations(spray(heap, count), 2)
    found = next((it for it in pairs if tag_of(it[0]) == tag_of(it[1])), None)
    return found is not None and heap.opens(moved(*found))


def use_freed(heap: Heap) -> bool:
    """Accesses a chunk that was freed."""
    pointer = heap.malloc(SIZE)
    heap.free(pointer)
    return heap.opens(pointer)


def wait_for_tag(times: int, heap: Heap) -> bool:
    """Frees a chunk, takes its block again until it has the old tag, and accesses it by the old
    pointer."""
    _, pointer = spray(heap, 2)
    heap.free(pointer)
    for _ in range(times):
        again = heap.malloc(SIZE)
        if again == pointer:
            return heap.opens(pointer)
        heap.free(again)
    return False


def reach_a_header(heap: Heap) -> bool:
    """Accesses the header of a chunk by a pointer of tag 0."""
    return heap.opens(address_of(heap.malloc(SIZE)) - 16)


def set_the_tag(heap: Heap) -> bool:
    """Makes the pointer to a chunk from its address and the tag that is loaded there."""
    address = address_of(heap.malloc(SIZE))
    return heap.opens(with_tag(address, heap.tag_at(address)))


# The table.

@dataclass(frozen=True)
class Row:
    """A strategy: its text, how likely it succeeds by theory, if that is known, and why it does or
    does not."""

    text: str
    strategy: Strategy
    theory: Callable[[Numbers], float] | None = None
    why: str = ""


def always(chance: float) -> Callable[[Numbers], float]:
    """One chance, whatever the numbers."""
    return lambda numbers: chance


def rows() -> Iterator[Row]:
    """The rows of the table."""
    odd, of = "`odd_distances_differ`", functools.partial
    yield Row("the granule after a chunk", leave_a_chunk, always(0), "`chunks_are_guarded`")
    yield Row("the next chunk", of(reach, 1), of(theory.of_apart, distance=1), odd)
    yield Row("the next chunk, chosen among 64", of(reach_a_neighbour, 64),
              of(theory.of_neighbours, count=64), odd)
    yield Row("a freed chunk", use_freed, always(0), "`freed_chunks_are_refused`")
    yield Row("the chunk 2 blocks away", of(reach, 2), of(theory.of_apart, distance=2), "chance")
    for count, why in ((8, "choice"), (16, "counting")):
        yield Row(f"another of {count} chunks", of(reach_any, count),
                  of(theory.of_pair, count=count), why)
    yield Row("a freed chunk, its block taken once", of(wait_for_tag, 1),
              of(theory.of_reuse, times=1), "chance")
    for times in (4, 16, 32):
        yield Row(f"the same, up to {times} times", of(wait_for_tag, times),
                  of(theory.of_reuse, times=times), "choice")
    yield Row("a header, by tag 0", reach_a_header, always(1), "choice")
    yield Row("a chunk, by the tag that LDG loads", set_the_tag, always(1), "choice")


def state_of(run: int) -> int:
    """The state of the generator of a run, from 1 on: the low 20 bits of SplitMix64 of its
    number."""
    mask = (1 << 64) - 1
    word = run * 0x9E3779B97F4A7C15 & mask
    word = (word ^ word >> 30) * 0xBF58476D1CE4E5B9 & mask
    word = (word ^ word >> 27) * 0x94D049BB133111EB & mask
    return (word ^ word >> 31) & 0xFFFFF


def on_the_heap(strategy: Strategy, state: int) -> bool:
    """Whether a strategy succeeds on the library's heap, and on the model by the same pointers."""
    heap, model = LibraryHeap(state), ModelHeap.of(HEAP, state)
    found = strategy(heap), strategy(model)
    if found[0] != found[1] or heap.pointers != model.pointers:
        sys.exit(f"attacks.py: the model is not the heap under the state {state:#x}")
    return found[0]


@dataclass(frozen=True)
class Cell:
    """In how many of some runs a strategy succeeds, and how likely each was to, if that is
    known."""

    found: int
    runs: int
    chance: float | None

    def __str__(self) -> str:
        if self.chance is None:
            return str(self.found)
        error = f"±{self.error:.0f}" if self.error >= 0.5 else ""
        return f"{self.found} ({self.runs * self.chance:.0f}{error})"

    @property
    def error(self) -> float:
        """The standard error of the number, 0 where it is certain."""
        chance = self.chance or 0
        return math.sqrt(self.runs * chance * (1 - chance))

    @property
    def is_as_expected(self) -> bool:
        """Whether the number is near what theory expects, or nothing is expected."""
        if self.chance is None:
            return True
        most = 0.001 if self.error < 0.001 else ERRORS * self.error + 1
        return abs(self.found - self.runs * self.chance) <= most


def cells_of(row: Row, seeds: int) -> list[Cell]:
    """The cells of a row: of the heap, and of the other numbers."""
    states = [state_of(run) for run in range(1, seeds + 1)]
    counts = [sum(on_the_heap(row.strategy, it) for it in states)]
    counts += [sum(row.strategy(ModelHeap.of(numbers, it)) for it in states) for numbers in OTHERS]
    return [Cell(found, seeds, None if row.theory is None else row.theory(numbers))
            for found, numbers in zip(counts, (HEAP, *OTHERS))]


def line_of(row: Row, cells: list[Cell]) -> str:
    """A line of the table."""
    return f"| {row.text} | {' | '.join(map(str, cells))} | {row.why} |\n"


def main() -> int:
    """Reads the command line."""
    parser = Parser(__doc__)
    parser.add_argument("--seeds", type=int, default=SEEDS)
    parser.add_argument("--write", action="store_true")
    options = parser.parse_args()
    if options.seeds < 1 or (options.write and options.seeds != SEEDS):
        parser.error(f"--seeds is at least 1, and --write is for {SEEDS}")
    found = [(row, cells_of(row, options.seeds)) for row in rows()]
    text = f"{HEAD}{''.join(itertools.starmap(line_of, found))}"
    wrong = [f"{row.text}: {cell}" for row, cells in found for cell in cells
             if not cell.is_as_expected]
    for line in wrong:
        print(f"attacks.py: {line}", file=sys.stderr)
    if options.write and not wrong:
        write_part(PAGE, SCRIPT, text)
    print(text, end="")
    return 1 if wrong else 0


if __name__ == "__main__":
    sys.exit(main())
