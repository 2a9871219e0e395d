"""The counts that `mte_run --profile` writes of a run, and what follows from them.

A tenant goes straight on between two branches that it takes. So the number of times that each
instruction was attempted follows from the branches, and all sums over them are the steps.
"""
from __future__ import annotations

import bisect
import itertools
import pathlib
from collections import Counter, defaultdict
from collections.abc import Iterable, Iterator
from dataclasses import astuple, dataclass, field

HEAD = "tombolopan profile\t1"
BYTES = 4  # of an instruction
MOST_FRAMES = 256  # of a stack
# The services by their numbers (docs/TENANTS.md).
SERVICES = ("exit", "write", "read", "malloc", "free", "calloc", "realloc", "memalign",
            "usable_size", "yield", "steps_left", "pages_left")


class WrongCounts(ValueError):
    """A file that is no profile, or one of another image."""


@dataclass(frozen=True)
class Line:
    """A line of a source file."""

    file: str
    number: int


@dataclass(frozen=True)
class Inlined:
    """A call that was inlined: its function, and the line of the call."""

    function: str
    line: Line | None


@dataclass(frozen=True)
class Place:
    """An instruction: its line, and the inlined calls that it is in, the innermost first."""

    line: Line | None
    inlined: tuple[Inlined, ...] = ()


@dataclass
class Call:
    """Calls of a function from one instruction, in the same calls."""

    outer: int | None  # the number of the calls that they are in; none of the run itself
    site: int          # the instruction that calls
    entry: int         # the first instruction of the function
    calls: int
    steps: int         # without those of the calls in them


@dataclass(frozen=True)
class LongCall:
    """A call that took many steps, from its first to its last one."""

    call: int
    first: int
    last: int


@dataclass(frozen=True)
class HeapSums:
    """The chunks that were made in some calls."""

    made: int
    made_bytes: int
    freed: int
    lived: int       # steps for which those were live, in all
    live: int        # at the end
    live_bytes: int
    peak_bytes: int  # when the heap was the largest, for the first time


@dataclass(frozen=True)
class HeapSize:
    """The bytes of the live chunks after some steps."""

    step: int
    bytes: int


@dataclass(frozen=True)
class Event:
    """A slice that begins, a service that was done, or how the tenant ended, after some steps."""

    step: int
    kind: str  # slice, service or end
    what: str = ""  # the service's name, or the end in a word


@dataclass
class Counts:
    """The counts of a run, or of several of one image."""

    image: str = ""
    steps: int = 0
    # For each run its first instruction, and the first after its last branch with how many follow.
    runs: list[tuple[int, int, int]] = field(default_factory=list)
    branches: Counter[tuple[int, int]] = field(default_factory=Counter)
    calls: list[Call] = field(default_factory=list)
    long_calls: list[LongCall] = field(default_factory=list)
    least: int = 1
    # For the number of calls the chunks that were made in them.
    heap: dict[int, HeapSums] = field(default_factory=dict)
    peak: HeapSize = HeapSize(0, 0)
    sizes: list[HeapSize] = field(default_factory=list)
    events: list[Event] = field(default_factory=list)
    missed: int = 0  # events after those
    is_complete: bool = True
    functions: list[tuple[int, str]] = field(default_factory=list)
    is_named: bool = True  # where nothing has a name, a function is what was called
    places: list[tuple[int, Place]] = field(default_factory=list)
    shown: list[int] = field(default_factory=list)

    def function_at(self, address: int) -> tuple[int, str]:
        """The function that an instruction is in: its first address and its name."""
        at = bisect.bisect_right(self.functions, address, key=lambda one: one[0]) - 1
        return self.functions[at] if at >= 0 else (address, f"{address:#x}")

    def place_at(self, address: int) -> Place:
        """The line of an instruction and its inlined calls."""
        at = bisect.bisect_right(self.places, address, key=lambda one: one[0]) - 1
        return self.places[at][1] if at >= 0 else Place(None)

    def pieces(self) -> Iterator[tuple[int, int, int]]:
        """Instructions in a row that were attempted equally often: the first, the one behind the
        last, and how often."""
        changes: Counter[int] = Counter()
        for first, start, count in self.runs:
            changes[first] += 1
            changes[start + BYTES * count] -= 1
        for (source, target), count in self.branches.items():
            changes[target] += count
            changes[source + BYTES] -= count
        level = 0
        for address, behind in itertools.pairwise(sorted(changes)):
            level += changes[address]
            if level:
                yield address, behind, level

    def executions(self) -> dict[int, int]:
        """How often each instruction was attempted, of those that were."""
        return {address: count for first, behind, count in self.pieces()
                for address in range(first, behind, BYTES)}

    def inclusive(self) -> list[int]:
        """For each of the calls its steps with those of the calls in them."""
        steps = [call.steps for call in self.calls]
        for number in range(len(self.calls) - 1, 0, -1):
            outer = self.calls[number].outer
            if outer is not None:
                steps[outer] += steps[number]
        return steps

    def shown_calls(self) -> list[int]:
        """For each of the calls its number, or that of those with MOST_FRAMES that it is in."""
        if len(self.shown) != len(self.calls):
            self.shown, depths = [], list[int]()
            for number, call in enumerate(self.calls):
                depths.append(depths[call.outer] + 1 if call.outer is not None else 1)
                is_deep = call.outer is not None and depths[number] > MOST_FRAMES
                self.shown.append(self.shown[call.outer or 0] if is_deep else number)
        return self.shown

    def stack(self, number: int) -> list[int]:
        """The calls that a call is in and itself, the outermost first. The last of MOST_FRAMES has
        what is called in it."""
        found = [self.shown_calls()[number]]
        while (outer := self.calls[found[-1]].outer) is not None:
            found.append(outer)
        return found[::-1]

    def image_told(self) -> tuple[object, ...]:
        """What is the same in all counts of one image."""
        return (self.is_named, self.functions if self.is_named else self.image, self.places)

    def add(self, other: Counts) -> None:
        """Adds the counts of another run of the same image. Its long calls, its events and the
        sizes of its heap are left out."""
        if self.image_told() != other.image_told():
            raise WrongCounts(f"{other.image} is another image than {self.image}")
        self.functions = sorted({*self.functions, *other.functions})
        self.steps += other.steps
        self.runs += other.runs
        self.branches.update(other.branches)
        self.is_complete = self.is_complete and other.is_complete
        known = {(call.outer, call.site, call.entry): number
                 for number, call in enumerate(self.calls)}
        numbers: dict[int | None, int | None] = {None: None}
        for number, call in enumerate(other.calls):
            key = (numbers[call.outer], call.site, call.entry)
            if key not in known:
                known[key] = len(self.calls)
                self.calls.append(Call(*key, 0, 0))
            mine = self.calls[known[key]]
            mine.calls, mine.steps = mine.calls + call.calls, mine.steps + call.steps
            numbers[number] = known[key]
            if number in other.heap:
                sums = astuple(other.heap[number])
                if known[key] in self.heap:
                    sums = tuple(map(sum, zip(sums, astuple(self.heap[known[key]]), strict=True)))
                self.heap[known[key]] = HeapSums(*sums)


def line_of(number: str, file: list[str]) -> Line | None:
    """A line as the file has it."""
    return Line(file[0], int(number)) if number != "0" else None


def read_call(words: list[str], pairs: list[tuple[int, int]], first: int) -> Call:
    """A line of calls; the branches are known."""
    calls, steps = int(words[2]), int(words[3])
    if words[0] == "-":
        return Call(None, first, first, calls, steps)
    return Call(int(words[0]), *pairs[int(words[1])], calls, steps)


def read_event(kind: str, words: list[str]) -> Event:
    """A line of an event."""
    if kind == "service":
        number = int(words[1])
        return Event(int(words[0]), kind,
                     SERVICES[number] if number < len(SERVICES) else f"service {number}")
    return Event(int(words[0]), kind, *words[1:])


def read(text: str) -> Counts:
    """The counts of a file's text."""
    lines = text.splitlines()
    if not lines or lines[0] != HEAD:
        raise WrongCounts("it does not begin as one")
    rows: dict[str, list[list[str]]] = defaultdict(list)
    inlined: dict[int, list[Inlined]] = defaultdict(list)
    events: list[Event] = []
    for line in lines[1:]:
        name, *words = line.split("\t")
        if name == "inlined":
            inlined[len(rows["line"])].append(Inlined(words[0], line_of(words[1], words[2:])))
        elif name in ("slice", "service", "end"):
            events.append(read_event(name, words))
        else:
            rows[name].append(words)
    pairs = [(int(source, 16), int(target, 16)) for source, target, _ in rows["branch"]]
    first = int(rows["first"][0][0], 16)
    start, count = rows["rest"][0]
    calls = [read_call(words, pairs, first) for words in rows["calls"]]
    functions = [(int(address, 16), name) for address, name in rows["function"]] or [
        (entry, f"{entry:#x}") for entry in sorted({call.entry for call in calls})]
    return Counts(
        image=rows["image"][0][0], steps=int(rows["steps"][0][0]),
        runs=[(first, int(start, 16), int(count))],
        branches=Counter({pair: int(words[2])
                          for pair, words in zip(pairs, rows["branch"], strict=True)}),
        calls=calls,
        long_calls=[LongCall(*map(int, words)) for words in rows["call"]],
        least=int(rows["least"][0][0]),
        heap={int(words[0]): HeapSums(*map(int, words[1:])) for words in rows["heap"]},
        peak=HeapSize(*map(int, rows["peak"][0])),
        sizes=[HeapSize(*map(int, words)) for words in rows["size"]],
        events=events, missed=sum(int(words[0]) for words in rows["missed"]),
        is_complete="incomplete" not in rows,
        functions=functions, is_named=bool(rows["function"]),
        places=[(int(words[0], 16), Place(line_of(words[1], words[2:]), tuple(inlined[number])))
                for number, words in enumerate(rows["line"], start=1)])


def read_files(files: Iterable[pathlib.Path]) -> Counts:
    """The sum of the counts of some files."""
    found = None
    for file in files:
        try:
            counts = read(file.read_text(encoding="utf-8"))
            if found is None:
                found = counts
            else:
                found.add(counts)
        except (LookupError, ValueError, UnicodeDecodeError) as error:
            raise WrongCounts(f"{file} is no file of mte_run --profile ({error})") from error
        except WrongCounts as error:
            raise WrongCounts(f"{file} is no profile of this image: {error}") from error
    if found is None:
        raise WrongCounts("there is no file")
    return found
