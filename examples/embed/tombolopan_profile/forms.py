"""The counts of a run in the forms that other tools read. Each function gives a file's text."""
from __future__ import annotations

import gzip
import itertools
import json
import os
import struct
import sys
from collections import Counter, defaultdict
from collections.abc import Iterable, Iterator, Mapping
from dataclasses import dataclass, field
from typing import Any
from xml.sax.saxutils import quoteattr

from tombolopan_profile.counts import BYTES, Counts, Line, Place

UNKNOWN = "??"
JUMP = 0x14000000


def file_of(line: Line | None) -> str:
    """The name of a line's file, without the parts that lead back."""
    return os.path.normpath(line.file) if line else UNKNOWN


def number_of(line: Line | None) -> int:
    return line.number if line else 0


# ---- the image's words (Arm ARM DDI 0487, C4.1)


def words_of(image: bytes) -> dict[int, int]:
    """The words of an ELF64 file's segments with code, by their addresses."""
    if image[:6] != b"\x7fELF\x02\x01":
        return {}
    start, = struct.unpack_from("<Q", image, 32)
    size, count = struct.unpack_from("<HH", image, 54)
    found: dict[int, int] = {}
    for number in range(count):
        kind, flags, offset, address, _, held = struct.unpack_from(
            "<IIQQQQ", image, start + number * size)
        if kind == 1 and flags & 1:
            code = image[offset:offset + held - held % BYTES]
            found.update((address + BYTES * at, word)
                         for at, (word,) in enumerate(struct.iter_unpack("<I", code)))
    return found


def is_access(word: int) -> bool:
    """A load or a store."""
    return word >> 25 & 0b0101 == 0b0100


def draws_tag(word: int) -> bool:
    """IRG."""
    return word & 0xFFE0FC00 == 0x9AC01000


def is_service(word: int) -> bool:
    """SVC."""
    return word & 0xFFE0001F == 0xD4000001


def is_jump(word: int) -> bool:
    """B."""
    return word & 0xFC000000 == JUMP


def is_on_stack(word: int) -> bool:
    """A load or a store whose base is SP or the frame pointer."""
    return is_access(word) and word >> 5 & 31 in (29, 31)


def is_value(word: int) -> bool:
    """An instruction on an immediate value, a MOV of a register, or a load of an integer from the
    stack: what follows needs the value."""
    is_constant = word & 0x1C000000 == 0x10000000 or word & 0x7FE0FFE0 == 0x2A0003E0
    is_pair = word & 0x3A000000 == 0x28000000
    is_load = word >> 22 & (1 if is_pair else 3) != 0
    return is_constant or (is_load and is_on_stack(word))


def is_conditional(word: int) -> bool:
    """B.cond, CBZ, CBNZ, TBZ or TBNZ."""
    return word & 0xFF000010 == 0x54000000 or word & 0x7C000000 == 0x34000000


EVENTS = {"Accesses": is_access, "Tags": draws_tag, "Services": is_service}


# ---- callgrind


@dataclass
class Costs:
    """What a line of a function costs: instructions, and those of each event."""

    values: list[int]

    def add(self, count: int, word: int | None) -> None:
        self.values[0] += count
        for number, event in enumerate(EVENTS.values(), start=1):
            if number < len(self.values) and word is not None and event(word):
                self.values[number] += count


def callgrind(counts: Counts, words: Mapping[int, int]) -> str:
    """Callgrind's format: a cost for each line of each function, and the calls from each."""
    events = ["Instructions", *(EVENTS if words else ())]
    costs: dict[int, dict[Line | None, Costs]] = defaultdict(dict)
    sums = Costs([0] * len(events))
    for address, count in counts.executions().items():
        line = counts.place_at(address).line
        of_line = costs[counts.function_at(address)[0]].setdefault(line, Costs([0] * len(events)))
        for one in (of_line, sums):
            one.add(count, words.get(address))
    arcs: dict[int, Counter[tuple[Line | None, int]]] = defaultdict(Counter)
    spent: Counter[tuple[int, Line | None, int]] = Counter()
    for call, steps in zip(counts.calls, counts.inclusive(), strict=True):
        if call.outer is not None:
            caller, line = counts.function_at(call.site)[0], counts.place_at(call.site).line
            callee = counts.function_at(call.entry)[0]
            arcs[caller][line, callee] += call.calls
            spent[caller, line, callee] += steps
    found = ["# callgrind format", "version: 1", "creator: tombolopan", f"cmd: {counts.image}",
             "positions: line", f"events: {' '.join(events)}",
             f"summary: {' '.join(map(str, sums.values))}", ""]
    for function in sorted({*costs, *arcs}):
        found += function_lines(counts, function, costs[function], arcs[function], spent)
    return "\n".join([*found, f"totals: {' '.join(map(str, sums.values))}", ""])


def function_lines(
    counts: Counts, function: int, costs: Mapping[Line | None, Costs],
    arcs: Mapping[tuple[Line | None, int], int], spent: Mapping[tuple[int, Line | None, int], int],
) -> list[str]:
    """A function of callgrind's format; lines of other files are of functions inlined into it."""
    home = file_of(counts.place_at(function).line)
    found = [f"fl={home}", f"fn={counts.function_at(function)[1]}"]
    for line, cost in sorted(costs.items(), key=lambda one: (file_of(one[0]), number_of(one[0]))):
        found += [f"fi={file_of(line)}", f"{number_of(line)} {' '.join(map(str, cost.values))}"]
    for (line, callee), calls in sorted(arcs.items(), key=str):
        entry = counts.place_at(callee).line
        found += [f"fi={file_of(line)}", f"cfi={file_of(entry)}",
                  f"cfn={counts.function_at(callee)[1]}", f"calls={calls} {number_of(entry)}",
                  f"{number_of(line)} {spent[function, line, callee]}"]
    return [*found, ""]


# ---- stacks


def frames_of(counts: Counts, number: int) -> list[str]:
    """The functions of a call and of the calls that it is in, the outermost first."""
    return [counts.function_at(counts.calls[one].entry)[1] for one in counts.stack(number)]


def folded(counts: Counts) -> str:
    """A line for each stack of functions with its own steps, as flamegraph.pl reads them."""
    found: Counter[str] = Counter()
    for number, call in enumerate(counts.calls):
        if call.steps:
            names = (name.replace(";", ":") for name in frames_of(counts, number))
            found[";".join(names)] += call.steps
    return "".join(f"{stack} {steps}\n" for stack, steps in sorted(found.items()))


def span(name: str, row: int, first: int, last: int) -> dict[str, Any]:
    """What takes some steps, in a row of the timeline."""
    return {"name": name, "ph": "X", "pid": 1, "tid": row, "ts": first, "dur": last - first}


def happenings(counts: Counts) -> Iterator[dict[str, Any]]:
    """The slices, each up to the next, in a row of their own; the services and the end."""
    starts = [it.step for it in counts.events if it.kind == "slice"]
    for number, (first, last) in enumerate(itertools.pairwise([*starts, counts.steps]), start=1):
        yield span(f"slice {number}", 2, first, last)
    for it in counts.events:
        if it.kind != "slice":
            yield {"name": it.what, "ph": "i", "pid": 1, "tid": 1, "ts": it.step,
                   "s": "g" if it.kind == "end" else "t"}


def timeline(counts: Counts) -> str:
    """The trace event format: the longest calls, slices, services, the end, and the bytes of live
    chunks, a step as a microsecond."""
    calls = [span(counts.function_at(counts.calls[it.call].entry)[1], 1, it.first, it.last)
             for it in counts.long_calls]
    heap = [{"name": "live heap", "ph": "C", "pid": 1, "ts": size.step,
             "args": {"bytes": size.bytes}} for size in counts.sizes]
    run = span(counts.image, 1, 0, counts.steps)
    return json.dumps({"traceEvents": [run, *calls, *happenings(counts), *heap],
                       "displayTimeUnit": "ms",
                       "otherData": {"unit": "a step is shown as a microsecond",
                                     "least steps of a call": counts.least,
                                     "services after those shown": counts.missed}})


# ---- coverage


@dataclass
class Covered:
    """What of a source file was executed: by line how often, its functions, its branches."""

    lines: dict[int, int] = field(default_factory=dict)
    functions: dict[str, tuple[int, int]] = field(default_factory=dict)
    branches: dict[int, list[tuple[int, int]]] = field(default_factory=lambda: defaultdict(list))


def executed_lines(counts: Counts, words: Mapping[int, int],
                   executions: Mapping[int, int]) -> Iterator[tuple[Line, int]]:
    """For each place with a line how often its first instruction was executed, since compilers
    count jumps to the line before them; where that is a jump that was not, the first one behind it
    that is no jump: a line as `} else if (..)` begins with a jump from what is above it. Constants
    and loads of a variable behind a jump may be those of another line, without a place of their
    own."""
    ends = itertools.chain((start for start, _ in counts.places[1:]), [sys.maxsize])
    for (start, place), end in zip(counts.places, ends, strict=True):
        if place.line:
            at, word = start, words.get(start, 0)
            is_passed = start not in executions and is_jump(word)
            while is_passed and at < end and (is_jump(word) or is_value(word)):
                at += BYTES
                word = words.get(at, 0)
            yield place.line, executions.get(at, 0) if at < end else 0


def coverage(counts: Counts, words: Mapping[int, int]) -> dict[str, Covered]:
    """The lines, functions and branches of each source file, executed or not. Of several places of
    a line that counts which was executed most often."""
    found: dict[str, Covered] = defaultdict(Covered)
    executions = counts.executions()
    for place_line, count in executed_lines(counts, words, executions):
        lines = found[file_of(place_line)].lines
        lines[place_line.number] = max(count, lines.get(place_line.number, 0))
    for address, name in counts.functions:
        if line := counts.place_at(address).line:
            found[file_of(line)].functions[name] = line.number, executions.get(address, 0)
    taken: Counter[int] = Counter()
    for (source, _), count in counts.branches.items():
        taken[source] += count
    for address, word in words.items():
        line = counts.place_at(address).line
        if line and is_conditional(word):
            found[file_of(line)].branches[line.number].append(
                (taken[address], executions.get(address, 0) - taken[address]))
    return found


def lcov(counts: Counts, words: Mapping[int, int]) -> str:
    """LCOV's tracefile."""
    found = []
    for file, covered in sorted(coverage(counts, words).items()):
        found += ["TN:", f"SF:{file}"]
        functions = sorted(covered.functions.items(), key=lambda one: (one[1], one[0]))
        found += [f"FN:{number},{name}" for name, (number, _) in functions]
        found += [f"FNDA:{count},{name}" for name, (_, count) in functions]
        found += [f"FNF:{len(functions)}", f"FNH:{sum(count > 0 for _, (_, count) in functions)}"]
        branches = [(number, at, side, side_count, sum(both))
                    for number, rows in sorted(covered.branches.items())
                    for at, both in enumerate(rows) for side, side_count in enumerate(both)]
        found += [f"BRDA:{number},{at},{side},{count if reached else '-'}"
                  for number, at, side, count, reached in branches]
        found += [f"BRF:{len(branches)}", f"BRH:{sum(row[3] > 0 for row in branches)}"]
        found += [f"DA:{number},{count}" for number, count in sorted(covered.lines.items())]
        found += [f"LF:{len(covered.lines)}", f"LH:{hits(covered.lines)}", "end_of_record"]
    return "".join(f"{line}\n" for line in found)


def hits(lines: Mapping[int, int]) -> int:
    return sum(count > 0 for count in lines.values())


def rate(lines: Iterable[Mapping[int, int]]) -> str:
    """The share of lines that were executed."""
    several = list(lines)
    return f"{sum(map(hits, several)) / max(1, sum(map(len, several))):.4f}"


def cobertura(counts: Counts, words: Mapping[int, int]) -> str:
    """Cobertura's XML: a class for each source file."""
    files = sorted(coverage(counts, words).items())
    whole = rate(covered.lines for _, covered in files)
    valid, hit = (sum(len(one.lines) for _, one in files), sum(hits(one.lines) for _, one in files))
    found = ['<?xml version="1.0" ?>',
             '<!DOCTYPE coverage SYSTEM "http://cobertura.sourceforge.net/xml/coverage-04.dtd">',
             f'<coverage line-rate="{whole}" branch-rate="0" lines-covered="{hit}" '
             f'lines-valid="{valid}" branches-covered="0" branches-valid="0" complexity="0" '
             'version="1" timestamp="0">', "<sources><source>.</source></sources>", "<packages>",
             f'<package name={quoteattr(counts.image)} line-rate="{whole}" branch-rate="0" '
             'complexity="0"><classes>']
    for file, covered in files:
        found += [f'<class name={quoteattr(file)} filename={quoteattr(file)} '
                  f'line-rate="{rate([covered.lines])}" branch-rate="0" complexity="0">'
                  "<methods/><lines>",
                  *(f'<line number="{number}" hits="{count}"/>'
                    for number, count in sorted(covered.lines.items())), "</lines></class>"]
    return "\n".join([*found, "</classes></package></packages></coverage>", ""])


# ---- pprof


def varint(value: int) -> bytes:
    """A number as protocol buffers have it."""
    found = bytearray()
    while value > 127:
        found.append(value & 127 | 128)
        value >>= 7
    return bytes([*found, value])


def number_field(at: int, value: int) -> bytes:
    return varint(at << 3) + varint(value)


def bytes_field(at: int, value: bytes) -> bytes:
    return varint(at << 3 | 2) + varint(len(value)) + value


class Table:
    """Values with numbers from a first one on, in the order in which they are met."""

    def __init__(self, first: int) -> None:
        self.first, self.numbers = first, dict[object, int]()

    def number(self, value: object) -> int:
        return self.numbers.setdefault(value, len(self.numbers) + self.first)


@dataclass(frozen=True)
class SampleType:
    """What a value of pprof's samples is, and its unit."""

    name: str
    unit: str


@dataclass(frozen=True)
class Sample:
    """Values of the calls with a number."""

    call: int
    values: tuple[int, ...]


def pprof(counts: Counts) -> bytes:
    """The compressed profile.proto of pprof: the own steps of each stack."""
    return pprof_of(counts, [SampleType("steps", "count")], (
        Sample(number, (call.steps,)) for number, call in enumerate(counts.calls) if call.steps))


def pprof_of(counts: Counts, types: list[SampleType], values: Iterable[Sample]) -> bytes:
    """The compressed profile.proto of samples: values of each stack."""
    texts, functions, locations = Table(0), Table(1), Table(1)
    texts.number("")
    samples = b""
    for sample in values:
        rows = [counts.calls[one] for one in reversed(counts.stack(sample.call))]
        at = [locations.number((one.entry if it == 0 else rows[it - 1].site))
              for it, one in enumerate(rows)]
        samples += bytes_field(2, bytes_field(1, b"".join(map(varint, at)))
                               + bytes_field(2, b"".join(map(varint, sample.values))))
    places = b""
    for address, number in locations.numbers.items():
        assert isinstance(address, int)
        start, name = counts.function_at(address)
        line = counts.place_at(address).line
        function = functions.number((name, file_of(counts.place_at(start).line)))
        row = number_field(1, function) + number_field(2, number_of(line))
        places += bytes_field(4, number_field(1, number) + number_field(3, address)
                              + bytes_field(4, row))
    names = b""
    for named, number in functions.numbers.items():
        assert isinstance(named, tuple)
        names += bytes_field(5, number_field(1, number) + number_field(2, texts.number(named[0]))
                             + number_field(4, texts.number(named[1])))
    kinds = b"".join(bytes_field(1, number_field(1, texts.number(kind.name))
                                 + number_field(2, texts.number(kind.unit))) for kind in types)
    held = kinds + samples + places + names
    held += b"".join(bytes_field(6, str(text).encode()) for text in texts.numbers)
    return gzip.compress(held, mtime=0)


# ---- text


@dataclass(frozen=True)
class FunctionSteps:
    """A function: its own steps, those with the calls in it, and how often it was called."""

    name: str
    own: int
    whole: int
    calls: int


def whole_steps(counts: Counts) -> Counter[int]:
    """The steps of each function with those of the calls in it, each counted once."""
    inner: dict[int | None, list[int]] = defaultdict(list)
    for number, call in enumerate(counts.calls):
        inner[call.outer].append(number)
    found, opened, steps = Counter[int](), Counter[int](), counts.inclusive()
    left = [(number, False) for number in inner[None]]
    while left:
        number, is_closed = left.pop()
        entry = counts.function_at(counts.calls[number].entry)[0]
        if is_closed:
            opened[entry] -= 1
            continue
        found[entry] += 0 if opened[entry] else steps[number]
        opened[entry] += 1
        left += [(number, True), *((one, False) for one in inner[number])]
    return found


def functions(counts: Counts) -> list[FunctionSteps]:
    """The functions that were reached, those with the most own steps first."""
    own: Counter[int] = Counter()
    for address, count in counts.executions().items():
        own[counts.function_at(address)[0]] += count
    whole, calls = whole_steps(counts), Counter[int]()
    for call in counts.calls:
        calls[counts.function_at(call.entry)[0]] += call.calls
    return [FunctionSteps(counts.function_at(entry)[1], steps, whole[entry], calls[entry])
            for entry, steps in own.most_common()]


def table(counts: Counts, most: int) -> str:
    """The functions with the most own steps, and how many of all were reached."""
    rows = functions(counts)
    found = [f"{counts.steps} steps of {counts.image}", "",
             f"{'own':>12} {'%':>6} {'with calls':>12} {'calls':>9}  function"]
    for row in rows[:most]:
        share = 100 * row.own / max(1, counts.steps)
        found.append(f"{row.own:>12} {share:>6.2f} {row.whole:>12} {row.calls:>9}  {row.name}")
    found += ["", f"{len(rows)} of {len(counts.functions)} functions reached"]
    return "\n".join([*found, ""])


def missed(counts: Counts) -> str:
    """The functions that were not reached, each with its first line."""
    reached = {counts.function_at(address)[0] for address in counts.executions()}
    rows = [(counts.place_at(address), name) for address, name in counts.functions
            if address not in reached]
    return "".join(f"{place_name(place)}: {name}\n" for place, name in rows)


def place_name(place: Place) -> str:
    return f"{file_of(place.line)}:{number_of(place.line)}"
