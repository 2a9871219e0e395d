#!/usr/bin/env python3
"""Runs single steps that an emulator recorded, over the library for C.

    tools/vectors.py FILE..

Each case is run as a step, as a run of one step and as a traced one. Each case that differs gives a
line: its number, its name and what differs, ours first. The last line is `N passed, M failed`. The
status is 1 where a case failed, and 2 where a line is malformed. TOMBOLOPAN names the library.

A file has an item a line, its words separated by one space, numbers in hexadecimal unless stated
otherwise. First the map of all cases, `page PAGE COUNT LETTERS`: the number of the first page (its
address divided by 4096), how many (decimal), and R, W, X, T for read, write, execute, tagged. Then
the cases:

- `case ID NAME`, ID decimal, begins one. What is before the step follows: `word W` at the program
  counter; `x N V`, N decimal (a register that is not named holds 0xd00dNN0000beefNN, NN its
  number); `sp V`; `pc V`; `nzcv V`; `rgsr TAG SEED`; `granule ADDRESS BYTES TAG`. All other bytes
  and tags are 0.
- `then next`, `then illegal`, `then break N` (decimal) or `then fault KIND read|write ADDRESS PTR
  MEM` (KIND 1 Translation, 2 Permission, 3 TagCheck, 4 Alignment, 5 SpAlignment, 6 PcAlignment;
  ADDRESS plain; the address tag and the allocation tag). What is after the step follows; what is
  not named is as before.
"""

import pathlib
import pickle
import re
import sys
from collections.abc import Callable, Iterator, Sequence
from dataclasses import dataclass, field
from typing import Optional

sys.path.insert(0, str(pathlib.Path(__file__).resolve().parents[1] / "examples" / "embed"))
from tombolopan import Attrs, Code, Fault, FaultKind, MappingError, Memory  # noqa: E402
from tombolopan import Regs, Stop, run, step, trace  # noqa: E402

PAGE = 4096
HEX = "([0-9a-f]{1,16})"
TAG = "([0-9a-f])"
FORMS = {
    "page": rf"{HEX} ([0-9]+) ([RWXT]+)",
    "case": r"([0-9]+) (\S+)",
    "word": "([0-9a-f]{1,8})",
    "x": rf"([0-9]|[12][0-9]|30) {HEX}",
    "sp": HEX,
    "pc": HEX,
    "nzcv": TAG,
    "rgsr": f"{TAG} ([0-9a-f]{{1,4}})",
    "granule": f"([0-9a-f]{{1,13}}0) ([0-9a-f]{{32}}) {TAG}",
    "then": "(next|illegal|break [0-9]+|fault [1-6] (?:read|write) [0-9a-f]{16} [0-9a-f] [0-9a-f])",
}
LETTERS = {"R": 1, "W": 2, "X": 4, "T": 8}
Granule = tuple[int, bytes, int]
# A call that runs a step.
Way = Callable[[Memory, Regs], Stop]


class Malformed(Exception):
    """A line that has no form, or no place where it is."""


@dataclass
class State:
    """What is before or after a step."""

    regs: Regs
    granules: list[Granule] = field(default_factory=list)


@dataclass
class Case:
    """A step with its word, what is before it, how it ends, and what is after it."""

    title: str
    before: State
    word: int = 0
    ending: str = ""
    after: Optional[State] = None


def first_registers() -> Regs:
    """The registers of a case that names none."""
    return Regs(x=[0xD00D_0000_00BE_EF00 + at * 0x100_0000_0001 for at in range(31)])


def set_register(regs: Regs, kind: str, words: Sequence[str]) -> None:
    """Sets the register that a line names."""
    if kind == "x":
        regs.x[int(words[0])] = int(words[1], 16)
    elif kind == "rgsr":
        regs.rgsr_tag, regs.rgsr_seed = int(words[0], 16), int(words[1], 16)
    elif kind == "nzcv":
        regs.nzcv = int(words[0], 16) << 28
    else:
        setattr(regs, kind, int(words[0], 16))


def take(case: Case, kind: str, words: Sequence[str]) -> None:
    """Takes a line of a case in."""
    state = case.after or case.before
    if kind == "then" and case.after is None:
        case.ending = words[0]
        case.after = State(case.before.regs.copy())
    elif kind == "word" and case.after is None:
        case.word = int(words[0], 16)
    elif kind == "granule":
        state.granules.append((int(words[0], 16), bytes.fromhex(words[1]), int(words[2], 16)))
    elif kind in ("x", "sp", "pc", "nzcv", "rgsr"):
        set_register(state.regs, kind, words)
    else:
        raise Malformed


def read_line(memory: Memory, cases: list[Case], line: str) -> None:
    """Takes a line in: a page of the map, the head of a case, or a line of the last case."""
    kind, _, rest = line.partition(" ")
    found = re.fullmatch(FORMS.get(kind, "(?!)"), rest)
    if not found or (kind == "page") == bool(cases) and kind != "case":
        raise Malformed
    words = found.groups()
    if kind == "page":
        attrs = sum(LETTERS[letter] for letter in words[2])
        memory.map(int(words[0], 16) * PAGE, int(words[1]) * PAGE, attrs)
    elif kind == "case":
        cases.append(Case(f"{words[0]} {words[1]}", State(first_registers())))
    else:
        take(cases[-1], kind, words)


def put(memory: Memory, granules: Sequence[Granule]) -> None:
    """Puts granules; a page without T has no tag but 0."""
    for address, data, tag in granules:
        memory.load(address, data)
        if tag or memory.load_tag(address):
            memory.store_tags(address, 1, tag)


def ending_of(stop: Stop, word: int) -> str:
    """How a step ended, as a case has it."""
    if stop.code == Code.FAULT and stop.fault is not None:
        it = stop.fault
        kind = it.kind.number if isinstance(it.kind, FaultKind) else 0
        return (f"fault {kind} {'write' if it.write else 'read'} {it.address:016x} "
                f"{it.pointer_tag:x} {it.memory_tag:x}")
    if stop.code == Code.BREAKPOINT:
        return f"break {stop.number}"
    if stop.code == Code.ILLEGAL:
        return "illegal" if stop.number == word else f"illegal {stop.number:x}"
    return "next" if stop.code == Code.OK else str(stop.code)


def granules_of(memory: Memory) -> Iterator[Granule]:
    """Each granule of a memory, with 0 as the tag of one that cannot be read."""
    for region in memory.regions():
        for address in range(region.address, region.address + region.length, 16):
            tag = memory.load_tag(address) if region.attrs & Attrs.READ else 0
            yield address, memory.peek(address, 16), tag


def compare(ours: Memory, theirs: Memory) -> list[str]:
    """The granules that differ."""
    if pickle.dumps(ours) == pickle.dumps(theirs):
        return []
    pairs = zip(granules_of(ours), granules_of(theirs))
    found = [f"granule {one[0]:x}: {one[1].hex()} {one[2]:x} for {two[1].hex()} {two[2]:x}"
             for one, two in pairs if one != two]
    return found or ["memory"]


def differences(empty: Memory, case: Case, way: Way) -> list[str]:
    """What differs after a case, by one of the calls that run a step."""
    assert case.after is not None
    ours = empty.copy()
    put(ours, case.before.granules)
    ours.load(case.before.regs.pc, case.word.to_bytes(4, "little"))
    theirs = ours.copy()
    put(theirs, case.after.granules)
    regs = case.before.regs.copy()
    ending = ending_of(way(ours, regs), case.word)
    found = [] if ending == case.ending else [f"ending: {ending} for {case.ending}"]
    if regs != case.after.regs:
        found.append(f"registers: {regs} for {case.after.regs}")
    return found + compare(ours, theirs)


WAYS: dict[str, Way] = {
    "step": step,
    "run": lambda memory, regs: run(memory, regs, 1),
    "trace": lambda memory, regs: trace(memory, regs, 1, []),
}


def read_file(path: pathlib.Path) -> tuple[Memory, list[Case]]:
    """The map of a file without its cases, and the cases."""
    memory, cases = Memory(), list[Case]()
    for number, line in enumerate(path.read_text(encoding="ascii").splitlines(), 1):
        try:
            read_line(memory, cases, line)
        except (Malformed, MappingError):
            raise Malformed(f"{path}: line {number} is malformed") from None
    if not all(case.after for case in cases):
        raise Malformed(f"{path}: a case has no `then`")
    return memory, cases


def run_file(path: pathlib.Path) -> tuple[int, int]:
    """Runs the cases of a file; how many passed and failed."""
    memory, cases = read_file(path)
    failed = 0
    for case in cases:
        try:
            found = [f"{name}: {it}" for name, way in WAYS.items()
                     for it in differences(memory, case, way)]
        except (Fault, MappingError) as error:
            raise Malformed(f"{path}: case {case.title}: {error}") from None
        failed += bool(found)
        if found:
            print(f"{case.title}: {'; '.join(found)}")
    return len(cases) - failed, failed


def main() -> int:
    """Runs the files that are named."""
    paths = [pathlib.Path(it) for it in sys.argv[1:]]
    if not paths or any(str(it).startswith("-") for it in paths):
        print(__doc__)
        return 2
    try:
        counts = [run_file(it) for it in paths]
    except (Malformed, OSError, UnicodeDecodeError) as error:
        print(f"vectors.py: {error}", file=sys.stderr)
        return 2
    passed, failed = (sum(it) for it in zip(*counts))
    print(f"{passed} passed, {failed} failed")
    return 1 if failed else 0


if __name__ == "__main__":
    sys.exit(main())
