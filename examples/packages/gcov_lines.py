"""The lines of a package that were executed, by gcov of its native build and by the counts of its
tenants, and the reasons of what differs."""
import bisect
import functools
import os
import pathlib
import re
import subprocess
from collections import Counter, defaultdict
from collections.abc import Container, Iterable, Iterator
from dataclasses import dataclass, field

import packages
from tombolopan_profile import counts as run_counts
from tombolopan_profile import forms

SECONDS = 300
NONE = "-"
STATEMENT = 30  # the most lines of one


@dataclass
class Source:
    """A source file: how often each line was executed, and the lines at which functions begin."""

    lines: dict[int, int] = field(default_factory=dict)
    functions: set[int] = field(default_factory=set)

    def add(self, number: int, count: int) -> None:
        """A line was executed so often once more."""
        self.lines[number] = self.lines.get(number, 0) + count


Sources = dict[str, Source]
Place = tuple[str, int]  # the name of a source and a line


def run_of(folder: pathlib.Path, line: str, words: dict[str, str]) -> Counter[str]:
    """Runs a command; the statuses of its programs."""
    said = folder.parent / f"{folder.name}.statuses"
    said.write_text("")
    packages.shell(line, folder, {**words, "SAID": str(said)}, packages.RUN_SECONDS)
    return Counter(said.read_text().split())


def data_of(folder: pathlib.Path) -> dict[pathlib.Path, bytes]:
    """What gcov has counted."""
    return {path: path.read_bytes() for path in folder.rglob("*.gcda")}


def ran_natively(folder: pathlib.Path, line: str, words: dict[str, str],
                 wanted: Counter[str]) -> str:
    """Runs a command natively. Where it ends as no tenant did, or without gcov's data, what was
    counted is as before, and the reason is said."""
    before = data_of(folder)
    ended = run_of(folder, line, words)
    after = data_of(folder)
    reason = "a program ends otherwise" if ended != wanted else ""
    if any(int(status) > 125 for status in ended) or (after == before and not reason):
        reason = "a native program ends without gcov's data"
    if reason:
        for path in after:
            path.unlink()
        for path, data in before.items():
            path.write_bytes(data)
    return reason


def source_of(name: str, data: pathlib.Path, folder: pathlib.Path) -> str | None:
    """The name of a source below a folder: its path is as the compiler had it, in one of the
    folders above its data. None for that of a library."""
    for start in (data.parent, *data.parents):
        path = pathlib.Path(os.path.normpath(start / name))
        if path.is_file() and path.is_relative_to(folder):
            return str(path.relative_to(folder))
        if start == folder:
            break
    return None


def read_notes(text: str, data: pathlib.Path, folder: pathlib.Path, found: Sources) -> None:
    """Adds what gcov writes in its intermediate format."""
    source: Source | None = None
    for row in text.splitlines():
        kind, _, rest = row.partition(":")
        if kind == "file":
            name = source_of(rest, data, folder)
            source = found[name] if name else None
        elif source and kind == "function":
            source.functions.add(int(rest.split(",")[0]))
        elif source and kind == "lcount":
            number, count = rest.split(",")[:2]
            source.add(int(number), int(count))


def natively(folder: pathlib.Path) -> Sources:
    """The sources of a folder with gcov's notes and data."""
    found: Sources = defaultdict(Source)
    for notes in sorted(folder.rglob("*.gcno")):
        subprocess.run(["llvm-cov", "gcov", "-i", notes.name], cwd=notes.parent, timeout=SECONDS,
                       stdout=subprocess.DEVNULL, stderr=subprocess.DEVNULL, check=False)
        written = notes.with_name(f"{notes.name}.gcov")
        if written.exists():
            read_notes(written.read_text(errors="replace"), notes, folder, found)
    return found


@functools.cache
def name_below(name: str, folder: pathlib.Path) -> str | None:
    """The name of a source below a folder; one not absolute is that of the only such file."""
    path = pathlib.Path(name)
    if path.is_absolute():
        return str(path.relative_to(folder)) if path.is_relative_to(folder) else None
    found = [it for it in folder.rglob(path.name) if str(it).endswith(f"/{name}")]
    return str(found[0].relative_to(folder)) if len(found) == 1 else None


def by_tenants(images: Iterable[run_counts.Counts], folder: pathlib.Path) -> Sources:
    """The sources of a folder by the counts of tenants."""
    found: Sources = defaultdict(Source)
    for counts in images:
        words = forms.words_of(pathlib.Path(counts.image).read_bytes())
        for given, covered in forms.coverage(counts, words).items():
            if name := name_below(given, folder):
                source = found[name]
                source.functions |= {number for number, _ in covered.functions.values()}
                for number, count in covered.lines.items():
                    source.add(number, count)
    return found


# ---- witnesses, by LLVM's tools

CALLGRIND = ["valgrind", "-q", "--tool=callgrind", "--dump-instr=yes", "--compress-strings=no",
             "--compress-pos=no"]


@dataclass
class Witness:
    """The lines of which a first instruction was executed, and those of which any was. A first one
    may be a jump from what is above, and what follows a jump that a compiler counts to the line
    before it."""

    begun: set[Place] = field(default_factory=set)
    touched: set[Place] = field(default_factory=set)

    def add(self, image: pathlib.Path, executed: Iterable[int], folder: pathlib.Path,
            doubtful: Container[int] = ()) -> None:
        """Adds the lines of an image whose sources are in a folder. What is doubtful touches
        none."""
        addresses, lines = table_of(image)
        names = {name: name_below(os.path.normpath(name), folder)
                 for name in {name for name, _ in lines}}
        for address in executed:
            at = bisect.bisect_right(addresses, address) - 1
            if at >= 0 and (name := names[lines[at][0]]):
                if address not in doubtful:
                    self.touched.add((name, lines[at][1]))
                if address == addresses[at]:
                    self.begun.add((name, lines[at][1]))


def table_of(image: pathlib.Path) -> tuple[list[int], list[Place]]:
    """The addresses from which on the line of an image is another one, and the lines."""
    rows = re.findall(r"^0x[0-9a-f]{16}", told("llvm-dwarfdump", "--debug-line", str(image)), re.M)
    text = told("llvm-symbolizer", "--no-inlines", "--functions=none", f"--obj={image}",
                given="".join(f"{row}\n" for row in sorted(set(rows))))
    addresses: list[int] = []
    lines: list[Place] = []
    for row, place in zip(sorted(set(rows)), text.split("\n\n")):
        name, number, _ = place.strip().rsplit(":", 2)
        if lines[-1:] != [(name, int(number))]:
            addresses.append(int(row, 16))
            lines.append((name, int(number)))
    return addresses, lines


def told(*words: str, given: str = "") -> str:
    """What a tool writes."""
    return subprocess.run(words, input=given, stdout=subprocess.PIPE, text=True, timeout=SECONDS,
                          check=True).stdout


def by_callgrind(files: Iterable[pathlib.Path], folder: pathlib.Path) -> Witness:
    """The lines of native programs in a folder, by what callgrind wrote of their runs."""
    executed: dict[str, set[int]] = defaultdict(set)
    for file in files:
        program = ""
        for row in file.read_text(errors="replace").splitlines():
            if row.startswith("ob="):
                program = row[3:]
            elif row.startswith("0x"):
                executed[program].add(int(row.split()[0], 16))
    found = Witness()
    for name, addresses in executed.items():
        if pathlib.Path(name).is_relative_to(folder):
            found.add(pathlib.Path(name), addresses, folder)
    return found


def by_llvm(images: Iterable[run_counts.Counts], folder: pathlib.Path) -> Witness:
    """The lines of tenants, by the instructions that were attempted. Jumps, constants and what is
    on the stack may be another line's."""
    found = Witness()
    for counts in images:
        image, executed = pathlib.Path(counts.image), counts.executions()
        words = forms.words_of(image.read_bytes())
        found.add(image, executed, folder, {
            at for at in executed if forms.is_jump(words[at]) or forms.is_value(words[at])
            or forms.is_on_stack(words[at])})
    return found


# ---- reasons

BRACE = "a function's first line, which is that of its brace in a tenant"
LEFT_OUT = "a function that one of the two builds left out"
CONDITIONAL = "lines of the preprocessor's other branch"
NO_CODE = "a line without an instruction of its own"
ARGUMENT = "a line of arguments, which a macro of one of the C libraries has in its first line"
ATTRIBUTED = "a line of which callgrind says natively what the tenant's counts say, and gcov not"
RUNS = "a line at which the runs differ: callgrind says natively what gcov says"
JUMP = "a line that the counts alone have, by a constant behind a jump that was not reached"
MIDDLE = "a line that was entered behind its first instruction, which ends the condition above it"
CONDITION = re.compile(r"\s*#\s*(if|el|endif)")


def groups_of(text: list[str]) -> dict[int, int]:
    """For each line the line of the preprocessor's condition that it is below, 0 for none."""
    found: dict[int, int] = {}
    above = [0]
    for number, line in enumerate(text, start=1):
        condition = CONDITION.match(line)
        if condition and condition[1] != "if" and len(above) > 1:
            above.pop()
        if condition and condition[1] != "endif":
            above.append(number)
        found[number] = above[-1]
    return found


@dataclass
class Compared:
    """A source file by gcov and by a tenant, with its text."""

    theirs: Source
    mine: Source
    text: list[str]

    def __post_init__(self) -> None:
        self.starts = sorted(self.theirs.functions)
        self.groups = groups_of(self.text)
        self.shared = self.theirs.lines.keys() & self.mine.lines.keys()
        self.shared_functions = {self.function_of(number) for number in self.shared}
        self.shared_groups = {self.groups.get(number, 0) for number in self.shared}

    def function_of(self, number: int) -> int:
        """The first line of the function that a line is in."""
        at = bisect.bisect_right(self.starts, number)
        return self.starts[at - 1] if at else 0

    def is_brace(self, number: int) -> bool:
        """Whether a function's code begins in this line, or it is the function's first line and its
        code begins below."""
        if number in self.mine.functions:
            return number not in self.theirs.lines
        below = min((it for it in self.mine.lines if it > number), default=0)
        return number in self.theirs.functions and below in self.mine.functions

    def is_argument(self, number: int) -> bool:
        """Whether a line begins within parentheses."""
        before = "\n".join(self.text[max(0, number - STATEMENT):number - 1])
        statement = re.split(r"[;{}]", before)[-1]
        return statement.count("(") > statement.count(")")

    def reason(self, number: int) -> str:
        """Why a line differs, or nothing."""
        if number in self.shared:
            return ""
        if self.is_brace(number):
            return BRACE
        if self.function_of(number) not in self.shared_functions:
            return LEFT_OUT
        if self.groups.get(number, 0) not in self.shared_groups:
            return CONDITIONAL
        if number in self.theirs.lines:
            return NO_CODE
        return ARGUMENT if self.is_argument(number) else ""

    def differing(self) -> Iterator[int]:
        """The lines that one has alone, or that were executed by one alone."""
        mine, theirs = self.mine.lines, self.theirs.lines
        for number in sorted(mine.keys() | theirs.keys()):
            if number not in self.shared or (mine[number] > 0) != (theirs[number] > 0):
                yield number


@dataclass
class Difference:
    """What differs of a package's lines: how many were compared, how many by each reason, and those
    without one: by file and line what a tenant and gcov say, and the text."""

    lines: int = 0
    reasons: Counter[str] = field(default_factory=Counter)
    unexplained: dict[Place, str] = field(default_factory=dict)
    doubtful: dict[Place, bool] = field(default_factory=dict)  # whether a tenant executed it

    def settle(self, native: Witness, tenant: Witness) -> None:
        """Gives reasons to lines that both have."""
        for place, is_executed in sorted(self.doubtful.items()):
            reason = (why_executed if is_executed else why_not)(place, native, tenant)
            if reason:
                del self.unexplained[place]
                self.reasons[reason] += 1


def why_executed(place: Place, native: Witness, tenant: Witness) -> str:
    """Why a tenant's counts have a line that gcov has not, if that is known."""
    is_sure = place in tenant.begun or place in tenant.touched
    if place in native.begun and is_sure:
        return ATTRIBUTED
    if place in native.touched:
        return ""
    return RUNS if is_sure else JUMP


def why_not(place: Place, native: Witness, tenant: Witness) -> str:
    """Why a tenant's counts have a line not that gcov has, if that is known. A line with `||` in
    front may begin with the last comparison of the one before, over which a run jumps."""
    if place in tenant.begun:
        return ""
    if place in tenant.touched:
        return MIDDLE if place in native.touched else ""
    if place in native.begun:
        return RUNS
    return "" if place in native.touched else ATTRIBUTED


def difference(theirs: Sources, mine: Sources, folder: pathlib.Path) -> Difference:
    """Compares the files that both have."""
    found = Difference()
    for name in sorted(theirs.keys() & mine.keys()):
        text = (folder / name).read_text(encoding="utf-8", errors="replace").split("\n")
        both = Compared(theirs[name], mine[name], text)
        found.lines += len(theirs[name].lines.keys() | mine[name].lines.keys())
        reasons = {number: both.reason(number) for number in both.differing()
                   if number <= len(text)}
        found.reasons.update(reason for reason in reasons.values() if reason)
        found.unexplained |= {
            (name, number): f"{name}:{number}: a tenant {both.mine.lines.get(number, NONE)}, gcov "
            f"{both.theirs.lines.get(number, NONE)}: {text[number - 1].strip()[:60]}"
            for number, reason in reasons.items() if not reason}
        found.doubtful |= {(name, number): both.mine.lines[number] > 0
                           for number in reasons.keys() & both.shared if not reasons[number]}
    return found
