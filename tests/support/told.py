"""What mte_run tells of a tenant, read into values."""

import os
import pathlib
import re
from collections.abc import Sequence
from dataclasses import dataclass, field
from typing import Optional

from tests.support.acts import Act
from tests.support.places import IMAGES
from tests.support.running import Ran, run

FRAME = re.compile(
    r" +#(\d+) (\S+?|.+?\+0x[0-9a-f]+|.+?(?= at \S+ \(inlined\)))"
    r"(?: at (\S+):(\d+))?( \(inlined\))?"
    r"( \(x30, may be old\))?$"
)
# What is said of an exit after a request for more than a chunk may have.
REFUSED_REQUEST = re.compile(r"mte_run: a request of \d+ bytes was refused: .*\n")
# What is said of a clean exit where chunks had bytes past their size.
UNSEEN = (
    "mte_run: no tag differed; a tag is that of 16 bytes, so up to 15 bytes past a chunk's size "
    "are compared by --exact alone"
)
CALL = re.compile(r"  (allocated|freed) by call (\d+), (.*) = (0x[0-9a-f]+), step (\d+)$")
STORE = re.compile(
    r"  the (?:return address|target) at 0x[0-9a-f]{16} was last written by .*, step (\d+)$")
YOUNG = re.compile(r"  its block was given again, as the (\d+)-byte allocation at (0x[0-9a-f]+):$")
PLACE = re.compile(r"(0x[0-9a-f]{16}) is in (.*)$")
TAGS = re.compile(r"tags from (0x[0-9a-f]+), of 16 bytes each: (.*)$")
REGISTER = re.compile(r"  (x\d{1,2}|sp|pc) +([0-9a-f]{16})(?!\w)")
PAGES = re.compile(r"  (0x[0-9a-f]{8}) to (0x[0-9a-f]{8})  ([rwxt-]{4})  (.*)$")
LEAK = re.compile(r"  (\d+) chunks?, (\d+) bytes, the first by call (\d+)(?:, in .*)?$")


@dataclass(frozen=True)
class Frame:
    """A line of a list of calls, and those above it of functions that were inlined there, the
    innermost first."""

    label: str
    file: Optional[str]
    line: Optional[int]
    may_be_old: bool
    inlined: tuple["Frame", ...] = ()

    @property
    def function(self) -> Optional[str]:
        """The name of its symbol, where it has one."""
        return self.label.rpartition("+")[0] or None

    @property
    def offset(self) -> int:
        """How far it is from its symbol, or its address where it has none."""
        return int(self.label.rpartition("+")[2], 16)


@dataclass
class TellingOfCall:
    """A heap call that made or freed a chunk, and the calls that led to it."""

    did: str
    number: int
    text: str
    result: int
    step: int
    frames: list[Frame] = field(default_factory=list)


@dataclass
class Leak:
    """A place where chunks were made that are live at the end."""

    chunks: int
    size: int
    first: int
    frames: list[Frame] = field(default_factory=list)


@dataclass
class Told:
    """A report of mte_run."""

    first: str = ""
    end: list[Frame] = field(default_factory=list)
    cause: Optional[str] = None
    hints: list[str] = field(default_factory=list)
    calls: list[TellingOfCall] = field(default_factory=list)
    young: Optional[str] = None
    store_step: Optional[int] = None
    store: list[Frame] = field(default_factory=list)
    place: str = ""
    tags_from: int = 0
    tags: list[str] = field(default_factory=list)
    instruction: str = ""
    last: list[str] = field(default_factory=list)
    turns: list[str] = field(default_factory=list)
    registers: dict[str, int] = field(default_factory=dict)
    flags: str = ""
    generator: tuple[int, int] = (0, 0)
    pages: list[tuple[int, int, str, str]] = field(default_factory=list)
    symbolizer: list[str] = field(default_factory=list)
    leaks: list[Leak] = field(default_factory=list)
    live: str = ""
    statistics: dict[str, int] = field(default_factory=dict)
    final: str = ""

    @property
    def own_tag(self) -> Optional[str]:
        """The tag in brackets."""
        own = [tag[1:-1] for tag in self.tags if tag.startswith("[")]
        return own[0] if own else None


def input_file(folder: pathlib.Path, text: str) -> pathlib.Path:
    """A file with an input. It is whole when it has its name, since workers share the folder."""
    path = folder / f"input-{text.encode().hex()}"
    part = folder / f"{path.name}.{os.getpid()}"
    part.write_text(text, encoding="utf-8")
    return part.rename(path)


def explain(
    alone: pathlib.Path, act: Act, build: str, folder: pathlib.Path, *options: str,
    images: pathlib.Path = IMAGES,
) -> Ran:
    """Runs an act alone. Its image is named as it is in the folder of the images; the input comes
    into the other folder."""
    words: Sequence[str] = (
        str(alone), "--input", str(input_file(folder, act.input)), *act.options, *options,
        f"{act.source}.{build}.elf",
    )
    return run(words, cwd=images)


def read_told(text: str) -> Told:
    """The values of what was written to standard error."""
    told, frames, inlined = Told(), [], []  # type: tuple[Told, list[Frame], list[Frame]]
    section = ""
    for line in text.splitlines():
        section = section_of(line, section)
        found = FRAME.match(line)
        if found:
            _, label, file, number, is_inlined, old = found.groups()
            line_number = int(number) if number else None
            if is_inlined:
                inlined.append(Frame(label, file, line_number, bool(old)))
            else:
                frames.append(Frame(label, file, line_number, bool(old), tuple(inlined)))
                inlined = []
            continue
        frames = read_line(told, line, section, frames)
    return told


def section_of(line: str, section: str) -> str:
    """The list that a line belongs to, by the lines above it."""
    if line.startswith("the last instructions:"):
        return "last"
    if line.startswith("the last calls and returns:"):
        return "turns"
    return section if line.startswith("   ") else ""


def read_line(told: Told, line: str, section: str, frames: list[Frame]) -> list[Frame]:
    """Reads a line that is no frame; returns the list that the frames below it go to."""
    if section and line.startswith("   "):
        (told.last if section == "last" else told.turns).append(line)
        return frames
    if line == UNSEEN:
        return frames
    if line.startswith("mte_run: ended by") or line.startswith("mte_run: exited with"):
        told.final = line
    elif line.startswith("mte_run: ") and not line.startswith("mte_run: statistics"):
        told.first = told.first or line[len("mte_run: "):]
        return told.end
    elif line.startswith("Cause: "):
        told.cause = line[len("Cause: "):]
    else:
        return read_rest(told, line, frames)
    return frames


def read_rest(told: Told, line: str, frames: list[Frame]) -> list[Frame]:
    """The same for lines of heap calls and leaks."""
    if found := CALL.match(line):
        did, number, text, result, step = found.groups()
        call = TellingOfCall(did, int(number), text, int(result, 16), int(step))
        told.calls.append(call)
        return call.frames
    if found := LEAK.match(line):
        leak = Leak(int(found[1]), int(found[2]), int(found[3]))
        told.leaks.append(leak)
        return leak.frames
    if found := STORE.match(line):
        told.hints.append(line[2:])
        told.store_step = int(found[1])
        return told.store
    if YOUNG.match(line):
        told.young = line
    elif line.startswith("live at the end: "):
        told.live = line
    else:
        read_machine(told, line)
    return frames


def read_machine(told: Told, line: str) -> None:
    """The same for lines of memory, registers and numbers."""
    if found := PLACE.match(line):
        told.place = line
    elif found := TAGS.match(line):
        told.tags_from, told.tags = int(found[1], 16), found[2].split()
    elif line.startswith("instruction at "):
        told.instruction = line
    elif found := PAGES.match(line):
        told.pages.append((int(found[1], 16), int(found[2], 16), found[3], found[4]))
    elif line.startswith("llvm-symbolizer "):
        told.symbolizer = line.split()
    elif found := re.match(r"  generator: tag (0x[0-9a-f]), seed (0x[0-9a-f]+)$", line):
        told.generator = (int(found[1], 16), int(found[2], 16))
    elif found := re.match(r"  (\S[a-z_ ]*?) {2,}(\d+)(?: of (\d+))?$", line):
        told.statistics[found[1]] = int(found[2])
        if found[3]:
            told.statistics["reserved"] = int(found[3])
    elif REGISTER.search(line):
        told.registers.update({name: int(value, 16) for name, value in REGISTER.findall(line)})
        told.flags = line.split()[-1] if "flags" in line else told.flags
    elif re.match(r"  (jumped by|x\d+ was loaded|the newest call|\(older)", line):
        told.hints.append(line[2:])
