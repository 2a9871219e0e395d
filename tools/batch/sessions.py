"""Sessions: where they are, what they read, and the key of what they read."""

import hashlib
import os
import pathlib
import re
from collections.abc import Callable, Iterator
from dataclasses import dataclass, field

from batch.answers import READ, Answer, Reply, is_of_bytes
from batch.reports import blocks_of

WANTED = ("out", "err", "status", "output")
# What a table has before a file with output, not a report.
OUTPUT = "output:"
FRAMES = range(1, 65537)
# Changes where the way in which keys are made changes.
KIND = b"a session of Tombolopan, 1"


class BadList(Exception):
    """A folder or a table that has no list of sessions, and why."""


@dataclass(frozen=True)
class Place:
    """Where a session is: its name, the folder in which its words are read, and its words and what
    is wanted, where a table has them."""

    name: str
    folder: str
    words: tuple[str, ...] = ()
    want: str = ""


@dataclass(frozen=True)
class Job:
    """What decides a report, and its sum. A part of a session has the tenants whose lines these
    are. With a total, of steps (further.py) or of work (effort.py), it asks for the slices that
    lead the only tenant on to it. What is passing is no session of the user's, so it is not
    kept."""

    key: str
    frames: int
    script: bytes
    files: tuple[bytes, ...]
    tenants: tuple[int, ...] = ()
    total: int = 0
    is_of_work: bool = False
    is_passing: bool = False

    def is_answered_by(self, answer: Answer) -> bool:
        """Whether an answer may be that of this job."""
        if not is_of_bytes(answer):
            return False
        return not self.tenants or tuple(blocks_of(answer.out)) == self.tenants


@dataclass
class Session:
    """A session that was read: a job; or an answer without one, where a file cannot be read; or
    what is wrong with its words. One that was made of another gives its answer to `taken`, with how
    that came. `script` is that of tenants
    which were led on, and `beyond` why none has room for that."""

    name: str
    job: Job | None = None
    answer: Answer | None = None
    wrong: str = ""
    wanted: dict[str, bytes] = field(default_factory=dict)
    taken: Callable[[Reply, str], None] | None = None
    script: bytes = b""
    beyond: str = ""


def read_bytes(folder: str, name: str) -> bytes:
    """All bytes of a file."""
    with open(os.path.join(folder, name), "rb") as file:
        return file.read()


def places_of_folder(top: pathlib.Path) -> Iterator[Place]:
    """The folders with a file `args` within a folder, in the order of their names."""
    for folder, inner, files in os.walk(top):
        inner.sort()
        if "args" in files:
            yield Place(os.path.relpath(folder, top), folder)


def places_of_table(table: pathlib.Path) -> Iterator[Place]:
    """The lines of a table: name, frames, what is wanted (`-`, or the file with the report, or
    `output:` and the file with the output), script and files, with tabs between them. Files are
    named from the table's folder."""
    for number, line in enumerate(table.read_text(encoding="utf-8").splitlines(), 1):
        if not line or line.startswith("#"):
            continue
        name, *rest = line.split("\t")
        if len(rest) < 3:
            raise BadList(f"{table}:{number}: it is not name, frames, what is wanted, script "
                          "and files, with tabs between them")
        words = ("--frames", rest[0], *rest[2:])
        yield Place(name, str(table.parent), words, "" if rest[1] == "-" else rest[1])


def places_of(path: pathlib.Path) -> list[Place]:
    """The sessions of a folder or a table, each under a name of its own."""
    if not path.exists():
        raise BadList(f"{path} is not there")
    found = list(places_of_folder(path) if path.is_dir() else places_of_table(path))
    names = [it.name for it in found]
    if len(set(names)) != len(names):
        twice = next(it for it in sorted(names) if names.count(it) > 1)
        raise BadList(f"{path}: two sessions are named {twice}")
    if not found:
        raise BadList(f"{path} has no sessions")
    return found


def share_of(places: list[Place], number: int, count: int) -> list[Place]:
    """Every `count`th session, from the `number`th on."""
    return places[number - 1::count]


def make_key(program: str, words: tuple[str, ...], contents: list[bytes]) -> str:
    """The sum of a program's sum, the words and the contents of the files, in their order."""
    total = hashlib.sha256(KIND)
    named = "\0".join(words).encode(errors="surrogateescape")
    for part in (program.encode(), named, *contents):
        total.update(len(part).to_bytes(8, "little"))
        total.update(part)
    return total.hexdigest()


def wanted_of(place: Place, names: set[str]) -> dict[str, bytes]:
    """What is wanted of a session."""
    if place.want.startswith(OUTPUT):
        return {"output": read_bytes(place.folder, place.want.removeprefix(OUTPUT))}
    if place.want:
        return {"out": read_bytes(place.folder, place.want)}
    return {part: read_bytes(place.folder, f"want.{part}") for part in WANTED
            if f"want.{part}" in names}


def words_of(place: Place) -> tuple[str, ...]:
    """The words of a session: of its table, or of the file `args`, one a line."""
    if place.words:
        return place.words
    text = read_bytes(place.folder, "args").decode(errors="surrogateescape")
    return tuple(text.removesuffix("\n").split("\n"))


def wrong_words(words: tuple[str, ...]) -> str:
    """What is wrong with the words of a session; empty where nothing is."""
    if len(words) < 3 or words[0] != "--frames":
        return "its words are not --frames N SCRIPT FILE..."
    if not re.fullmatch(r"[0-9]{1,9}", words[1]) or int(words[1]) not in FRAMES:
        return f"its frames are not 1 to {FRAMES[-1]}: {words[1]}"
    option = next((it for it in words[2:] if it.startswith("-") or not it), None)
    return "" if option is None else f"it names a file that is an option, or empty: {option!r}"


def read_session(place: Place, program: str) -> Session:
    """Reads a session. What it reads is read once, so that the key is that of what is run."""
    found = Session(place.name)
    try:
        names = set() if place.words else set(os.listdir(place.folder))
        found.wanted = wanted_of(place, names)
        words = words_of(place)
    except OSError as error:
        found.wrong = f"cannot read {error.filename}: {error.strerror}"
        return found
    found.wrong = wrong_words(words)
    if found.wrong:
        return found
    contents: list[bytes] = []
    for name in words[2:]:
        try:
            contents.append(read_bytes(place.folder, name))
        except OSError:
            said = f"mte_host: cannot read {name}\n".encode(errors="surrogateescape")
            found.answer = Answer(READ, b"", said)
            return found
    key = make_key(program, words, contents)
    found.job = Job(key, int(words[1]), contents[0], tuple(contents[1:]))
    return found
