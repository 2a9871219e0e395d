"""A script of mte_host as events, and the scripts of some of its tenants alone."""

import re
from collections.abc import Iterable, Iterator, Sequence
from dataclasses import dataclass, field

MOST_EVENTS = 10_000
MOST_STEPS = 1 << 20
# A line is looked for by the end of the one before it: by `^` it takes twice as long.
STEPS = re.compile(rb"\n *slice +[0-9]+ +([0-9]{1,10}) *$", re.M)
# A slice of 1,000 steps or more; without one no script allows more than 9,990,000.
THOUSANDS = re.compile(rb"slice +[0-9]+ +[0-9]{4}")
SLICE = re.compile(rb"^( *slice +[0-9]+ +)([0-9]{1,10}) *$", re.M)


def words_of(line: bytes) -> list[bytes]:
    """The words of a line; none where it is no event."""
    return [] if line.startswith(b"#") else [it for it in line.split(b" ") if it]


def events_of(script: bytes) -> Iterator[tuple[int, list[bytes]]]:
    """The events of a script without faulty lines: their numbers, from 1, and their words."""
    return enumerate(filter(None, map(words_of, script.split(b"\n"))), 1)


def count_events(script: bytes) -> int:
    """How many events a script has."""
    return sum(1 for _ in events_of(script))


def allowed_steps(script: bytes) -> int:
    """How many steps the slices of a script allow, the refused ones too."""
    return sum(map(int, STEPS.findall(b"\n" + script)))


def may_be_long(script: bytes) -> bool:
    """Whether a script may allow 10 million steps: a first look, which is cheap."""
    return THOUSANDS.search(script) is not None


def without_steps(script: bytes) -> bytes:
    """A script of which no slice has a step. It has the same faulty line, and the host refuses the
    same events: no step decides what is refused (`decisions_need_no_steps`)."""
    return SLICE.sub(without_its_steps, script)


def without_its_steps(found: re.Match[bytes]) -> bytes:
    """A slice without a step; one that allows too many, and so is faulty, as it is."""
    return found[0] if int(found[2]) > MOST_STEPS else found[1] + b"0"


# What the library takes of a tenant alone: image, input, slices, seed, pages, room, mode.
Terms = tuple[bytes, bytes, list[int], int, int, int, bool]


@dataclass
class Own:
    """The events of a tenant that the host accepts: the words of its admission, the steps of its
    slices, and whether it is stopped."""

    admission: list[bytes]
    slices: list[int] = field(default_factory=list)
    is_stopped: bool = False

    @property
    def steps(self) -> int:
        """How many steps its slices allow."""
        return sum(self.slices)

    @property
    def files(self) -> list[int]:
        """The numbers of its image and its input, from 1; 0 for none."""
        return [int(self.admission[3]), int(self.admission[5])]

    @property
    def pages(self) -> int:
        """How many pages its reservation has."""
        return int(self.admission[9])

    @property
    def charge(self) -> int:
        """How many frames its reservation takes."""
        return 2 * self.pages + 1

    def terms(self, files: Sequence[bytes], further: list[int]) -> Terms:
        """What it is admitted with alone, and its slices, which further ones follow."""
        image, given = ([b"", *files][number] for number in self.files)
        return (image, given, self.slices + further, int(self.admission[7], 16), self.pages,
                int(self.admission[11]), self.admission[12:] == [b"async"])

    def lines(self, image: int, given: int) -> list[bytes]:
        """Its lines of a script whose files have these numbers."""
        words = list(self.admission)
        words[3], words[5] = b"%d" % image, b"%d" % given
        number = self.admission[1]
        return [b" ".join(words), *(b"slice %s %d" % (number, it) for it in self.slices),
                *([b"stop " + number] if self.is_stopped else [])]


def tenants_of(script: bytes, refused: Iterable[int]) -> dict[int, Own]:
    """The tenants that a host admits, in their order, by the numbers of the events that it
    refuses."""
    found: dict[int, Own] = {}
    passed = set(refused)
    for number, words in events_of(script):
        if number in passed:
            continue
        tenant = int(words[1])
        if words[0] == b"admit":
            found[tenant] = Own(words)
        elif words[0] == b"slice":
            found[tenant].slices.append(int(words[2]))
        else:
            found[tenant].is_stopped = True
    return found


@dataclass(frozen=True)
class Part:
    """A session of some tenants of another one: its frames, its script and its files."""

    frames: int
    script: bytes
    files: tuple[bytes, ...]


def part_of(tenants: Sequence[Own], frames: int, files: Sequence[bytes]) -> Part:
    """The session of some tenants, each after the other. All that are not stopped live at its end,
    as they do in the whole session, so they have the frames."""
    numbers = [0, *sorted({number for it in tenants for number in it.files} - {0})]
    lines = [line for it in tenants for line in it.lines(*map(numbers.index, it.files))]
    return Part(min(frames, sum(it.charge for it in tenants)),
                b"".join(b"%s\n" % it for it in lines),
                tuple(files[number - 1] for number in numbers[1:]))
