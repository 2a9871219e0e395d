"""Types, structs and calls as all languages of the border have them."""

from collections.abc import Iterable
from dataclasses import dataclass, replace

SCALARS = {"u8": 1, "u16": 2, "u32": 4, "u64": 8, "usize": 8, "bool": 1}


class BorderError(Exception):
    """A text that the tool can't read, with its place."""


@dataclass(frozen=True)
class Kind:
    """A type: a scalar or a struct of C, how many in an array, and how it is pointed to.

    `pointer` is "" for a value, "const" or "mut" for a pointer, and "any" for one of Python, which
    says neither. `name` is "void" where nothing is said of what is pointed to, or returned.
    """

    name: str
    count: int = 0
    pointer: str = ""

    def __str__(self) -> str:
        array = f"[{self.count}]" if self.count else ""
        return f"{self.pointer + ' *' if self.pointer else ''}{self.name}{array}"

    def fits(self, found: "Kind") -> bool:
        """Whether a type of another language is this one, as far as that language tells."""
        if found.pointer == "any" and self.pointer:
            return found.name in ("void", self.name)
        return self == found


@dataclass(frozen=True)
class Place:
    """A field of a struct or an argument of a call."""

    name: str
    kind: Kind


Struct = tuple[Place, ...]


@dataclass(frozen=True)
class Call:
    """A call's arguments, in order, and its result."""

    places: tuple[Place, ...]
    result: Kind


@dataclass(frozen=True)
class Border:
    """What a language declares: its numbers, its structs and its calls."""

    numbers: dict[str, int]
    structs: dict[str, Struct]
    calls: dict[str, Call]


def renamed(struct: Iterable[Place], names: dict[str, str]) -> Struct:
    """The same places, their structs by the names that C has for them."""
    return tuple(
        replace(it, kind=replace(it.kind, name=names.get(it.kind.name, it.kind.name)))
        for it in struct
    )


def alignment(kind: Kind, structs: dict[str, Struct]) -> int:
    """The address of such a value is a multiple of this."""
    if kind.pointer:
        return 8
    if kind.name in SCALARS:
        return SCALARS[kind.name]
    return max(alignment(it.kind, structs) for it in structs[kind.name])


def size(kind: Kind, structs: dict[str, Struct]) -> int:
    """How many bytes such a value has."""
    if kind.pointer:
        return 8
    one = SCALARS.get(kind.name) or layout(kind.name, structs)[1]
    return one * (kind.count or 1)


def layout(name: str, structs: dict[str, Struct]) -> tuple[list[int], int]:
    """The offset of each field, and the size of the struct, by C's rules for x86-64 and AArch64."""
    at, offsets = 0, []
    for it in structs[name]:
        step = alignment(it.kind, structs)
        at = -(-at // step) * step
        offsets.append(at)
        at += size(it.kind, structs)
    step = alignment(Kind(name), structs)
    return offsets, -(-at // step) * step
