"""Lines for the programs that make the library's calls, and answers as they have to write them."""

from collections.abc import Iterable
from dataclasses import dataclass

ALL = ("c", "rust", "python")
# Accesses that compare no tags, stores of tags that clear bytes: tombolopan.rs has none of them.
NOT_RUST = ("c", "python")
C = ("c",)
NO_FAULT = (0, 0, 0, 0, 0)


@dataclass(frozen=True)
class Line:
    """A line, its answer, and the languages whose programs know it."""

    text: str
    answer: str
    languages: tuple[str, ...] = ALL


def told(*values: object) -> str:
    """Numbers in hexadecimal digits, and texts as they are, each behind a blank."""
    return "".join(f" {it:x}" if isinstance(it, int) else f" {it}" for it in values)


def line(text: str, *values: object, languages: tuple[str, ...] = ALL) -> Line:
    """A line whose answer is these values."""
    return Line(text, f"{text.split()[0]}:{told(*values)}", languages)


def hexed(data: bytes) -> str:
    """Bytes as a word of a line."""
    return data.hex() or "-"


def words(values: Iterable[object]) -> str:
    """Values as words of a line."""
    return " ".join(str(it) for it in values)


def program(*instructions: int) -> bytes:
    """Instructions as the bytes of a page."""
    return b"".join(it.to_bytes(4, "little") for it in instructions)


def weighed(data: bytes) -> int:
    """The sum of bytes that a place is told with."""
    return sum(byte * at for at, byte in enumerate(data, 1))
