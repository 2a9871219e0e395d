"""The check of the border to C over texts that a test has changed, and changes of such texts."""

import functools
import re
from collections.abc import Callable, Iterator

from border_to_c import compare

from tests.support.places import ROOT

FOLDERS = [ROOT / it for it in compare.FOLDERS]
HEADER = "include/tombolopan.h"
RUST = "examples/embed/tombolopan.rs"
PYTHON = "examples/embed/tombolopan/abi.py"
CODES = "crates/tombolopan_c/src/codes.rt"
Changed = tuple[str, str]  # a path and its text


@functools.cache
def text_of(path: str) -> str:
    """The text of a file of the repository."""
    return (ROOT / path).read_text(encoding="utf-8")


@functools.cache
def crate_files() -> list[str]:
    """The sources of the border's crates."""
    return sorted(str(it.relative_to(ROOT)) for folder in FOLDERS for it in folder.glob("*.rt"))


def differences(*changed: Changed) -> list[str]:
    """What the check says where these files have these texts."""
    texts = dict(changed)
    return compare.differences(lambda path: texts.get(path) or text_of(path), crate_files())


def file_with(words: str) -> str:
    """The file of the crate that has these words."""
    found = [it for it in crate_files() if words in text_of(it)]
    assert len(found) == 1, f"{words}: {found}"
    return found[0]


def exchanged(text: str, one: tuple[int, int], other: tuple[int, int]) -> str:
    """The text with two of its parts exchanged."""
    (a, b), (c, d) = sorted([one, other])
    return text[:a] + text[c:d] + text[b:c] + text[a:b] + text[d:]


def neighbours(path: str, begin: str, end: str, item: str) -> Iterator[tuple[str, Changed]]:
    """The text with each two neighbours exchanged among the items between two words.

    The last is exchanged with the first too, so that each place meets a farther one.
    """
    text = text_of(path)
    start = text.index(begin) + len(begin)
    stop = text.index(end, start)
    found = list(re.compile(item, re.M).finditer(text, start, stop))
    pairs = list(zip(found, found[1:])) + ([(found[0], found[-1])] if len(found) > 2 else [])
    for one, other in pairs:
        if one[0] != other[0]:
            new = exchanged(text, one.span(), other.span())
            yield f"{path}: {one[0]} and {other[0]}", (path, new)


def replaced(path: str, old: str, new: str) -> Changed:
    """The text with the one place that a pattern finds replaced."""
    text, count = re.subn(old, new, text_of(path), flags=re.M)
    assert count == 1, f"{path}: {old} stands there {count} times"
    return path, text


def each_replaced(path: str, pattern: str, new: Callable[[re.Match[str]], str],
                  begin: str = "", end: str = "") -> Iterator[tuple[str, Changed]]:
    """The text with each place that a pattern finds between two words replaced in turn."""
    text = text_of(path)
    start = text.index(begin) if begin else 0
    stop = text.index(end, start) if end else len(text)
    for it in re.compile(pattern, re.M).finditer(text, start, stop):
        yield f"{path}: {it[0].strip()}", (path, text[: it.start()] + new(it) + text[it.end() :])
