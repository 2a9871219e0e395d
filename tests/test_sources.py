"""What a reader of the sources in Rattle may count on: a type has one name, functions take few
arguments, what several functions ask of numbers is one condition, and no file is empty."""

import functools
import re
from collections import Counter, defaultdict

from tests.support.checkout import tracked_files
from tests.support.places import ROOT

# Functions of seven parameters or more: an interface that a standard or the language fixes, or
# borrows of which each is a part of its own.
MANY_PARAMETERS = 7
# Requirements that are one comparison of numbers.
RANGES = 401

COMPARISON = re.compile(r"[^≡→×⊎λ(){}]*?[<≤≢][^≡→×⊎λ{}]*")


@functools.cache
def sources() -> dict[str, str]:
    """Each source file of the crates, without comments."""
    names = [it for it in tracked_files() if re.fullmatch(r"crates/\w+/src/.*\.rt", it)]
    return {it: re.sub(r"//[^\n]*", "", (ROOT / it).read_text(encoding="utf-8")) for it in names}


def closing(text: str, start: int) -> int:
    """Where the bracket that is open at a place is closed."""
    depth = 1
    for at in range(start, len(text)):
        depth += (text[at] in "([{") - (text[at] in ")]}")
        if depth == 0:
            return at
    raise AssertionError("a bracket is not closed")


def parameter_count(text: str) -> int:
    """How many parameters a list has: the commas outside brackets part them."""
    depth, parts = 0, [""]
    for before, mark in zip(" " + text, text):
        opens = mark in "([{<"
        closes = mark in ")]}" or (mark == ">" and before != "-")
        depth += opens - closes
        if mark == "," and depth == 0:
            parts.append("")
        else:
            parts[-1] += mark
    return sum(bool(it.strip()) for it in parts)


def parameters() -> dict[str, int]:
    """The functions, by file and name, with their numbers of parameters."""
    found = {}
    for name, text in sources().items():
        for it in re.finditer(r"\bfn\s+([a-z_0-9]+)\s*(?:<[^(]*?>)?\s*\(", text):
            inside = text[it.end():closing(text, it.end())]
            found[f"{name}: {it[1]}"] = parameter_count(inside)
    return found


def requirements() -> list[str]:
    """The conditions that functions ask for."""
    found = []
    for text in sources().values():
        for it in re.finditer(r"\brequires\b\s*\*?\s*[a-z_0-9]*\s*\{", text):
            found.append(" ".join(text[it.end():closing(text, it.end())].split()))
    return found


def test_names_of_types() -> None:
    """A type's name has one meaning: it is of one crate."""
    crates = defaultdict(set)
    for name, text in sources().items():
        for it in re.finditer(r"^\s*(?:pub(?:\([^)]*\))?\s+)?(?:struct|enum)\s+(\w+)", text, re.M):
            crates[it[1]].add(name.split("/")[1])
    assert len(crates) > 300
    assert {name: sorted(it) for name, it in crates.items() if len(it) > 1} == {}


def test_parameters() -> None:
    """A function has at most six parameters, but for a few."""
    counts = parameters()
    assert len(counts) > 2500
    many = {name: count for name, count in counts.items() if count > 6}
    assert len(many) <= MANY_PARAMETERS and max(many.values(), default=0) <= 7, many


def test_ranges() -> None:
    """What several functions ask of numbers is one condition, with a name of its own."""
    ranges = Counter(it for it in requirements() if COMPARISON.fullmatch(it))
    assert ranges.total() <= RANGES, (ranges.total(), ranges.most_common(20))


def test_no_file_is_empty() -> None:
    """Each file of the repository says something."""
    assert [it for it in tracked_files() if (ROOT / it).stat().st_size == 0] == []


def test_no_check_misses_a_source() -> None:
    """The prover's gate stops where a source of Rattle is in no crate."""
    sources_of_rattle = [it for it in tracked_files() if it.endswith((".rt", ".antt"))]
    place = re.compile(r"crates/\w+/(src|specs|proofs)/")
    assert [it for it in sources_of_rattle if not place.match(it)] == []
