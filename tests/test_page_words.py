"""The sentences of pages, and the numbers that pages say: each sentence is short, and each number
that a command counts is the one that it counts. Nothing that was built is needed."""

import functools
import re
import tomllib
from collections.abc import Callable

import checking
import pytest
from a64 import table

from tests.support.checkout import tracked_files
from tests.support.page_words import counted, sentences, without_written
from tests.support.pages import is_for_users, pages, read_page
from tests.support.places import ROOT

# The most words of a sentence on a page for users, and on any page; of all pages for users, and
# the most bytes of all pages.
USERS_SENTENCE, SENTENCE = 40, 60
USERS_WORDS, BYTES = 40_000, 400_000
# A page whose long sentences are lists of names, which a tool writes.
LISTS = "docs/project/INSTRUCTIONS.md"


def source(path: str) -> str:
    """The text of a file."""
    return (ROOT / path).read_text(encoding="utf-8")


def constant(file: str, name: str) -> int:
    """The number of a constant of the one source file of this name that has it."""
    texts = (source(it) for it in files(rf"crates/\w+/src/(?:\w+/)?{file}\.rt"))
    found = [it for text in texts for it in re.findall(rf"\bconst {name}: \w+ = ([\d_]+)", text)]
    assert len(found) == 1, f"{file}.rt: {name}: {found}"
    return int(found[0])


def files(pattern: str) -> list[str]:
    """The files of a pattern."""
    return [it for it in tracked_files() if re.fullmatch(pattern, it)]


def found_by(column: int) -> int:
    """How many of the planted bugs are found by the tool of a column of the page's table."""
    rows = checking.page_table(source("docs/project/CHECKED.md"))
    cells = [it.strip() for it in rows[-1].strip("|").split("|")]
    return int(cells[column].split(" of ")[0])


def definitions(theorem: str) -> int:
    """How many definitions a theorem reaches, by docs/BELIEVE.md."""
    found = re.search(rf"^\| `{theorem}` \| (\d+) \|", source("docs/BELIEVE.md"), re.M)
    assert found, theorem
    return int(found[1])


def packages() -> tuple[int, int]:
    """How many packages were built as tenants, and how many of them write what they write
    natively."""
    rows = re.findall(r"^\| \S+ \| \S+ \| C.* \| .* \| (yes|no: .*) \|$",
                      source("docs/project/PACKAGES.md"), re.M)
    return len(rows), rows.count("yes")


def suite_mutants() -> int:
    """How many mutants tools/plants.py plants."""
    return sum(len(tomllib.loads(source(it))) for it in files(r"tools/wrong_bodies/\w+\.toml"))


def store_calls() -> int:
    """How many calls the trait PageStore has."""
    trait = next(it for it in map(source, files(r"crates/\w+/src/page_store\.rt")))
    return len(re.findall(r"^    fn ", trait, re.M))


def build_bytes() -> int:
    """How long the text of build_info is."""
    texts = [re.search(r'^const TEXT: &str = "([^"]*\ncommit: [^"]*)";', source(it), re.M)
             for it in files(r"crates/\w+/src/\w+\.rt")]
    found = [it[1] for it in texts if it]
    assert len(found) == 1, found
    return len(found[0])


EDITS = r"crates/(\w+)/must-fail/[^/]+\.edit"
# Constants of the code, each with the name of its file.
CONSTANTS = {
    "block_entries": ("entry", "LONGEST"),
    "book_calls": ("book", "KEPT"),
    "events": ("parsing", "EVENT_LIMIT"),
    "file_limit": ("reading", "FILE_LIMIT"),
    "kept_calls": ("calls", "KEPT_CALLS"),
    "live_tenants": ("admission", "MAX_LIVE"),
    "max_frames": ("limits", "MAX_FRAMES"),
    "max_output": ("limits", "MAX_OUTPUT"),
    "max_pages": ("limits", "MAX_PAGES"),
    "max_steps": ("limits", "MAX_STEPS"),
    "op_entries": ("op_cache", "COUNT"),
    "page_calls": ("calls", "MOST_CALLS"),
    "page_steps": ("values", "PAGE_STEPS"),
    "picture_rows": ("layout", "ROWS"),
    "remembered_pages": ("remembered", "DATA_PAGES"),
    "tlb_entries": ("translation", "TLB_ENTRIES"),
}
COUNTS: dict[str, Callable[[], int]] = {
    **{name: functools.partial(constant, *place) for name, place in CONSTANTS.items()},
    "build_bytes": build_bytes,
    "edit_crates": lambda: len({it.split("/")[1] for it in files(EDITS)}),
    "edits": lambda: len(files(EDITS)),
    "found_by_tags": lambda: found_by(1),
    "found_exact": lambda: found_by(2),
    "isolation_definitions": lambda: definitions("behaviours_are_isolated"),
    "library_sources": lambda: len(files(r"examples/libc/src/\w+\.[cS]")),
    "packages": lambda: packages()[0],
    "packages_as_natively": lambda: packages()[1],
    "planted_bugs": lambda: len(checking.page_table(source("docs/project/CHECKED.md"))) - 3,
    "programs": lambda: len(files(r"examples/libc/tests/programs/\w+\.c")),
    "rows": lambda: len(table.read_rows()),
    "store_calls": store_calls,
    "suite_mutants": suite_mutants,
    "vectors": lambda: len(re.findall(r"^case\b", source("tests/vectors/steps.txt"), re.M)),
}


@pytest.mark.parametrize("page", pages())
def test_sentences(page: str) -> None:
    """A sentence of a page for users has at most 40 words, of any page 60."""
    most = USERS_SENTENCE if is_for_users(page) else SENTENCE
    long = [" ".join(it) for it in sentences(page) if len(it) > most]
    assert page == LISTS or not long, "\n".join(long)


def test_sizes() -> None:
    """All pages are short enough to be read, and those for users more so."""
    listed = [it for it in pages() if not it.startswith("examples/")]
    assert sum(len(read_page(it).encode()) for it in listed) <= BYTES
    texts = [re.sub(r"<!--.*?-->", "", read_page(it)) for it in listed if is_for_users(it)]
    assert sum(len(it.split()) for it in texts) <= USERS_WORDS


@pytest.mark.parametrize("page", pages())
def test_numbers(page: str) -> None:
    """A number with the name of what counts it is what that counts."""
    wrong = [f"{name} is {COUNTS[name]()}, and the page has {number}"
             for name, number in counted(page) if COUNTS[name]() != number]
    assert not wrong, "\n".join(wrong)


def test_numbers_are_used() -> None:
    """Each count is of a number on some page."""
    assert {name for page in pages() for name, _ in counted(page)} == COUNTS.keys()


def column(heads: str, name: str) -> dict[str, float]:
    """The numbers of a column of a table of docs/SPEED.md, by the first cells of its rows."""
    table_of = re.search(rf"^\| {heads} \|.*\n\|-.*\n((?:\|.*\n)+)", source("docs/SPEED.md"), re.M)
    assert table_of, heads
    names = [it.strip() for it in table_of[0].split("\n")[0].strip("|").split("|")]
    rows = [[it.strip() for it in row.strip("|").split("|")] for row in table_of[1].splitlines()]
    return {row[0]: float(row[names.index(name)]) for row in rows}


def test_ratios() -> None:
    """How much longer a tenant takes, and what a step takes, is so in the tables of SPEED."""
    own = column("Program", "Host")
    for other, form in (("AddressSanitizer", ".0f"), ("memcheck", ".1f")):
        factors = [own[it] / seconds for it, seconds in column("Program", other).items()]
        said = f"{min(factors):{form}} to {max(factors):{form}} times"
        assert said in source("docs/SPEED.md") and said in source("README.md"), said
    steps = [it for name, it in column("Workload", "Today").items() if "slices" not in name]
    said = f"{min(steps):.0f} to {max(steps):.0f} instructions"
    assert said in source("docs/TENANTS.md") and said in source("CHANGELOG.md"), said


def test_files_of_tests_are_on_the_page() -> None:
    """docs/project/CHECKED.md names each file of tests."""
    page = read_page("docs/project/CHECKED.md")
    rows = re.findall(r"^\|[^|]*\|[^|]*\| ([\w, ]+) \|$", page, re.M)
    named = {it for row in rows for it in row.split(", ")}
    there = {it.removeprefix("tests/test_").removesuffix(".py")
             for it in files(r"tests/test_\w+\.py")}
    assert there <= named, there - named


def test_what_tools_write_is_left_out() -> None:
    """Between the marks of a tool nothing is a sentence of the page."""
    assert without_written("a\n<!-- Written by x: -->\nb\n<!-- to here. -->\nc") == "a\n\nc"
