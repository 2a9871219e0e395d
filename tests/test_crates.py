"""The list of crates: its sections are those of the pages, and each edge is there for something."""

import pathlib
import re
import sys

import crates
import pytest

from tests.support.checkout import tracked_files
from tests.support.places import ROOT
from tests.support.running import Ran, run
from tests.support.tools import git

LIST = (ROOT / "crates.txt").read_text(encoding="utf-8")


def sections() -> dict[str, list[str]]:
    """The crates of each section of crates.txt, by the words before its full stop."""
    found: dict[str, list[str]] = {}
    for part in LIST.split("\n\n")[1:]:
        title, *lines = part.strip().split("\n")
        found[title.removeprefix("# ").rstrip(".")] = [re.split("[ :]", line)[0] for line in lines]
    return found


def test_order() -> None:
    """Each crate is listed once, after those that it depends on, and has a folder."""
    seen: list[str] = []
    listed = {name for names in sections().values() for name in names}
    for line in LIST.splitlines():
        if line and not line.startswith("#"):
            head, _, below = line.partition(":")
            assert listed.intersection(below.split()) <= set(seen), line
            seen.append(head.split()[0])
    assert len(seen) == len(set(seen)) and set(seen) == listed
    folders = {name.split("/")[1] for name in tracked_files() if name.startswith("crates/")}
    assert folders - {"README.md"} == listed


def test_the_map() -> None:
    """Map and table are what crates.txt and the first sentences of the crates give; each crate has
    a status, and no edge leads to a higher one."""
    ran = run([sys.executable, ROOT / "tools" / "crates.py", "--check"])
    assert ran == Ran(0, b"", b"")


SMALL = """\
# The crates.

# Ground (exact): numbers.
low:

# Reports (explaining): words.
words: low

# Programs (program): command lines.
main: low words
"""


@pytest.mark.parametrize(("old", "new", "wanted"), [
    ("", "", []),
    ("low:\n", "low: words\n", ["crates.txt: low, which is exact, depends on words"]),
    ("words: low\n", "words: low main\n",
     ["crates.txt: words, which is explaining, depends on main"]),
    ("(explaining)", "(exact)", []),
    (" (program)", "", ["crates.txt: the section of main has no status"]),
    ("(program)", "(prog)", ["crates.txt: the section of main has no status"]),
    ("words: low\n", "", ["crates.txt: words is there or in crates/, and not in both"]),
])
def test_statuses(tmp_path: pathlib.Path, old: str, new: str, wanted: list[str]) -> None:
    """An edge to a crate of a higher status is found, and so is a crate without a line or a
    section without a status that is one."""
    for name in ("low", "words", "main"):
        (tmp_path / "crates" / name / "src").mkdir(parents=True)
        (tmp_path / "crates" / name / "src" / "lib.rt").write_text("//! A crate.\n")
    layers = crates.read_layers(SMALL.replace(old, new))
    assert list(crates.complaints(tmp_path, layers)) == wanted


def test_first_sentences(tmp_path: pathlib.Path) -> None:
    """The first sentence of a crate's comment, of a long one what comes before its colon."""
    source = tmp_path / "src" / "lib.rt"
    source.parent.mkdir()
    for text, wanted in (("//! Short: a\n//! crate. More.\n", "Short: a crate"),
                         (f"//! Long: {'word ' * 20}end.\n", "Long"), ("//! A name,\n//!\n", ""),
                         ("//! All in one:\n//!\n//! - this\n", "All in one"), ("mod a;\n", "")):
        source.write_text(text)
        assert crates.sentence_of(tmp_path) == wanted


def named_in(page: str, sentence: str) -> set[str]:
    """The crates that a page names in a sentence."""
    text = (ROOT / "docs" / "project" / page).read_text(encoding="utf-8")
    found = re.search(sentence, text)
    assert found, f"{page} does not say: {sentence}"
    return set(re.findall(r"`(\w+)`", found[1]))


def crates_with(pattern: str) -> set[str]:
    """The crates whose code has a pattern."""
    names = [it for it in tracked_files() if re.fullmatch(r"crates/\w+/src/.*\.rt", it)]
    return {it.split("/")[1] for it in names
            if re.search(pattern, (ROOT / it).read_text(encoding="utf-8"))}


def test_what_pages_say_of_crates() -> None:
    """Which crates have raw pointers, which depend on clap, and which programs have definitions."""
    pointers = named_in("ARCHITECTURE.md", r"\*\*Only (.*) have raw pointers\*\*")
    assert pointers == crates_with(r"\*(?:mut|const) \w|\bunsafe \{")
    below = {it.partition(":")[0].split()[0]: it.partition(":")[2].split()
             for it in LIST.splitlines() if it and not it.startswith("#")}
    clap = named_in("DECISIONS.md", r"\*\*Only command lines depend on `clap`\*\*: (.*?)\.")
    assert clap == {name for name, names in below.items() if "clap" in names}
    programs = {it.split("/")[1] for it in tracked_files()
                if re.fullmatch(r"crates/\w+/src/main\.rt", it)}
    defining = named_in("ARCHITECTURE.md", r"Of the programs only (.*) has definitions")
    assert defining == {it for it in programs if (ROOT / "crates" / it / "specs").is_dir()}


def test_ported_crates() -> None:
    """docs/PROVED.md has each library of the kit that a crate depends on, but those of std."""
    listed = {name for names in sections().values() for name in names}
    below = {it for line in LIST.splitlines() if not line.startswith("#")
             for it in line.partition(":")[2].split()}
    page = (ROOT / "docs" / "PROVED.md").read_text(encoding="utf-8")
    found = re.search(r"ported crates' statements \(([^)]*)\)", page)
    assert found and set(re.findall(r"`(\w+)`", found[1])) == below - listed - {"core", "std_alloc"}


def test_edges() -> None:
    """An edge that no file of its crate names is known, and why it is there."""
    assert run([sys.executable, ROOT / "tools" / "edges.py", "--check"]) == Ran(0, b"", b"")


def test_written_files_are_marked() -> None:
    """A review folds each file that a tool writes (.gitattributes)."""
    files = [name for name in tracked_files() if not name.endswith((".elf", "stdin"))]
    firsts = {name: (ROOT / name).read_bytes().split(b"\n", 1)[0] for name in files}
    written = [name for name, first in firsts.items() if b"Do not edit" in first]
    assert len(written) >= 20
    told = git("check-attr", "linguist-generated", "--", *written)
    assert [line for line in told.splitlines() if not line.endswith(": set")] == []


def test_images_of_one_name() -> None:
    """Images of one name are the same file: a program of the gate is given its own folder alone, in
    which no link leads out, so an image is there once for each program that reads it."""
    images: dict[str, set[bytes]] = {}
    for name in tracked_files():
        if name.endswith(".elf") and not name.startswith("tests/"):
            images.setdefault(name.split("/")[-1], set()).add((ROOT / name).read_bytes())
    assert len(images) >= 2 and {name for name, it in images.items() if len(it) > 1} == set()
