"""The options of a program in all of its texts: help, manual page, completions of three shells, the
page of docs/, and what it says of a wrong command line; and those of scripts that are installed."""

import pathlib
import random
import re
from dataclasses import dataclass

import pytest

from tests.support import installed
from tests.support.pages import read_page
from tests.support.running import Ran, Word, run, succeed
from tests.test_installed_scripts import SCRIPTS, SHARE

NAME = re.compile(r"(?<![\w-])--[a-z][\w+-]*")
# Of each kind of wrong word so many are drawn.
DRAWN = 12


@dataclass(frozen=True)
class Texts:
    """A program's: the word for its whole help, the page and the part that have its options, and
    whether the page has all of them, but for these."""

    help: str
    page: str
    part: str
    but: frozenset[str] = frozenset()


USUAL = frozenset({"--help", "--version"})
PROGRAMS = {
    "mte_host": Texts("--help", "docs/HOST.md", "", USUAL),
    "mte_run": Texts("--help-all", "docs/MTE_RUN.md", "", USUAL | {"--help-all"}),
    "tenant-run": Texts("--help", "docs/TENANTS.md", "tenant-run"),
    "tenant-profile": Texts("--help", "docs/PROFILING.md", ""),
    "tenant-cc": Texts("--help", "docs/TENANTS.md", "", frozenset({"--c++"})),
    "tenant-args": Texts("--help", "docs/TENANTS.md", "", frozenset()),
}
# These pass words that they do not know to a compiler.
PASSING = ("tenant-cc", "tenant-c++")


@pytest.fixture
def moved(host: pathlib.Path, alone: pathlib.Path, shared: pathlib.Path) -> pathlib.Path:
    """A prefix in another place than it was installed into."""
    assert host.exists() and alone.exists()
    return installed.moved(shared)


def options_of(text: str) -> dict[str, str]:
    """The options of a help text, each with what follows its name."""
    return dict(re.findall(r"^ +(?:-\w, )?(--[\w+-]+)(.*?)(?:  |$)", text, re.M))


def help_of(moved: pathlib.Path, name: str) -> str:
    """The whole help of a program."""
    return succeed([moved / "bin" / name, PROGRAMS[name].help]).output


def manual_of(moved: pathlib.Path, name: str) -> set[str]:
    """The options of a manual page: they are the bold entries of its section."""
    page = (moved / "share" / "man" / "man1" / f"{name}.1").read_text(encoding="utf-8")
    part = re.findall(r"^\.SH OPTIONS\n(.*?)(?=^\.SH )", page, re.M | re.S)[0]
    entries = re.findall(r"^\.B (.*)$", part.replace("\\-", "-").replace("\\&", ""), re.M)
    return {name for it in entries for name in NAME.findall(it)[:1]}


def shells(moved: pathlib.Path, name: str) -> list[set[str]]:
    """What bash offers, and the options of the files of zsh and fish."""
    share = moved / "share"
    zsh = (share / "zsh" / "site-functions" / f"_{name}").read_text(encoding="utf-8")
    fish = (share / "fish" / "vendor_completions.d" / f"{name}.fish").read_text(encoding="utf-8")
    assert zsh.startswith(f"#compdef {name}\n")
    return [{word.split("=")[0] for word in installed.completed(moved, name, "--")},
            set(re.findall(r"^    '(--[\w+-]+?)(?:=-)?\[", zsh, re.M)),
            {f"--{it}" for it in re.findall(rf"^complete -c {name} -l (\S+)", fish, re.M)}]


def page_of(texts: Texts) -> str:
    """The part of a page that has the options."""
    page = read_page(texts.page)
    if not texts.part:
        return page
    found: list[str] = re.findall(rf"^## {re.escape(texts.part)}\n(.*?)(?=^## |\Z)", page,
                                  re.M | re.S)
    return found[0]


@pytest.mark.parametrize("name", PROGRAMS)
def test_options_of_each_text(moved: pathlib.Path, name: str) -> None:
    """Help, manual page and completions have the same ones; the page has each of them. A table of
    options has no other one."""
    texts = PROGRAMS[name]
    told = set(options_of(help_of(moved, name)))
    assert told and manual_of(moved, name) == told
    for offered in shells(moved, name):
        assert offered == told
    page = page_of(texts)
    assert told - texts.but <= set(NAME.findall(page))
    table = re.findall(r"^\| `(--[^|]*?)` \|", page.replace("`, `", " "), re.M)
    if name in ("mte_run", "tenant-run"):
        assert set(NAME.findall(" ".join(table))) == told - texts.but


def test_completions_of_programs_that_call_others(moved: pathlib.Path) -> None:
    """The shells offer the options of mte_run for mte_why, and none for tenant-c++, whose words go
    to tenant-cc."""
    of_run = set(options_of(help_of(moved, "mte_run")))
    for name, told in (("mte_why", of_run), ("tenant-c++", set[str]())):
        for offered in shells(moved, name):
            assert offered == told, name


def near(source: random.Random, options: "list[str]") -> str:
    """A word that is almost an option: with a letter too many or another one."""
    while True:
        word = source.choice(options)
        at = source.randrange(3, len(word))
        letter = source.choice("abcdefghijklmnopqrstuvwxyz")
        wrong = word[:at] + letter + word[at + source.randrange(2):]
        if not any(it.startswith(wrong) for it in options):
            return wrong


def refused(ran: Ran) -> str:
    """What is said of a wrong command line."""
    assert (ran.status, ran.out) == (2, b"") and "--help" in ran.errors, ran
    return ran.errors


@pytest.mark.parametrize("name", [it for it in PROGRAMS if it not in PASSING])
def test_wrong_words(moved: pathlib.Path, name: str) -> None:
    """What a program says of a word that is almost an option names that word and options that it
    has; of an option without its value it says the same form as the help."""
    program, told = moved / "bin" / name, options_of(help_of(moved, name))
    source = random.Random(name)
    for _ in range(DRAWN):
        word = near(source, list(told))
        said = refused(run([program, word, "x"]))
        assert word in said and set(NAME.findall(said)) <= {*told, word, "--help"}, said
    for option, form in told.items():
        if form.startswith((" ", "=")) and form.strip():
            said = refused(run([program, option]))
            assert set(NAME.findall(said)) <= {*told, "--help"}
            assert option in said
            assert not name.startswith("mte_") or f"'{option}{form}'" in said


@pytest.mark.parametrize("name", [it for it in SCRIPTS if it.rpartition("/")[2] not in PROGRAMS
                                  and it.rpartition("/")[2] not in PASSING])
def test_scripts_name_options_that_they_have(
    moved: pathlib.Path, tmp_path: pathlib.Path, name: str
) -> None:
    """What a script says of a word that is almost an option names no option but those of its
    help."""
    words: list[Word] = ["env", "-C", tmp_path, moved / SHARE / name]
    text = succeed([*words, "--help"]).output
    told = {*NAME.findall(text), "--help"}
    word = near(random.Random(name), sorted(told))
    said = refused(run([*words, word]))
    assert set(NAME.findall(said)) <= {*told, word}
    assert not any(tmp_path.iterdir())
