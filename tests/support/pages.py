"""Reads the pages of the repository: their blocks, and the commands and samples in these.

A block is indented by four blanks or more, or fenced. Its parts are separated by empty lines. By
its first line a part is

- commands, where it begins with the path of a file, or with one of the tools below;
- a sample of what a program prints, where it begins as such text does;
- else what no program reads or prints: a layout, a line of a table, code.
"""

import pathlib
import re
import textwrap
from collections.abc import Iterator
from dataclasses import dataclass

from tests.support.checkout import tracked_files
from tests.support.places import ROOT

TOOLS = ("apt-get", "c++", "cc", "clang", "gdb-multiarch", "make", "mte_host", "mte_run", "rt",
         "python3", "rustc", "sudo", "tenant-cc")
# In front of a command: a change of the folder, and variables.
BEFORE = r"(?:\(cd [^&]* && )?(?:\w+=[\w./-]* )*"
PATH_WORD = r"(?:\.{0,2}/)?[\w.-]+(?:/[\w.+-]+)+"
COMMAND = re.compile(rf"{BEFORE}(?:(?:{'|'.join(map(re.escape, TOOLS))})(?= |$)"
                     rf"|{PATH_WORD}(?= |$)|\w+=\$\()")
# How commands begin that stand as text, since no test runs them.
TYPED = re.compile(rf"(?!mte_run \d)(?:{COMMAND.pattern}|(?:cd|for) |{BEFORE}afl-\w+ )")
# How the texts begin that the programs print: a line on standard error, a report, a row of a
# picture, an instruction.
SAMPLE = re.compile(r"(mte_\w+|[\w-]+\.sh|error|install\.sh): |tenant \d+$|refused \d+ "
                    r"|0x[0-9a-f]+ +class|[0-9a-f]+: [0-9a-f]{8} ")
# A command's form: what stands in brackets, or a word with dots, is the reader's.
FORM = re.compile(r"\[[A-Z-]|\.\.\.")


def is_for_users(page: str) -> bool:
    """Whether a page is on the shelf of users and auditors."""
    return page == "README.md" or re.fullmatch(r"docs/\w+\.md", page) is not None


@dataclass(frozen=True)
class Part:
    """Lines of a block between empty ones."""

    page: str
    line: int
    section: str
    language: str
    before: str
    lines: tuple[str, ...]

    @property
    def place(self) -> str:
        """Where it stands."""
        return f"{self.page}:{self.line}"

    @property
    def text(self) -> str:
        """Its lines."""
        return "".join(f"{line}\n" for line in self.lines)

    @property
    def has_commands(self) -> bool:
        """Whether it is of commands."""
        return self.language in ("", "sh") and bool(COMMAND.match(self.lines[0]))

    @property
    def is_for_shell(self) -> bool:
        """Whether it is of commands, those among them that stand as text."""
        return self.has_commands or self.language == "text" and bool(TYPED.match(self.lines[0]))

    @property
    def is_sample(self) -> bool:
        """Whether it is a sample of what a program prints."""
        return not self.language and bool(SAMPLE.match(self.lines[0]))

    @property
    def is_dialog(self) -> bool:
        """Whether it is a dialog with GDB."""
        return self.lines[0].startswith("(gdb) ")

    def commands(self) -> list[str]:
        """Its commands, those that go on over several lines in one. What stands behind a wide gap
        tells of the command."""
        joined = re.sub(r" *\\\n *", " ", self.text)
        return [re.split(r" {3,}", line)[0] for line in joined.splitlines()]


def pages() -> list[str]:
    """All pages."""
    return [name for name in tracked_files() if name.endswith(".md")]


def read_page(page: str) -> str:
    """A page's text."""
    return (ROOT / page).read_text(encoding="utf-8")


@dataclass
class Reader:
    """A page that is read line by line."""

    page: str
    section: str = ""
    before: str = ""
    language: str = ""
    fenced: bool = False
    first: int = 0
    held: tuple[str, ...] = ()

    def finish(self) -> Iterator[Part]:
        """The part that ends here, if there is one."""
        if self.held:
            lines = tuple(textwrap.dedent("\n".join(self.held)).split("\n"))
            yield Part(self.page, self.first, self.section, self.language, self.before, lines)
        self.held = ()

    def hold(self, number: int, line: str) -> None:
        """Takes in a line of a block."""
        if not self.held:
            self.first = number
        self.held += (line,)

    def enter(self, number: int, line: str) -> Iterator[Part]:
        """Reads a line, and gives the part that ends with it."""
        if line.startswith("```"):
            yield from self.finish()
            self.fenced = not self.fenced
            self.language = line[3:].strip() if self.fenced else ""
        elif self.fenced and (line or self.language):
            self.hold(number, line)
        elif not line.strip():
            yield from self.finish()
        elif line.startswith("    ") and not self.fenced:
            self.hold(number, line)
        else:
            yield from self.finish()
            self.before = line
            self.section = line.lstrip("# ") if line.startswith("#") else self.section


def parts_of(page: str) -> list[Part]:
    """The parts of a page's blocks. Code of a language is one part, with its empty lines."""
    reader = Reader(page)
    parts: list[Part] = []
    for number, line in enumerate(read_page(page).split("\n"), 1):
        parts += reader.enter(number, line)
    return [*parts, *reader.finish()]


def table_of_commands(page: str) -> list[Part]:
    """The commands of a page's tables: those whose first column is called so."""
    parts: list[Part] = []
    tables = re.finditer(r"^\| Commands? \|.*\n\|-.*\n((?:\|.*\n)+)", read_page(page), re.M)
    for table in tables:
        line = read_page(page)[:table.start()].count("\n") + 1
        lines = re.findall(r"^\| `([^`]*)` \|", table[1], re.M)
        parts.append(Part(page, line, "", "sh", "", tuple(lines)))
    return parts


def all_parts() -> list[Part]:
    """The parts of all pages."""
    return [part for page in pages() for part in [*parts_of(page), *table_of_commands(page)]]


def named_code(page: str, name: str) -> str:
    """The code that a page shows as the file of a name, which its paragraph begins with."""
    found = [part.text for part in parts_of(page)
             if part.language and part.before.startswith(f"`{name}`")]
    assert len(found) == 1, f"{page} does not show {name} once"
    return found[0]


def sample_of(page: str, beginning: str) -> Part:
    """The one sample of a page that begins so."""
    found = [part for part in parts_of(page)
             if part.is_sample and part.text.startswith(beginning)]
    assert len(found) == 1, f"{page} has {len(found)} samples that begin with {beginning!r}"
    return found[0]


def folder_of(page: str) -> pathlib.PurePosixPath:
    """The folder in which a page's commands are run: that of the README of an example, else the
    top."""
    place = pathlib.PurePosixPath(page)
    return place.parent if place.name == "README.md" else pathlib.PurePosixPath()
