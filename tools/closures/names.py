"""Names: what an import brings, and where it is."""

import dataclasses
import re
from typing import NamedTuple

# A label of a record, `{ frames = ..; tenants = .. }`, and a field where it is declared.
LABEL = re.compile(r"(?<=[{;])\s*[\w'-]+\s*=(?![=>])|(?<=\n)\s+pub [\w'-]+\s*:(?=\s)")
USE = re.compile(
    r"^[ \t]*(?P<passed>pub )?(?:abbrev pub )?(?:ghost )?use (?P<path>[\w.'-]+?)"
    r"(?:\.\{(?P<names>[^}]*)\}| as (?P<alias>[\w'-]+))?;?[ \t]*$",
    re.M,
)


class Name(NamedTuple):
    """A definition (its module in specs/), a type, trait or constant (its module in src/), or a
    word of the kit."""

    kind: str
    crate: str
    module: str
    name: str


class Imported(NamedTuple):
    """A name of a module, by the module's whole path."""

    path: str
    name: str


class ReadError(Exception):
    """A file has what this tool does not understand."""


@dataclasses.dataclass
class Imports:
    """What the `use` lines of a file bring: names, modules under a name, and what is passed on."""

    names: dict[str, Imported] = dataclasses.field(default_factory=dict)
    modules: dict[str, str] = dataclasses.field(default_factory=dict)
    passed: dict[str, Imported] = dataclasses.field(default_factory=dict)

    def add(self, line: re.Match[str]) -> None:
        """Takes in one line."""
        path, names, alias = line["path"], line["names"], line["alias"]
        if names is None:
            self.modules[alias or path.rpartition(".")[2]] = path
            return
        for entry in re.split(r",\s*", names.strip().rstrip(",")):
            name, _, new = entry.strip().partition(" as ")
            self.names[new or name] = Imported(path, name)
            if line["passed"]:
                self.passed[new or name] = Imported(path, name)


def imports_of(text: str) -> Imports:
    """The imports of a file of definitions, or the ghost imports of one of code."""
    found = Imports()
    for line in USE.finditer(text):
        found.add(line)
    return found


def parts_of(operator: str) -> list[str]:
    """The parts of an operator: of `if◌then◌else◌` its three words."""
    return [part for part in operator.split("◌") if part]


def tokens(text: str) -> set[str]:
    """What blanks and brackets part in a term: words with their projections, and operators. The
    labels of records, and the fields of what stands in brackets, are left out."""
    parts = re.split(r"[\s(){};,]+", LABEL.sub(" ", re.sub(r'"[^"\n]*"', " ", text)))
    return {part.rstrip(".") for part in parts if part and not part.startswith(".")}
