"""The numbers and names of codes.toml."""

import functools
import tomllib
from dataclasses import dataclass
from typing import Any, Optional

SOURCE = "tools/border_to_c/codes.toml"


@dataclass(frozen=True)
class Entry:
    """A number: its name, its text where it has one, and what it means."""

    name: str
    number: int
    text: str
    about: str


@dataclass(frozen=True)
class Texts:
    """A function that answers the text of a number."""

    name: str
    argument: str
    table: str
    c: str
    rust: str


@dataclass(frozen=True)
class Enum:
    """Numbers that belong together. `code` is the file with their constants, `names` those whose
    literals the texts are, as reports have them."""

    name: str
    about: str
    code: str
    entries: tuple[Entry, ...]
    texts: Optional[Texts]
    names: tuple[str, ...]

    @property
    def has_zero(self) -> bool:
        """Whether 0 is one of its numbers; else its text is "none"."""
        return any(it.number == 0 for it in self.entries)

    def texts_of(self) -> list[tuple[str, str]]:
        """The name of each number, or 0, and its text."""
        none = [] if self.has_zero else [("0", "none")]
        return [*none, *((it.name, it.text) for it in self.entries)]


@dataclass(frozen=True)
class Limit:
    """A limit of the crates, and what sentence of which file has its number."""

    name: str
    number: int
    code: str
    said: dict[str, str]


@dataclass(frozen=True)
class Refusals:
    """An enum of refusals: its name, its file, the crate through which the border has it, the
    function and the definition that number it, the function's argument, the type of a number, and
    what is numbered."""

    enum: str
    code: str
    through: str
    function: str
    definition: str
    argument: str
    number: str
    about: str

    @property
    def declared(self) -> str:
        """The module of definitions that declares it."""
        _, crate, _, file = self.code.split("/")
        return f"Rattle.{crate}.specs.declared.{file.removesuffix('.rt')}.{self.enum}"

    @property
    def prefix(self) -> str:
        """What its variants have before their names in a definition."""
        return self.definition.removesuffix("_code")


@dataclass(frozen=True)
class Tables:
    """All of codes.toml."""

    version: int
    enums: tuple[Enum, ...]
    refusals: tuple[Refusals, ...]
    unnamed: dict[str, int]
    limits: tuple[Limit, ...]
    structs: dict[str, tuple[str, str, str]]


def entry_of(row: list[Any], has_texts: bool) -> Entry:
    """An entry of a table; the text of one without is its name, each word with a capital."""
    if len(row) == 4:
        return Entry(*row)
    name, number, about = row
    text = "".join(word.capitalize() for word in name.split("_")) if has_texts else ""
    return Entry(name, number, text, about)


@functools.cache
def read(text: str) -> Tables:
    """The tables that a text has."""
    data = tomllib.loads(text)
    texts = {name: Texts(name, **found) for name, found in data["texts"].items()}
    enums = tuple(
        Enum(
            it["name"], it["about"], it["code"],
            tuple(entry_of(row, "texts" in it) for row in it["entries"]),
            texts.get(it.get("texts", "")), tuple(it.get("names", [])),
        )
        for it in data["enum"]
    )
    structs = {name: (c, rust, python) for name, (c, rust, python) in data["structs"].items()}
    limits = tuple(Limit(**it) for it in data["limit"])
    refusals = tuple(Refusals(**it) for it in data["refusals"])
    return Tables(data["version"], enums, refusals, data["unnamed"], limits, structs)
