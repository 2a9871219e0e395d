"""What others wrote and is linked in (components.toml), by what crates.txt says."""

import pathlib
import tomllib
from dataclasses import dataclass

from edges import read_crates

HERE = pathlib.Path(__file__).resolve().parent
ROOT = HERE.parent.parent
UNKNOWN = "NOASSERTION"
# What is built of the crates: programs by their names, and the library.
PRODUCTS = ("mte_host", "mte_run", "tombolopan_c")


@dataclass(frozen=True)
class Component:
    """A piece of others: its name, licence and notice, what it is and what it is linked into."""

    name: str
    licence: str
    copyright: str
    about: str
    linked: str
    version: str = ""
    source: str = ""
    stands_on: str = ""

    @property
    def title(self) -> str:
        """The name with the version."""
        return f"{self.name} {self.version}".strip()

    @property
    def place(self) -> str:
        """Where its source is, as a package URL's parts of an address."""
        if self.source:
            return f"https://deb.debian.org/debian/pool/main/{self.source[0]}/{self.source}/"
        if self.version:
            name = {"clap": "clap_builder"}.get(self.name, self.name.replace("_", "-"))
            return f"https://crates.io/crates/{name}/{self.version}"
        return UNKNOWN


def read_components() -> list[Component]:
    """All of them."""
    rows = tomllib.loads((HERE / "components.toml").read_text(encoding="utf-8"))["component"]
    return [Component(**row) for row in rows]


def own_crates() -> dict[str, list[str]]:
    """The crates of this repository, each with what it stands on."""
    return read_crates((ROOT / "crates.txt").read_text(encoding="utf-8"))


def all_below(name: str, edges: dict[str, list[str]]) -> set[str]:
    """What a crate stands on, and what that stands on."""
    found: set[str] = set()
    left = [name]
    while left:
        new = set(edges.get(left.pop(), ())) - found
        found |= new
        left += new
    return found


def all_edges(components: list[Component]) -> dict[str, list[str]]:
    """The edges of crates.txt, and those of the toolchain's crates."""
    return {**own_crates(), **{it.name: it.stands_on.split() for it in components if it.stands_on}}


def linked_crates(components: list[Component]) -> dict[str, list[str]]:
    """For each product the crates in it, its own first crate among them, in order."""
    edges = all_edges(components)
    everywhere = {it.name for it in components if it.linked == "all"}
    return {name: sorted({name} | all_below(name, edges) | everywhere) for name in PRODUCTS}
