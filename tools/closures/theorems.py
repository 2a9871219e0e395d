"""The theorems of the README and more laws of the heap, and what is said of them beside their
closures: theorems.toml."""

import dataclasses
import pathlib
import re
import tomllib

from closures.closures import Repository, closure_of, start_of
from closures.names import Name, ReadError
from closures.sources import Function

DATA = pathlib.Path(__file__).with_name("theorems.toml")


@dataclasses.dataclass(frozen=True)
class Bound:
    """How many definitions and lines a closure may have: of a clause or of all, with some
    definitions as given."""

    clause: str
    given: str
    definitions: int
    lines: int


@dataclasses.dataclass(frozen=True)
class Theorem:
    """A theorem: the call whose contract it is, what it says in a sentence, what it does not say,
    which definitions its part of the page takes as given, and the bounds of its closures."""

    name: str
    says: str
    limits: str
    given: str
    bounds: tuple[Bound, ...]


@dataclasses.dataclass(frozen=True)
class Given:
    """Definitions that have a part of the page for themselves."""

    title: str
    says: str
    names: tuple[str, ...]


@dataclasses.dataclass(frozen=True)
class Page:
    """What theorems.toml has: the theorems, what they take as given, why the files that a tool
    writes do no harm, and what is trusted."""

    theorems: tuple[Theorem, ...]
    given: dict[str, Given]
    written: dict[str, str]
    trusted: str


def read_page(path: pathlib.Path = DATA) -> Page:
    """Reads the file."""
    data = tomllib.loads(path.read_text(encoding="utf-8"))
    theorems = tuple(
        Theorem(name, it["says"], it["limits"].strip(), it["given"],
                tuple(Bound(*bound) for bound in it["bounds"]))
        for name, it in data["theorem"].items())
    given = {name: Given(it["title"], it["says"], tuple(it["names"]))
             for name, it in data["given"].items()}
    return Page(theorems, given, dict(data["written"]), data["trusted"].strip())


def function_named(repository: Repository, name: str) -> Function:
    """The public function of a name, which may have its type and its crate before it."""
    found = [it for it in repository.functions()
             if it.is_public and it.clauses and f"::{it.crate}::{it.called}".endswith(f"::{name}")]
    if len(found) != 1:
        places = "".join(f"\n  {it.crate}::{it.called} ({it.path})" for it in found)
        raise ReadError(f"{name}: {len(found)} public functions have a contract and this name"
                        + places)
    return found[0]


def name_at(repository: Repository, place: str) -> Name:
    """The definition that `CRATE.MODULE.NAME` is."""
    crate, _, rest = place.partition(".")
    module, _, name = rest.rpartition(".")
    known = repository.modules.get((crate, module))
    if known is None or name not in known.definitions:
        raise ReadError(f"theorems.toml: {place} is no definition")
    return known.definitions[name].name


def names_at(repository: Repository, places: tuple[str, ...]) -> frozenset[Name]:
    """The definitions at some places."""
    return frozenset(name_at(repository, place) for place in places)


def closure_of_theorem(repository: Repository, page: Page, theorem: Theorem, clause: str,
                       given: str) -> set[Name]:
    """The closure of a theorem or of one of its clauses, with what is given as it is."""
    function = function_named(repository, theorem.name)
    if clause and clause not in {it.name for it in function.clauses}:
        raise ReadError(f"theorems.toml: {theorem.name} has no clause {clause}")
    known = names_at(repository, page.given[given].names) if given else frozenset()
    return closure_of(repository, start_of(repository, function, clause), known)


def readme_theorems(repository: Repository, readme: str) -> set[str]:
    """The calls with a contract that the README names under *What is proved*."""
    part = re.search(r"^## What is proved\n(.*?)^## ", readme, re.M | re.S)
    if part is None:
        raise ReadError("README.md has no part 'What is proved'")
    called = {it.called for it in repository.functions() if it.is_public and it.clauses}
    return called & set(re.findall(r"`([\w:]+)`", part[1]))


def written_files(root: pathlib.Path, repository: Repository, page: Page) -> set[str]:
    """The files that a tool writes and a closure or what is given has."""
    names: set[Name] = set()
    for given in page.given.values():
        names |= closure_of(repository, names_at(repository, given.names))
    for theorem in page.theorems:
        names |= closure_of_theorem(repository, page, theorem, "", "")
    paths = {repository.definition(it).path for it in names if it.kind == "definition"}
    return {it for it in paths
            if "Do not edit" in (root / it).read_text(encoding="utf-8").split("\n", 1)[0]}


def complaints(root: pathlib.Path, repository: Repository, page: Page) -> list[str]:
    """What is not as it must be: a theorem that is missing, and closures that have grown."""
    listed = {theorem.name for theorem in page.theorems}
    readme = (root / "README.md").read_text(encoding="utf-8")
    found = [f"README.md names {name}, and theorems.toml does not"
             for name in sorted(readme_theorems(repository, readme) - listed)]
    found += [f"a tool writes {path}, and closures have it: theorems.toml must say why it does no "
              "harm" for path in sorted(written_files(root, repository, page) - set(page.written))]
    for theorem in page.theorems:
        for bound in theorem.bounds:
            names = closure_of_theorem(repository, page, theorem, bound.clause, bound.given)
            definitions = [repository.definition(it) for it in names if it.kind == "definition"]
            lines = sum(it.lines for it in definitions)
            if len(definitions) > bound.definitions or lines > bound.lines:
                parts = f"{theorem.name} {bound.clause} {bound.given}"
                found.append(
                    f"{' '.join(parts.split())}: {len(definitions)} definitions, {lines} lines; "
                    f"the bound in theorems.toml is {bound.definitions}, {bound.lines}")
    return found
