"""The order in which a closure is read, and its numbers."""

import dataclasses
from collections.abc import Iterable, Iterator

from closures.closures import Repository, reached_by
from closures.names import Name
from closures.sources import Item
from closures.specs import Definition


@dataclasses.dataclass(frozen=True)
class Reading:
    """A closure: its definitions by file, the statement's file first, and what else it names."""

    files: dict[str, list[Definition]]
    items: list[Item]
    words: dict[str, list[str]]

    @property
    def definitions(self) -> int:
        """How many definitions there are."""
        return sum(len(it) for it in self.files.values())

    @property
    def lines(self) -> int:
        """How many lines the definitions have."""
        return sum(it.lines for found in self.files.values() for it in found)

    @property
    def comments(self) -> int:
        """How many lines of comment are right above them."""
        return sum(it.comments for found in self.files.values() for it in found)

    @property
    def crates(self) -> int:
        """How many crates the files are of."""
        return len({it.name.crate for found in self.files.values() for it in found})

    def types(self) -> list[Item]:
        """Its types and traits."""
        return [it for it in self.items if it.name.kind != "constant"]

    def constants(self) -> list[Item]:
        """Its constants."""
        return [it for it in self.items if it.name.kind == "constant"]


def modules_below(repository: Repository, name: Name) -> set[tuple[str, str]]:
    """The files that a name builds on itself, through types and constants too."""
    found: set[tuple[str, str]] = set()
    seen: set[Name] = set()
    left = [name]
    while left:
        for it in reached_by(repository, left.pop()) - seen:
            seen.add(it)
            if it.kind == "definition":
                found.add((it.crate, it.module))
            else:
                left.append(it)
    return found


def files_in_order(repository: Repository, names: set[Name]) -> list[str]:
    """The files of some definitions: those of the statement first, and each before those that it
    builds on."""
    definitions = sorted(it for it in names if it.kind == "definition")
    below: dict[tuple[str, str], set[tuple[str, str]]] = {}
    for name in definitions:
        module = (name.crate, name.module)
        below.setdefault(module, set()).update(modules_below(repository, name) - {module})
    lower = {it for found in below.values() for it in found}
    ordered: list[tuple[str, str]] = []
    seen: set[tuple[str, str]] = set()

    def visit(module: tuple[str, str]) -> None:
        seen.add(module)
        for next_one in sorted(below[module] & set(below), reverse=True):
            if next_one not in seen:
                visit(next_one)
        ordered.append(module)

    for module in sorted(below, key=lambda it: (it not in lower, it)):
        if module not in seen:
            visit(module)
    return [repository.modules[module].path for module in reversed(ordered)]


def reading_of(repository: Repository, names: set[Name]) -> Reading:
    """A closure in the order in which it is read."""
    files: dict[str, list[Definition]] = {it: [] for it in files_in_order(repository, names)}
    words: dict[str, list[str]] = {}
    items = []
    for name in sorted(names):
        if name.kind == "definition":
            definition = repository.definition(name)
            files[definition.path].append(definition)
        elif name.kind == "kit":
            words.setdefault(name.module, []).append(name.name)
        else:
            items.append(repository.item(name))
    for found in files.values():
        found.sort(key=lambda it: it.start)
    return Reading(files, items, words)


def skipped(repository: Repository, path: str, found: Iterable[Definition]) -> Iterator[str]:
    """The definitions of a file that a closure does not reach."""
    kept = {it.name for it in found}
    module = next(it for it in repository.modules.values() if it.path == path)
    yield from (name for name, it in module.definitions.items() if it.name not in kept)
