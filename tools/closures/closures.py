"""The closure of a clause: all that it names, and what that names in turn."""

import dataclasses
import pathlib
import re
from collections.abc import Iterable, Iterator

from closures.names import Imported, Imports, Name, ReadError, parts_of, tokens
from closures.sources import Function, Item, Source, read_sources
from closures.specs import Definition, Module, read_modules

# Parts of what the code declares that belong to a type.
INSIDE = ("TheVariants", "TheInside")


@dataclasses.dataclass
class Repository:
    """All definitions and all code."""

    modules: dict[tuple[str, str], Module]
    sources: dict[tuple[str, str], Source]
    reached: dict[Name, set[Name]] = dataclasses.field(default_factory=dict)

    @staticmethod
    def read(root: pathlib.Path) -> "Repository":
        """Reads a checkout."""
        return Repository(read_modules(root), read_sources(root))

    @property
    def crates(self) -> set[str]:
        """The crates with code."""
        return {crate for crate, _ in self.sources}

    def functions(self) -> Iterator[Function]:
        """Every function."""
        for source in self.sources.values():
            yield from source.functions

    def definition(self, name: Name) -> Definition:
        """A definition, by its name."""
        return self.modules[name.crate, name.module].definitions[name.name]

    def item(self, name: Name) -> Item:
        """A type, trait or constant, by its name."""
        return self.sources[name.crate, name.module].items[name.name]

    def resolve(self, imported: Imported) -> Name:
        """What an import brings."""
        head, _, rest = imported.path.partition(".")
        crate, _, rest = rest.partition(".specs.")
        if head != "Rattle" or crate not in self.crates:
            return Name("kit", imported.path.partition(".specs")[0], imported.path, imported.name)
        if rest.startswith(("declared.", "contracts.")):
            return self.declared(crate, rest.split(".")[1:], imported)
        module = self.modules.get((crate, rest))
        if module is None:
            raise ReadError(f"{imported.path} is no file of definitions")
        if imported.name in module.definitions:
            return Name("definition", crate, rest, imported.name)
        if imported.name in module.constructors:
            return Name("definition", crate, rest, module.constructors[imported.name])
        if imported.name in module.imports.passed:
            return self.resolve(module.imports.passed[imported.name])
        raise ReadError(f"{imported.path} has no {imported.name}")

    def declared(self, crate: str, parts: list[str], imported: Imported) -> Name:
        """What the code declares: the type that a path leads to, or a constant of a module."""
        if "TheConstants" in parts:
            at = parts.index("TheConstants")
            module, name = parts[:at], ".".join([*parts[at + 1:], imported.name])
        else:
            *module, name = parts[:-1] if parts[-1] in INSIDE else parts
        source = self.sources.get((crate, ".".join(module)))
        if source is None or name not in source.items:
            raise ReadError(f"{imported.path} has no {imported.name}")
        return source.items[name].name

    def type_named(self, crate: str, module: str, word: str) -> Name | None:
        """The type or constant that a word of code means; None for those of the kit."""
        source = self.sources[crate, module]
        if word in source.items:
            return source.items[word].name
        path = source.imports.get(word)
        return self.type_at(crate, path) if path else None

    def type_at(self, crate: str, path: tuple[str, ...]) -> Name | None:
        """The type at a path of `use`: in its crate's module, or in what the crate passes on."""
        head, *inner, name = path if len(path) > 1 else (crate, *path)
        home = crate if head in ("crate", "self", "super") else head
        if home not in self.crates:
            return None
        source = self.sources.get((home, ".".join(inner)))
        if source and name in source.items:
            return source.items[name].name
        passing = source or self.sources.get((home, ""))
        if passing and name in passing.passed:
            passed = passing.passed[name]
            modules = {it.split(".")[0] for it_crate, it in self.sources if it_crate == home}
            is_inner = passed[0] in modules
            return self.type_at(home, (("crate", *passed) if is_inner else passed))
        found = [it.items[name].name for (it_crate, _), it in self.sources.items()
                 if it_crate == home and name in it.items]
        return found[0] if len(found) == 1 else None


def named(repository: Repository, text: str, imports: Imports, own: Module | None) -> set[Name]:
    """What a term names, by the imports of its file and the definitions beside it."""
    found, seen = set(), tokens(text)
    heads = {token.partition(".")[0] for token in seen}
    for token in seen:
        head, _, rest = token.partition(".")
        if rest and head in imports.modules:
            path = imports.modules[head]
            found.add(repository.resolve(Imported(path, rest.partition(".")[0])))
    for new, imported in imports.names.items():
        if new in heads or ("◌" in new and set(parts_of(new)) <= seen):
            found.add(repository.resolve(imported))
    if own is not None:
        beside = {it: it for it in own.definitions} | own.constructors
        for new, name in beside.items():
            if new in heads or ("◌" in new and set(parts_of(new)) <= seen):
                found.add(Name("definition", own.crate, own.name, name))
    return found


def types_in(repository: Repository, source: Source, text: str) -> set[Name]:
    """The types, traits and constants that a piece of code names, or a term by the code's names."""
    words = {it for it in re.split(r"\W+", text) if it[:1].isupper()}
    found = (repository.type_named(source.crate, source.module, it) for it in words)
    return {name for name in found if name is not None}


def named_in_code(repository: Repository, source: Source, terms: Iterable[str]) -> set[Name]:
    """What the terms of clauses and ghost members in a file of code name."""
    found: set[Name] = set()
    for term in terms:
        found |= named(repository, term, source.ghost, None)
        found |= types_in(repository, source, term)
    return found


def reached_by(repository: Repository, name: Name) -> set[Name]:
    """What a definition, type, trait or constant names itself; read once."""
    if name not in repository.reached:
        repository.reached[name] = read_reached(repository, name)
    return repository.reached[name]


def read_reached(repository: Repository, name: Name) -> set[Name]:
    """What a definition, type, trait or constant names itself."""
    if name.kind == "kit":
        return set()
    if name.kind == "definition":
        module = repository.modules[name.crate, name.module]
        text = repository.definition(name).text
        return named(repository, text, module.imports, module) - {name}
    item = repository.item(name)
    source = repository.sources[name.crate, name.module]
    found = types_in(repository, source, item.text)
    return (found | named_in_code(repository, source, item.terms)) - {name}


def start_of(repository: Repository, function: Function, clause: str = "") -> set[Name]:
    """What a contract names itself: its clauses, or one and the conditions, and its types."""
    source = repository.sources[function.crate, function.module]
    terms = [it.term for it in function.clauses
             if not clause or it.name == clause or it.word.startswith("requires")]
    return (types_in(repository, source, f"{function.owner} {function.signature}")
            | named_in_code(repository, source, terms))


def closure_of(repository: Repository, start: Iterable[Name],
               given: frozenset[Name] = frozenset()) -> set[Name]:
    """All that is reached from some names; what is given is not followed."""
    seen: set[Name] = set()
    left = list(start)
    while left:
        name = left.pop()
        if name not in seen:
            seen.add(name)
            if name not in given:
                left += reached_by(repository, name) - seen
    return seen
