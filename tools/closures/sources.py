"""Files of code (src/*.rt), read as far as names go: types, traits, constants and contracts."""

import dataclasses
import pathlib
import re
from collections.abc import Iterator

from closures.names import Imports, Name, ReadError, imports_of

# Brackets; a `>` of an arrow closes none.
BRACKETS = {"{": re.compile(r"[{}]"), "(": re.compile(r"[()]"), "<": re.compile(r"<|(?<![-=])>")}
TYPE = re.compile(r"^(?:pub(?:\([a-z]+\))? )?(struct|enum|trait|union) ([A-Z]\w*)", re.M)
CONSTANT = re.compile(r"^ *(?:pub(?:\([a-z]+\))? )?const ([A-Z]\w*): ([^;]*;)", re.M)
MODEL = re.compile(r"^impl(?:<[^{]*>)? Model for ([A-Z]\w*)[^{]*\{", re.M)
OWNER = re.compile(r"^(?:(?:pub(?:\([a-z]+\))? )?trait ([A-Z]\w*)|impl\b([^{]*))\{", re.M)
FUNCTION = re.compile(r"^( *)((?:pub(?:\([a-z]+\))? )?)(?:const )?(?:unsafe )?"
                      r'(?:extern "C" )?fn (\w+)', re.M)
CLAUSE = re.compile(r"\s*(requires|ensures|ghost)(\*?)(?: (\w+))?(?::)? \{")
GHOST_MEMBER = re.compile(r"^    ghost (\w+)(?:: | = )\{", re.M)
CODE_USE = re.compile(r"^(pub(?:\([a-z]+\))? )?use ([^;]+);", re.M)
ASIDE = re.compile(r"""//[^\n]*|r#".*?"#|"(?:\\.|[^"\\])*"|'(?:\\[^']+|[^\\'\n])'""", re.S)
GHOST_FIELD = re.compile(r"ghost\s+\w+\s*:\s*\{")


@dataclasses.dataclass(frozen=True)
class Clause:
    """A clause: `requires` or `ensures`, its name, which may be empty, and its term."""

    word: str
    name: str
    term: str


@dataclasses.dataclass(frozen=True)
class Function:
    """A function with its contract; its owner is the type or trait that it belongs to."""

    crate: str
    module: str
    owner: str
    name: str
    path: str
    line: int
    is_public: bool
    signature: str
    clauses: tuple[Clause, ...]

    @property
    def called(self) -> str:
        """The name by which a page calls it."""
        return f"{self.owner}::{self.name}" if self.owner else self.name


@dataclasses.dataclass(frozen=True)
class Item:
    """A type, trait or constant: its lines, the words of types in it, and the terms of clauses that
    say what it means. The terms of a type with a model are its value's."""

    name: Name
    path: str
    start: int
    lines: int
    text: str
    terms: tuple[str, ...]
    has_model: bool


@dataclasses.dataclass
class Source:
    """A file of code."""

    crate: str
    module: str
    path: str
    ghost: Imports
    imports: dict[str, tuple[str, ...]]
    passed: dict[str, tuple[str, ...]]
    items: dict[str, Item] = dataclasses.field(default_factory=dict)
    functions: list[Function] = dataclasses.field(default_factory=list)


def blank(found: re.Match[str]) -> str:
    """Blanks in place of a comment or of what stands in quotation marks."""
    return re.sub(r"[^\n]", " ", found[0])


def without_comments(text: str) -> str:
    """The text without comments, strings and characters, all else in its place."""
    return ASIDE.sub(blank, text)


def end_of(text: str, start: int) -> int:
    """Where the bracket that opens at `start` is closed: behind it."""
    opening, depth = text[start], 0
    for found in BRACKETS[opening].finditer(text, start):
        depth += 1 if found[0] == opening else -1
        if depth == 0:
            return found.end()
    raise ReadError(f"a bracket is not closed: {text[start:start + 40]!r}")


def line_of(text: str, at: int) -> int:
    """The number of a place's line."""
    return text.count("\n", 0, at) + 1


def named_in(tree: str) -> Iterator[tuple[str, ...]]:
    """The paths of a `use` tree: of `a::{b, c::d}` a, b and a, c, d."""
    head, bracket, inner = tree.partition("{")
    base = tuple(part for part in head.strip().rstrip(":").split("::") if part)
    if not bracket:
        yield base
        return
    depth, entry = 0, ""
    for char in inner[:inner.rindex("}")] + ",":
        depth += {"{": 1, "}": -1}.get(char, 0)
        if char == "," and depth == 0:
            for path in named_in(entry.strip()) if entry.strip() else ():
                yield base + path
            entry = ""
        else:
            entry += char


def uses(text: str, is_passed: bool) -> dict[str, tuple[str, ...]]:
    """What a file brings by `use`, each name with its path; with `is_passed` only what it passes
    on."""
    found: dict[str, tuple[str, ...]] = {}
    for line in CODE_USE.finditer(text):
        if is_passed and not line[1]:
            continue
        for path in named_in(" ".join(line[2].split())):
            last, _, new = path[-1].partition(" as ")
            found[new or last] = (*path[:-1], last)
    return found


def models(text: str) -> dict[str, str]:
    """The term of the value of each type that has a model."""
    found = {}
    for head in MODEL.finditer(text):
        body = text[head.end() - 1:end_of(text, head.end() - 1)]
        value = re.search(r"ghost Value = \{", body)
        if value is not None:
            found[head[1]] = body[value.end() - 1:end_of(body, value.end() - 1)]
    return found


def facts_of(body: str) -> tuple[str, tuple[str, ...]]:
    """The fields of a type without its ghost fields, and the terms of these."""
    terms = []
    while found := GHOST_FIELD.search(body):
        end = end_of(body, found.end() - 1)
        terms.append(body[found.end():end - 1])
        body = body[:found.start()] + body[end:]
    return body, tuple(terms)


def body_of(text: str, at: int) -> str:
    """What stands from a place on: up to `;`, or to the end of the first bracket of a body."""
    end = re.compile(r"[{;(]").search(text, at)
    if end is None or end[0] == ";":
        return text[at:end.end() if end else len(text)]
    return text[at:end_of(text, end.start())]


def members_of(body: str) -> tuple[str, ...]:
    """The terms of a trait: its ghost members, and the clauses of its functions."""
    members = [body[it.end() - 1:end_of(body, it.end() - 1)] for it in GHOST_MEMBER.finditer(body)]
    for head in FUNCTION.finditer(body):
        _, clauses = contract_at(body, head.end())
        members += [clause.term for clause in clauses]
    return tuple(members)


def owners(text: str) -> list[tuple[int, int, str, bool]]:
    """The parts of a file that are an `impl` or a trait: where each is, whose, and whether its
    functions are public without a word."""
    found = []
    for head in OWNER.finditer(text):
        owner = head[1]
        if owner is None:
            target = re.sub(r"<[^<>]*>", "", re.sub(r"<[^<>]*>", "", head[2]))
            owner = re.split(r"\bfor\b", target)[-1].strip().split("::")[-1]
        is_open = bool(head[1]) or " for " in head[2]
        found.append((head.start(), end_of(text, head.end() - 1), owner, is_open))
    return found


def read_items(source: Source, text: str) -> None:
    """The types, traits and constants of a file."""
    values = models(text)
    for head in TYPE.finditer(text):
        body = body_of(text, head.start())
        is_trait, model = head[1] == "trait", values.get(head[2])
        fields, terms = ("", (model,)) if model else facts_of(body.partition(head[2])[2])
        if is_trait:
            fields, terms = body.partition("{")[0].partition(head[2])[2], members_of(body)
        source.items[head[2]] = Item(
            Name("trait" if is_trait else "type", source.crate, source.module, head[2]),
            source.path, line_of(text, head.start()),
            sum(1 for line in body.split("\n") if line.strip()), fields, terms, model is not None)
    parts = owners(text)
    for head in CONSTANT.finditer(text):
        name = ".".join([*(it[2] for it in parts if it[0] < head.start() < it[1]), head[1]])
        source.items[name] = Item(
            Name("constant", source.crate, source.module, name), source.path,
            line_of(text, head.start(1)), head[0].count("\n") + 1, head[2], (), False)


def contract_at(text: str, at: int) -> tuple[str, tuple[Clause, ...]]:
    """The signature and the clauses of a function, from behind its name on."""
    place = re.compile(r"[<(]").search(text, at)
    if place is None:
        raise ReadError("a function without parameters")
    end = end_of(text, place.start())
    if place[0] == "<":
        end = end_of(text, text.index("(", end))
    stop = re.compile(r"\n\s*(?:requires|ensures|ghost)\b|[{;]").search(text, end)
    if stop is None:
        raise ReadError("a function without an end")
    end, clauses = stop.start(), []
    signature = text[at:end]
    while clause := CLAUSE.match(text, end):
        end = end_of(text, clause.end() - 1)
        clauses.append(Clause(clause[1] + clause[2], clause[3] or "", text[clause.end():end - 1]))
    return signature, tuple(clauses)


def read_functions(source: Source, text: str) -> None:
    """The functions of a file."""
    parts = owners(text)
    for head in FUNCTION.finditer(text):
        whose = [it for it in parts if it[0] < head.start() < it[1]]
        owner, is_open = (whose[0][2], whose[0][3]) if whose else ("", False)
        signature, clauses = contract_at(text, head.end())
        source.functions.append(Function(
            source.crate, source.module, owner, head[3], source.path,
            line_of(text, head.start(3)), is_open or head[2] == "pub ", signature, clauses))


def read_source(root: pathlib.Path, path: pathlib.Path) -> Source:
    """Reads a file."""
    text = without_comments(path.read_text(encoding="utf-8"))
    relative = path.relative_to(root).as_posix()
    _, crate, _, inner = relative.split("/", 3)
    module = inner.removesuffix(".rt").replace("/", ".")
    source = Source(crate, "" if module in ("lib", "main") else module, relative, imports_of(text),
                    uses(text, False), uses(text, True))
    try:
        read_items(source, text)
        read_functions(source, text)
    except ReadError as error:
        raise ReadError(f"{relative}: {error}") from error
    return source


def read_sources(root: pathlib.Path) -> dict[tuple[str, str], Source]:
    """All files of code, by crate and module."""
    sources = (read_source(root, path) for path in sorted(root.glob("crates/*/src/**/*.rt")))
    return {(source.crate, source.module): source for source in sources}
