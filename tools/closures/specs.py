"""Files of definitions (specs/*.antt), read as far as names go."""

import dataclasses
import pathlib
import re

from closures.names import Imports, Name, imports_of

HEAD = re.compile(
    r"(?P<marks>(?:abbrev |unfoldable |pub |private )*)"
    r"(?:(?P<kind>record|data) (?P<type>\S+)|(?P<name>\S+) +:(?=\s|$)|(?P<bare>\S+):(?=\s|$))")
CONSTRUCTOR = re.compile(r"^\s+(\S+)\s*:", re.M)
# Lines that say how a name is written or when the prover replaces it, and what is no definition.
ASIDE = re.compile(r"(?:infix[lr]?|unfolding|syntax) |(?:pub |abbrev pub )?(?:use|mod) ")


@dataclasses.dataclass(frozen=True)
class Definition:
    """A definition, with the lines that it takes."""

    name: Name
    path: str
    start: int
    text: str
    comments: int
    is_data: bool

    @property
    def lines(self) -> int:
        """How many lines it has, without blank ones and comments."""
        return sum(1 for line in self.text.split("\n") if line.strip())


@dataclasses.dataclass
class Module:
    """A file of definitions."""

    crate: str
    name: str
    path: str
    imports: Imports
    length: int
    definitions: dict[str, Definition] = dataclasses.field(default_factory=dict)
    constructors: dict[str, str] = dataclasses.field(default_factory=dict)


def heads(lines: list[str]) -> list[tuple[int, str, bool]]:
    """Where each definition begins, with its name, and whether it is `data`."""
    found: list[tuple[int, str, bool]] = []
    for number, line in enumerate(lines):
        if not line[:1].strip() or line.startswith("--") or ASIDE.match(line):
            continue
        head = HEAD.match(line)
        if head is None:
            continue
        name = head["type"] or head["name"] or head["bare"]
        is_equation = bool(found) and not head["marks"] and name == found[-1][1]
        if not is_equation:
            found.append((number, name, head["kind"] == "data"))
    return found


def comments_above(lines: list[str], start: int) -> int:
    """How many lines of comment stand right above a line."""
    count = 0
    while start - count > 0 and lines[start - count - 1].startswith("--"):
        count += 1
    return count


def body_of(lines: list[str], start: int, end: int) -> str:
    """The lines of a definition, without comments and what says how it is written."""
    kept = [re.sub(r"(^|\s)--(\s.*|$)", "", line) for line in lines[start:end]
            if not line.startswith("--") and not ASIDE.match(line)]
    return "\n".join(kept).rstrip()


def read_module(root: pathlib.Path, path: pathlib.Path) -> Module:
    """Reads a file."""
    text = path.read_text(encoding="utf-8")
    relative = path.relative_to(root).as_posix()
    _, crate, _, inner = relative.split("/", 3)
    module = Module(crate, inner.removesuffix(".antt").replace("/", "."), relative,
                    imports_of(text), text.count("\n"))
    lines = text.split("\n")
    starts = heads(lines)
    ends = [start for start, _, _ in starts[1:]] + [len(lines)]
    for (start, name, is_data), end in zip(starts, ends):
        body = body_of(lines, start, end)
        module.definitions[name] = Definition(
            Name("definition", crate, module.name, name), relative, start + 1, body,
            comments_above(lines, start), is_data)
        if is_data:
            inner_lines = body.partition("\n")[2]
            module.constructors |= {it[1]: name for it in CONSTRUCTOR.finditer(inner_lines)}
    return module


def read_modules(root: pathlib.Path) -> dict[tuple[str, str], Module]:
    """All files of definitions, by crate and module."""
    modules = (read_module(root, path) for path in sorted(root.glob("crates/*/specs/**/*.antt")))
    return {(module.crate, module.name): module for module in modules}
