"""Reads the definitions by hand (specs/*.antt) and evaluates them on numbers.

What has no definition in the files that are read is an unknown value. Accesses to memory don't
fault; what they leave is given as a term that names it, and each address has a byte and a tag.
"""

import functools
import re
from collections.abc import Callable, Sequence
from dataclasses import dataclass, field
from typing import Any

from a64 import table

# The definitions that are read; those of the values of data processing are not.
READ = ("a64_bits/specs/Addresses.antt", "a64_bits/specs/Fields.antt", "a64_registers/specs/*.antt",
        "a64_step/specs/*.antt")

Value = Any  # a number, a truth value, a list, a record (dict), a variant (tuple), a function
Node = tuple[Any, ...]  # an expression: what it is, and its parts
Environment = dict[str, Value]

TOKEN = re.compile(r"\s*(?:(0x[0-9A-F]+|\d+)|([A-Za-z_][\w']*(?:\.[A-Za-z_]\w*)*)"
                   r"|(\+\+|==|&&|\|\||[-+*/%^∷(){};=.λ\[\],<]))")
KEYWORDS = {"if", "then", "else", "let", "in", "record"}
LEVELS = (("||",), ("&&",), ("==", "<"), ("∷", "++"), ("+", "-"), ("*", "/", "%"), ("^",))
RIGHT = {"∷", "++", "^"}


class DefinitionError(Exception):
    """A definition that can't be read or evaluated."""


@dataclass(frozen=True)
class Unknown:
    """A value that isn't worked out."""


@dataclass(frozen=True)
class Function:
    arity: int
    call: Callable[..., Value]
    given: tuple[Value, ...] = ()


@dataclass
class Definition:
    """The equations of a name, (patterns, body) each as text, and the comment above it."""
    comment: str
    equations: list[tuple[str, str]] = field(default_factory=list)


class Registers(list[Value]):
    """The numbered registers, and the values that were written to some of them."""

    def __init__(self, values: Sequence[Value], written: dict[int, Value]) -> None:
        super().__init__(values)
        self.written = written


# ---- expressions


def composite(kind: str, *parts: Any) -> Node:
    return (kind, *parts)


class Reader:
    """Reads an expression."""

    def __init__(self, text: str) -> None:
        self.tokens: list[str] = []
        at = 0
        text = text.rstrip()
        while at < len(text):
            found = TOKEN.match(text, at)
            if not found:
                raise DefinitionError(f"`{text[at:at + 20]}` can't be read")
            self.tokens.append(found[0].strip())
            at = found.end()
        self.at = 0

    @property
    def next(self) -> str:
        return self.tokens[self.at] if self.at < len(self.tokens) else ""

    def take(self, wanted: str = "") -> str:
        token = self.next
        if not token or wanted and token != wanted:
            raise DefinitionError(f"`{token}` where `{wanted or 'more'}` is expected")
        self.at += 1
        return token

    def expression(self) -> Node:
        if self.next == "if":
            parts = [self.after(word) for word in ("if", "then", "else")]
            return ("if", *parts)
        if self.next == "let":
            self.take()
            name = self.take()
            return ("let", name, self.after("="), self.after("in"))
        if self.next == "λ":
            self.take()
            name = self.take()
            return ("lambda", name, self.after("."))
        return self.binary(0)

    def after(self, word: str) -> Node:
        """The expression behind a word."""
        self.take(word)
        return self.expression()

    def binary(self, level: int) -> Node:
        if level == len(LEVELS):
            return self.application()
        left = self.binary(level + 1)
        while self.next in LEVELS[level]:
            sign = self.take()
            right = self.binary(level if sign in RIGHT else level + 1)
            left = composite("binary", sign, left, right)
        return left

    def application(self) -> Node:
        parts = [self.atom()]
        while self.next in ("(", "[", "record") or (
                re.match(r"[A-Za-z_0-9]", self.next) and self.next not in KEYWORDS):
            parts.append(self.atom())
        return parts[0] if len(parts) == 1 else ("apply", *parts)

    def atom(self) -> Node:
        token = self.take()
        if token[0].isdigit():
            return ("number", int(token, 0))
        if token == "record":
            return self.record()
        if token == "[":
            self.take("]")
            return ("list",)
        if token == "(":
            node = self.expression()
            self.take(")")
            while self.next == ".":
                self.take()
                node = composite("project", node, self.take())
            return node
        name, *members = token.split(".")
        if members and members[-1][0].isupper():
            return ("name", members[-1])
        node = composite("name", name)
        for member in members:
            node = composite("project", node, member)
        return node

    def record(self) -> Node:
        base = None if self.next == "{" else self.atom()
        self.take("{")
        members: list[tuple[str, Node]] = []
        while self.next != "}":
            name = self.take()
            members.append((name, self.after("=")))
            if self.next == ";":
                self.take()
        self.take("}")
        return ("record", base, members)


@functools.cache
def read_expression(text: str) -> Node:
    reader = Reader(text)
    node = reader.expression()
    if reader.next:
        raise DefinitionError(f"`{reader.next}` is behind an expression")
    return node


# ---- files


def read_definitions() -> dict[str, Definition]:
    """The definitions, by name."""
    found: dict[str, Definition] = {}
    for files in READ:
        for path in sorted((table.ROOT / "crates").glob(files)):
            read_file(path.read_text(), found)
    return found


def read_file(text: str, found: dict[str, Definition]) -> None:
    """Adds the definitions of a file."""
    comment: list[str] = []
    lines = re.sub(r"\n[ \t]+", " ", text).split("\n")
    for line in lines:
        declared = re.match(r"(?:unfoldable |abbrev )?(?:pub )?(\w+) : ", line)
        equation = re.match(r"(\w+)((?: [^=]*?)?) = (.*)", line)
        if line.startswith("--"):
            comment.append(line.lstrip("- "))
        elif declared:
            if declared[1] in found:
                raise DefinitionError(f"{declared[1]} is defined twice in {', '.join(READ)}")
            found[declared[1]] = Definition(" ".join(comment))
            comment = []
        elif equation and equation[1] in found:
            found[equation[1]].equations.append((equation[2].strip(), equation[3]))
        elif not line:
            comment = []


# ---- what isn't read from files


def little_endian_number(values: Sequence[Value]) -> Value:
    """The number of bytes, the lowest first."""
    return combine(lambda *each: sum(byte << 8 * k for k, byte in enumerate(each)), *values)


def combine(call: Callable[..., Value], *values: Value) -> Value:
    """The value of a function of known values, else an unknown one."""
    if any(isinstance(value, Unknown) for value in values):
        return Unknown()
    return call(*values)


def replace_item(values: Value, place: int, value: Value) -> Value:
    """A list with another item; of the registers, with a record of it."""
    changed = [*values[:place], value, *values[place + 1:]]
    if not isinstance(values, Registers):
        return changed
    return Registers(changed, {**values.written, place: value})


def term(name: str, arity: int) -> Function:
    """A function whose result names it and its arguments."""
    return Function(arity, lambda *values: (name, *values))


def lift(arity: int, call: Callable[..., Value]) -> Function:
    """A function of known values."""
    return Function(arity, functools.partial(combine, call))


def byte_read(address: int) -> int:
    """The byte that a load finds at an address."""
    return address * 0x9E37_79B9 >> 13 & 255


def tag_read(address: int) -> int:
    """The tag of the granule that holds a plain address."""
    return byte_read(address >> 4) & 15


NOTHING = ("None",)


def no_fault(*_: Value) -> Value:
    return NOTHING


GIVEN: Environment = {
    "true": True, "false": False, "w8": 1, "w16": 2, "w32": 4, "w64": 8,
    "not": lift(1, lambda v: not v),
    "nat_lt": lift(2, lambda a, b: a < b), "nat_le": lift(2, lambda a, b: a <= b),
    "pos": lift(1, lambda n: n), "int_eq": lift(2, lambda a, b: a == b),
    "bit_and": lift(2, lambda a, b: a & b), "bit_or": lift(2, lambda a, b: a | b),
    "bit_xor": lift(2, lambda a, b: a ^ b),
    "twos_complement": lift(2, lambda width, n: n % (1 << width)),
    "signed_of": lift(2, lambda width, n: n if n < 1 << width - 1 else n - (1 << width)),
    "slice_index": Function(2, lambda items, at: combine(lambda k: items[k], at)
                            if not isinstance(items, Unknown) else items),
    "slice_set": Function(3, replace_item),
    "byte_len": lift(1, lambda width: width),
    "byte_worth": lift(2, lambda k, byte: byte << 8 * k),
    "to_le_bytes": lift(2, lambda width, n: [n >> 8 * k & 255 for k in range(width)]),
    "from_le_bytes": Function(2, lambda width, values: values if isinstance(values, Unknown)
                              else little_endian_number(values)),
    "sum_through": Function(2, lambda call, last: combine(
        lambda *each: sum(each), *(apply(call, [k]) for k in range(last + 1)))),
    # Memory: no access faults, what is read depends on the address, and what is written is named.
    "read_fault": Function(4, no_fault), "write_fault": Function(4, no_fault),
    "tags_fault": Function(3, no_fault), "tag_load_fault": Function(2, no_fault),
    "or_else": Function(2, lambda one, other: other if one == NOTHING else one),
    "read_bytes": lift(3, lambda _, at, count: [byte_read(at + k) for k in range(count)]),
    "tag_at": lift(2, lambda _, at: tag_read(at)),
    "tag_result": Function(2, lambda fault, tag: ("Ok", tag)),
    "after_read": term("after_read", 4), "after_write": term("after_write", 4),
    "with_granules": term("with_granules", 5), "with_bytes_at": term("with_bytes_at", 3),
}

OPERATIONS: dict[str, Callable[[Value, Value], Value]] = {
    "+": lambda a, b: a + b, "-": lambda a, b: max(0, a - b),
    "*": lambda a, b: a * b, "/": lambda a, b: a // b if b else 0,
    "%": lambda a, b: a % b if b else a, "^": lambda a, b: a ** b,
    "==": lambda a, b: a == b, "<": lambda a, b: a < b, "++": lambda a, b: a + b,
    "∷": lambda a, b: [a, *b],
}


def apply(function: Value, values: Sequence[Value]) -> Value:
    """A function of some values."""
    if isinstance(function, Unknown):
        return combine(lambda *_: function, *values)
    if isinstance(function, tuple):
        return (*function, *values)
    if not isinstance(function, Function):
        raise DefinitionError(f"{function} is apply, and is no function")
    given = [*function.given, *values]
    if len(given) < function.arity:
        return Function(function.arity, function.call, tuple(given))
    result = function.call(*given[:function.arity])
    return apply(result, given[function.arity:]) if len(given) > function.arity else result


class Definitions:
    """The definitions, by which expressions are evaluated."""

    def __init__(self, read: dict[str, Definition]) -> None:
        self.read = read
        self.values: Environment = dict(GIVEN)

    def find_value(self, name: str) -> Value:
        """The value of a name that is no variable."""
        if name not in self.values:
            self.values[name] = self.make_value(name)
        return self.values[name]

    def make_value(self, name: str) -> Value:
        definition = self.read.get(name)
        if definition is None or not definition.equations:
            return (name,) if name[0].isupper() else Unknown()
        patterns = [read_patterns(left) for left, _ in definition.equations]
        bodies = [right for _, right in definition.equations]
        if not patterns[0]:
            return self.evaluate(read_expression(bodies[0]), {})

        def call(*values: Value) -> Value:
            for pattern, body in zip(patterns, bodies):
                bound = match_patterns(pattern, values)
                if isinstance(bound, Unknown):
                    return bound
                if bound is not None:
                    return self.evaluate(read_expression(body), bound)
            raise DefinitionError(f"no equation of {name} has {values}")

        return Function(len(patterns[0]), call)

    def evaluate(self, node: Node, bound: Environment) -> Value:
        """The value of an expression, where its variables have these."""
        kind, *parts = node
        if kind == "number":
            return parts[0]
        if kind == "name":
            return bound[parts[0]] if parts[0] in bound else self.find_value(parts[0])
        if kind == "list":
            return []
        if kind == "if":
            test = self.evaluate(parts[0], bound)
            if isinstance(test, Unknown):
                return test
            return self.evaluate(parts[1 if test else 2], bound)
        if kind == "let":
            value = self.evaluate(parts[1], bound)
            return self.evaluate(parts[2], {**bound, parts[0]: value})
        if kind == "lambda":
            return Function(1, lambda value: self.evaluate(parts[1], {**bound, parts[0]: value}))
        if kind == "apply":
            function, *values = (self.evaluate(part, bound) for part in parts)
            return apply(function, values)
        return self.evaluate_composite(kind, parts, bound)

    def evaluate_composite(self, kind: str, parts: Sequence[Any], bound: Environment) -> Value:
        """The value of an operation, a member of a record, or a record."""
        if kind == "binary":
            left = self.evaluate(parts[1], bound)
            if parts[0] in ("&&", "||"):
                short = combine(lambda it: it == (parts[0] == "||"), left)
                if short is True or isinstance(short, Unknown):
                    return left
                return self.evaluate(parts[2], bound)
            return combine(OPERATIONS[parts[0]], left, self.evaluate(parts[2], bound))
        if kind == "project":
            record = self.evaluate(parts[0], bound)
            return record if isinstance(record, Unknown) else record[parts[1]]
        base, members = parts
        values = {name: self.evaluate(part, bound) for name, part in members}
        old = {} if base is None else self.evaluate(base, bound)
        return old if isinstance(old, Unknown) else {**old, **values}


@functools.cache
def read_patterns(text: str) -> list[Node]:
    """The patterns on the left side of an equation."""
    if not text:
        return []
    node = Reader(f"patterns {text}").application()
    return list(node[2:])


def match_patterns(patterns: Sequence[Node], values: Sequence[Value]) -> Value:
    """What the variables of patterns are, None where a value has another form, or an unknown."""
    bound: Environment = {}
    for pattern, value in zip(patterns, values):
        head, *inner = pattern[1:] if pattern[0] == "apply" else [pattern]
        if head[0] == "name" and not head[1][0].isupper() and head[1] not in ("true", "false"):
            bound[head[1]] = value
            continue
        if isinstance(value, Unknown):
            return value
        wanted = {"true": True, "false": False}.get(head[1], head[1])
        if (value[0] if isinstance(value, tuple) else value) != wanted:
            return None
        for name, part in zip(inner, value[1:] if isinstance(value, tuple) else ()):
            bound[name[1]] = part
    return bound
