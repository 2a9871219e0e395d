"""The rows and the forms of the instruction set, as isa/a64.rows and isa/a64.forms have them."""

import itertools
import pathlib
import re
from collections.abc import Iterator, Mapping
from dataclasses import dataclass, field
from typing import Optional

ROOT = pathlib.Path(__file__).resolve().parents[2]
ROWS = "isa/a64.rows"
FORMS = "isa/a64.forms"

# The words of Encoding.antt for a test, and how many fields or numbers each takes.
TESTS = {"below": 2, "equal": 2, "differ": 2, "mask": 2, "load_store": 2, "load_store_pair": 4,
         "write_back": 2, "two_source": 1, "offset_register": 1}

# The values that two of these tests allow.
ONE_OF = {"two_source": (2, 3, 8, 9, 10, 11), "offset_register": (2, 3, 6, 7)}

KEYS = {"names", "allows", "part", "step", "copies", "text", "accesses", "writes", "overlaps",
        "example"}

# The most bits of a field, by whether it is signed: of a larger one there is no type.
MOST_BITS = {False: 16, True: 32}

# What a field can't be called: words of Rust, and what the written functions and proofs name.
RESERVED = {"as", "break", "const", "else", "enum", "false", "fn", "for", "if", "impl", "in", "let",
            "loop", "match", "mod", "move", "mut", "pub", "ref", "return", "self", "static",
            "struct", "super", "trait", "true", "type", "unsafe", "use", "where", "while",
            "found", "instr", "memory", "outcome", "pc", "regs", "result", "word", "e", "h", "m",
            "r", "v", "w"}


class TableError(Exception):
    """A line of the data that means nothing: its place, the row or form, and the reason."""


def snake_case(name: str) -> str:
    return re.sub(r"(?<!^)(?=[A-Z])", "_", name).lower()


@dataclass(frozen=True)
class Field:
    name: str
    bit: int
    width: int
    signed: bool

    @property
    def type(self) -> str:
        """The type of the field in Rust."""
        if self.signed:
            return "i8" if self.width <= 8 else "i16" if self.width <= 16 else "i32"
        return "u8" if self.width <= 8 else "u16"

    @property
    def mask(self) -> int:
        return ((1 << self.width) - 1) << self.bit

    def read(self, word: int) -> int:
        """The field's value in a word."""
        value = word >> self.bit & ((1 << self.width) - 1)
        return value - (1 << self.width) if self.signed and value >> self.width - 1 else value


@dataclass(frozen=True)
class FieldTest:
    """What fields must be: a word of Encoding.antt with the fields and numbers that it takes; or
    that one test implies another."""
    word: str
    arguments: tuple[str, ...] = ()
    implied: tuple["FieldTest", ...] = ()


@dataclass
class Row:
    name: str
    fields: list[Field]
    fixed: dict[int, int]  # the fixed bits, bit to value
    said: dict[str, str]  # the other lines, key to text
    allows: list[FieldTest] = field(default_factory=list)
    place: str = ROWS  # of its first line
    places: dict[str, str] = field(default_factory=dict)  # of the other lines, by their keys

    def error(self, reason: str, key: str = "") -> TableError:
        """An error of the row, or of its line of a key."""
        said = f"{key}: {reason}" if key in self.places else reason
        return TableError(f"{self.places.get(key, self.place)}: {self.name}: {said}")

    @property
    def function(self) -> str:
        return snake_case(self.name)

    @property
    def base(self) -> int:
        return sum(value << bit for bit, value in self.fixed.items())

    @property
    def fixed_mask(self) -> int:
        return sum(1 << bit for bit in self.fixed)

    @property
    def unsigned(self) -> list[Field]:
        return [f for f in self.fields if not f.signed]

    @property
    def signed(self) -> Optional[Field]:
        """The signed field, of which a row has one at most."""
        return next((f for f in self.fields if f.signed), None)

    def field(self, name: str, key: str = "") -> Field:
        """The field of a name, which its line of a key has."""
        for f in self.fields:
            if f.name == name:
                return f
        raise self.error(f"there is no field {name}", key)

    def constant(self, token: str, key: str) -> tuple[str, int]:
        """A field and its value, as a line of a key has them."""
        name, equals, value = token.partition("=")
        if not equals or not value.isdigit():
            raise self.error(f"`{token}` is not FIELD=NUMBER", key)
        if int(value) >> self.field(name, key).width:
            raise self.error(f"{token} is wider than the field", key)
        return name, int(value)

    def word(self, values: Mapping[str, int]) -> int:
        """The word with these values of its fields."""
        return self.base + sum(values[f.name] << f.bit & f.mask for f in self.fields)

    def values(self, word: int) -> dict[str, int]:
        return {f.name: f.read(word) for f in self.fields}

    def fits(self, word: int) -> bool:
        """Whether the word has the row's fixed bits."""
        return word & self.fixed_mask == self.base

    def refusals(self, word: int) -> list[FieldTest]:
        """The tests that the fields of the word don't satisfy."""
        values = self.values(word)
        return [test for test in self.allows if not holds(test, values)]

    def split(self, key: str) -> list[str]:
        """The words of a line."""
        return self.said.get(key, "").split()


Rows = dict[str, Row]
Placed = tuple[str, str]  # the place of a line, and the line
Separated = tuple[Row, FieldTest]  # a row, and its test that another row's words fail


def element_size(n: int, imms: int) -> int:
    """The size of the element that is repeated in a mask (DecodeBitMasks)."""
    if n == 1:
        return 64
    for bound, size in ((32, 32), (48, 16), (56, 8), (60, 4), (62, 2)):
        if imms < bound:
            return size
    return 1


def holds(test: FieldTest, values: Mapping[str, int]) -> bool:
    """Whether a test holds of the values of fields."""
    word = test.word
    if word == "implies":
        premise, conclusion = test.implied
        return not holds(premise, values) or holds(conclusion, values)
    v = [values[a] if a in values else int(a) for a in test.arguments]
    if word == "below":
        return v[0] < v[1]
    if word == "equal":
        return v[0] == v[1]
    if word == "differ":
        return v[0] != v[1]
    if word == "mask":
        size = element_size(v[0], v[1])
        return v[1] % size != size - 1
    if word == "load_store":
        return (v[0], v[1]) not in {(2, 3), (3, 2), (3, 3)}
    if word == "load_store_pair":
        opc, load, rt, rt2 = v
        return opc != 3 and not (opc == 1 and load == 0) and not (load == 1 and rt == rt2)
    if word == "write_back":
        return v[0] != v[1] or v[0] == 31
    return v[0] in ONE_OF[word]


def fields_of_test(test: FieldTest) -> list[str]:
    """The names and numbers that a test takes."""
    inner = [name for part in test.implied for name in fields_of_test(part)]
    return [*test.arguments, *inner]


def written_test(test: FieldTest) -> str:
    """A test in the words of Encoding.antt."""
    return " ".join([test.word, *test.arguments,
                     *(f"({written_test(part)})" for part in test.implied)])


def short_test(test: FieldTest) -> str:
    """A test as a64.rows has it."""
    if test.implied:
        return " -> ".join(short_test(part) for part in test.implied)
    return " ".join([test.word, *test.arguments])


def parse_test(text: str, row: Row) -> FieldTest:
    """A test of the line `allows`."""
    parts = text.split("->")
    if len(parts) == 2:
        left, right = (parse_test(half, row) for half in parts)
        if left.word != "equal" or right.word == "implies":
            raise row.error(f"`{text.strip()}`: only `equal` implies a test", "allows")
        return FieldTest("implies", implied=(left, right))
    word, *arguments = text.split() or [""]
    if len(parts) > 2 or word not in TESTS:
        raise row.error(f"`{text.strip()}` is no test ({', '.join(TESTS)}, or one -> another)",
                        "allows")
    if len(arguments) != TESTS[word]:
        raise row.error(f"`{text.strip()}`: {word} takes {TESTS[word]}", "allows")
    for number, argument in enumerate(arguments):
        if not argument.isdigit():
            row.field(argument, "allows")
        elif number == 0 or word not in ("below", "equal", "differ"):
            raise row.error(f"`{text.strip()}` has a number where a field is tested", "allows")
    if word == "below" and not arguments[1].isdigit():
        raise row.error(f"`{text.strip()}`: a field is below a number", "allows")
    return FieldTest(word, tuple(arguments))


def parse_field(token: str, bit: int, of: str) -> Field:
    """A field whose highest bit is below `bit`."""
    name, _, width = token.partition(":")
    if not re.fullmatch(r"[a-z][a-z0-9_]*", name) or name in RESERVED:
        raise TableError(f"{of}: a field can't be called `{name}`")
    if not re.fullmatch(r"s?\d+", width):
        raise TableError(f"{of}: the type `{width}` of the field {name} is unknown: WIDTH, or "
                         "sWIDTH for one in two's complement")
    signed = width.startswith("s")
    bits = int(width.removeprefix("s"))
    if not 1 + signed <= bits <= MOST_BITS[signed]:
        raise TableError(f"{of}: the field {token} has no type: an unsigned one has 1 to "
                         f"{MOST_BITS[False]} bits, a signed one 2 to {MOST_BITS[True]}")
    return Field(name, bit - bits, bits, signed)


def parse_pattern(text: str, of: str) -> tuple[list[Field], dict[int, int]]:
    """The fields and the fixed bits of a line of bits; `of` is its place and its row."""
    bit = 32
    fields: list[Field] = []
    fixed: dict[int, int] = {}
    for token in text.split():
        if ":" in token:
            fields.append(parse_field(token, bit, of))
            bit = fields[-1].bit
            continue
        for digit in token:
            if digit not in "01":
                raise TableError(f"{of}: `{token}` is neither a field (NAME:WIDTH) nor fixed bits")
            bit -= 1
            fixed[bit] = int(digit)
    if bit != 0:
        raise TableError(f"{of}: its fields and fixed bits are {32 - bit} bits, and a word has 32")
    names = [f.name for f in fields]
    for name in names:
        if names.count(name) > 1:
            raise TableError(f"{of}: the field {name} is there twice")
    if sum(f.signed for f in fields) > 1:
        raise TableError(f"{of}: there are two signed fields, and the proofs are written for one")
    return fields, fixed


def numbered_lines(path: str) -> Iterator[Placed]:
    """The lines of a file that say something, each with its place."""
    text = (ROOT / path).read_text()
    for number, line in enumerate(text.splitlines(), 1):
        if line.strip() and not line.startswith("#"):
            yield f"{path}:{number}", line


def lines_of_rows_and_groups() -> tuple[list[Placed], list[Placed]]:
    """The lines of the rows, whose names begin with a capital, and those of the encoding groups."""
    rows: list[Placed] = []
    groups: list[Placed] = []
    lines = rows
    for place, line in numbered_lines(ROWS):
        if not line[0].isspace():
            lines = rows if line[0].isupper() else groups
        lines.append((place, line))
    return rows, groups


def read_head(line: str, place: str, rows: Rows) -> Row:
    """The row of a first line."""
    name, _, bits = line.partition(" ")
    if not re.fullmatch(r"[A-Z][A-Za-z0-9]*", name):
        raise TableError(f"{place}: `{name}` can't be the name of a row")
    for other in rows.values():
        if name == other.name:
            raise TableError(f"{place}: {name}: there is a row of this name ({other.place})")
        if snake_case(name) == other.function:
            raise TableError(f"{place}: {name}: its function has the name of {other.name}'s "
                             f"({other.place}), {other.function}")
    fields, fixed = parse_pattern(bits, f"{place}: {name}")
    return Row(name, fields, fixed, {}, place=place)


def read_line(line: str, place: str, row: Row) -> None:
    """Adds a further line to a row."""
    key, _, text = line.strip().partition(" ")
    if key not in KEYS:
        raise TableError(f"{place}: {row.name}: `{key}` is no key")
    if key in row.said:
        raise TableError(f"{place}: {row.name}: `{key}` is there twice")
    row.said[key], row.places[key] = text.strip(), place
    if key == "allows":
        row.allows = [parse_test(test, row) for test in text.split(",")]


def read_rows() -> Rows:
    """The rows, by name, in their order."""
    rows: Rows = {}
    row: Optional[Row] = None
    for place, line in lines_of_rows_and_groups()[0]:
        if not line[0].isspace():
            row = read_head(line, place, rows)
            rows[row.name] = row
        elif row is None:
            raise TableError(f"{place}: a line of no row")
        else:
            read_line(line, place, row)
    for each in rows.values():
        check_row(each, rows)
    check_overlaps(rows)
    return rows


def check_row(row: Row, rows: Rows) -> None:
    """What each row must say, and the words that its lines may have."""
    for key in ("names", "step", "example"):
        if not row.said.get(key):
            raise row.error(f"there is no line `{key}`")
    for key in ("step", "text"):
        check_taken(row, key)
    for token in row.said.get("copies", "").replace(";", " ").split():
        row.constant(token, "copies")
    if "memory" in row.split("step") and "accesses" not in row.said:
        raise row.error("it takes memory and doesn't say how it accesses it")
    digits = row.split("example")[0]
    if not re.fullmatch(r"[0-9A-F]{8}", digits):
        raise row.error(f"`{digits}` is no word of eight hexadecimal digits", "example")
    word = int(digits, 16)
    if not row.fits(word):
        raise row.error(f"{digits} has other fixed bits", "example")
    for test in row.refusals(word):
        raise row.error(f"{digits} is refused: not `{short_test(test)}`", "example")
    for other in row.split("overlaps"):
        if other not in rows:
            raise row.error(f"there is no row {other}", "overlaps")


def check_taken(row: Row, key: str) -> None:
    """Whether the words of `step` or `text` are known: what is taken, fields that are left out, or
    a whole arm of `execute`."""
    text = row.said.get(key, "")
    if key == "step" and "=>" in text:
        return
    known = ("regs", "memory") if key == "step" else ("pc",)
    for word in text.split():
        if word.startswith("-"):
            row.field(word[1:], key)
        elif word not in known:
            raise row.error(f"`{word}` is neither {' nor '.join(known)} nor -FIELD", key)


# ---- rows that overlap


def fails_always(row: Row, tests: list[FieldTest], base: int, mask: int) -> bool:
    """Whether no word with those bits, and the row's fixed bits, satisfies the tests of the row."""
    base, mask = base | row.base, mask | row.fixed_mask
    fields = {row.field(name) for test in tests for name in fields_of_test(test)
              if not name.isdigit()}
    free = [bit for f in fields for bit in range(f.bit, f.bit + f.width) if not mask >> bit & 1]
    words = (base | sum(1 << bit for bit, on in zip(free, chosen) if on)
             for chosen in itertools.product((0, 1), repeat=len(free)))
    values = map(row.values, words)
    return not any(all(holds(test, each) for test in tests) for each in values)


def separating_test(one: Row, other: Row) -> Optional[Separated]:
    """A test of one of two rows that fails for every word that has the fixed bits of both."""
    for row, beside in ((one, other), (other, one)):
        for test in row.allows:
            if fails_always(row, [test], beside.base, beside.fixed_mask):
                return row, test
    return None


def find_overlaps(rows: Rows) -> list[tuple[Row, Row, Optional[Separated]]]:
    """The pairs of rows whose fixed bits don't contradict, and the test that keeps them apart."""
    found = []
    for one, other in itertools.combinations(rows.values(), 2):
        both = one.fixed_mask & other.fixed_mask
        if (one.base ^ other.base) & both == 0:
            found.append((one, other, separating_test(one, other)))
    return found


def check_overlaps(rows: Rows) -> None:
    """Whether rows that overlap say so, and are kept apart; an error is of the lower row."""
    said = {frozenset((name, row.name)) for row in rows.values() for name in row.split("overlaps")}
    for one, other, test in find_overlaps(rows):
        pair = frozenset((one.name, other.name))
        if pair not in said:
            raise other.error(f"it overlaps {one.name} ({one.place}), and neither says so",
                              "overlaps")
        if test is None:
            raise other.error(f"nothing keeps it apart from {one.name} ({one.place}), whose fixed "
                              "bits allow words of it", "overlaps")
        said.remove(pair)
    for row in rows.values():
        for name in row.split("overlaps"):
            if frozenset((name, row.name)) in said:
                raise row.error(f"it doesn't overlap {name} ({rows[name].place})", "overlaps")


def decode(word: int, rows: Rows) -> Optional[Row]:
    """The row that has a word and allows it, if there is one."""
    return next((row for row in rows.values() if row.fits(word) and not row.refusals(word)), None)


# ---- the forms


@dataclass(frozen=True)
class FormTable:
    """An enum of forms, and the names of what is said of it."""
    enum: str
    held: str  # the variant of `Op` that has it; empty for `Op`
    value: str  # before a variant, in a definition
    effect: str  # the definition of what its forms do
    bounds: str  # the definition of the values that their fields may have


FIRST_TABLE = FormTable("Op", "", "op", "effect", "IsOp")

# The tables of the rare forms, by the family that stands in their lines.
RARE_TABLES = {
    "is_rare": FormTable("RareOp", "Rare", "rare", "rare_effect", "IsRareOp"),
    "is_rare_access": FormTable("RareAccess", "RareAccess", "access", "rare_access_effect",
                                "IsRareAccess"),
}


@dataclass
class Form:
    """A form: a row with constant fields, or (`effect`) fields and an effect of its own."""
    name: str
    row: Optional[str]  # the name of the row
    given: dict[str, int]  # the constant fields of the row, name to value
    kept: list[tuple[str, str]]  # the fields that the form keeps: (name, type)
    effect: Optional[str]  # the effect of a form that is no row's
    gprs: list[str]  # the registers that must be below 31
    limits: dict[str, int]  # other limits that the row doesn't give, name to bound
    function: str  # what executes it
    mode: str  # the addressing mode that it is called for, or "" where it takes none
    passed: dict[str, int]  # the constants that it takes and the row does not give, name to value
    text: str
    family: str  # the match that has its arm, or its table; empty for the first match
    place: str = FORMS  # of its line

    @property
    def table(self) -> FormTable:
        return RARE_TABLES.get(self.family, FIRST_TABLE)

    def error(self, reason: str) -> TableError:
        return TableError(f"{self.place}: {self.name}: {reason}")


# The types of the fields that a form keeps.
TYPES = {"u8", "u16", "u32", "u64", "i8", "i16", "i32", "i64"}


def parse_kept(text: str, of: str) -> tuple[str, str]:
    """A field that a form keeps, and its type."""
    name, _, type_name = (part.strip() for part in text.partition(":"))
    if type_name not in TYPES:
        raise TableError(f"{of}: the type `{type_name}` of the field {name} is unknown")
    return name, type_name


def parse_number(token: str, sign: str, of: str) -> tuple[str, int]:
    """A field and a number, with a sign between them."""
    name, _, number = token.partition(sign)
    if not name.isidentifier() or not number.isdigit():
        raise TableError(f"{of}: `{token}` is not FIELD{sign}NUMBER")
    return name, int(number)


def parse_limits(text: str, of: str) -> tuple[list[str], dict[str, int]]:
    """The registers that must be below 31, and the other limits."""
    gprs: list[str] = []
    others: dict[str, int] = {}
    for limit in text.split(","):
        words = limit.split()
        if words[:1] == ["gpr"]:
            gprs = words[1:]
        elif words:
            name, bound = parse_number("".join(words), "<", of)
            others[name] = bound
    return gprs, others


def parse_form(line: str, rows: Rows, place: str) -> Form:
    parts = [part.strip() for part in line.split("|")]
    name, _, rest = parts[0].partition(" ")
    of = f"{place}: {name}"
    if len(parts) != 5:
        raise TableError(f"{of}: the line has {len(parts)} parts, and a form has 5")
    _, limits, call, text, family = parts
    gprs, others = parse_limits(limits, of)
    called, *constants = call.split() or [""]
    function, _, mode = called.partition(":")
    if not function or not text or not re.fullmatch(r"[A-Z][A-Za-z0-9]*", name):
        raise TableError(f"{of}: the name, the function or the text is missing")
    form = Form(name, None, {}, [], None, gprs, others, function, mode,
                dict(parse_number(c, "=", of) for c in constants), text, family, place)
    if rest.startswith("{"):
        fields, _, own = rest[1:].partition("}")
        form.kept = [parse_kept(f, of) for f in fields.split(",") if f]
        form.effect = own.strip()
    else:
        take_row(form, rest.split(), rows)
    check_form(form)
    return form


def take_row(form: Form, words: list[str], rows: Rows) -> None:
    """Gives a form its row and the constants of it."""
    if not words or words[0] not in rows:
        raise form.error(f"there is no row {words[0] if words else 'named'}")
    row = rows[words[0]]
    form.row = row.name
    for name, value in (parse_number(c, "=", f"{form.place}: {form.name}") for c in words[1:]):
        if all(f.name != name for f in row.fields):
            raise form.error(f"{row.name} has no field {name}")
        if value >> row.field(name).width:
            raise form.error(f"{name}={value} is wider than the field")
        form.given[name] = value
    form.kept = [(f.name, f.type) for f in row.fields if f.name not in form.given]


def check_form(form: Form) -> None:
    """Whether the limits are of fields that the form keeps, and its own constants of no others."""
    kept = dict(form.kept)
    for name in [*form.gprs, *form.limits]:
        if name not in kept:
            raise form.error(f"it keeps no field {name}")
    for name in form.passed:
        if form.row or name in kept:
            raise form.error(f"it has {name} already, or has it from its row")


def read_forms(rows: Rows) -> list[Form]:
    """The forms, in their order."""
    forms: dict[str, Form] = {}
    for place, line in numbered_lines(FORMS):
        form = parse_form(line, rows, place)
        if form.name in forms:
            raise form.error(f"there is a form of this name ({forms[form.name].place})")
        forms[form.name] = form
    return list(forms.values())


def bounds(form: Form, rows: Rows) -> dict[str, int]:
    """The bound of each unsigned field that a form keeps: the form's own, what the row's refusals
    leave with the form's constants, or what the field's width gives."""
    found = {}
    for name, type_name in form.kept:
        if type_name.startswith("i"):
            continue
        if name in form.gprs:
            found[name] = 31
        elif name in form.limits:
            found[name] = form.limits[name]
        elif form.row:
            width = rows[form.row].field(name).width
            found[name] = bound_by_row(rows[form.row], name, form.given, 1 << width)
    return found


def bound_by_row(row: Row, name: str, given: Mapping[str, int], bound: int) -> int:
    """What the row's refusals leave of a field, where those constants are given."""
    for test in row.allows:
        if test.implied:
            premise, test = test.implied
            if any(a not in given and not a.isdigit() for a in premise.arguments):
                continue
            if not holds(premise, given):
                continue
        if test.word == "below" and test.arguments[0] == name:
            bound = min(bound, int(test.arguments[1]))
    return bound
