"""Writes docs/project/INSTRUCTIONS.md, and says what a word is."""

from collections.abc import Mapping
from typing import Optional

from a64 import table
from a64.accesses import STORES, access_call
from a64.table import FieldTest, Form, Row, Rows

PATH = "docs/project/INSTRUCTIONS.md"

HEAD = """\
<!-- Written by tools/isa.py from isa/a64.rows and isa/a64.forms. Do not edit. -->
# The instructions

{rows} rows of encodings (Arm ARM DDI 0487, C4.1 and C6.2), and {forms} forms in which a run keeps \
what it has decoded. A word of no row is no instruction: a step of it ends with `Illegal`, and so \
does one of a row with fields that the row refuses. `tools/isa.py --why WORD` says of a word in \
hexadecimal which row has it, its fields, what refuses it, and its form.

A row's bits are from bit 31 to bit 0: `NAME:WIDTH` is a field, `NAME:sWIDTH` one in two's \
complement, and digits are fixed. `rn`, `rm`, `rd`, `rt`, `rt2` and `ra` are registers, where 31 \
is the zero register or SP, as the manual says for each instruction; with `sf` 0 operands have 32 \
bits.
"""

TAIL = """
## Rows that overlap

The fixed bits of these rows allow the same words; what a row refuses keeps them apart.

{overlaps}
"""


def test_words(test: FieldTest) -> str:
    """A test as a sentence's end: what must be."""
    a = [f"`{x}`" if not x.isdigit() else x for x in test.arguments]
    if test.implied:
        premise, conclusion = test.implied
        return f"{test_words(conclusion)} if {test_words(premise)}"
    return {
        "below": "{0} is below {1}",
        "equal": "{0} is {1}",
        "differ": "{0} is not {1}",
        "mask": "{0} and {1} encode a mask (DecodeBitMasks)",
        "load_store": "{0} and {1} are a load or a store of 1, 2, 4 or 8 bytes",
        "load_store_pair": "{0} and {1} are a load or a store of a pair, and a load has two "
                           "registers {2} and {3}",
        "write_back": "{0} and {1} differ unless {0} is 31",
        "two_source": "{0} is 2, 3 or 8 to 11",
        "offset_register": "{0} is 2, 3, 6 or 7",
    }[test.word].format(*a, *[""] * 4)


def bits_of(row: Row) -> str:
    """The row's line of bits, as the data have it."""
    tokens: list[str] = []
    fixed, bit = "", 31
    fields = {f.bit + f.width - 1: f for f in row.fields}
    while bit >= 0:
        f = fields.get(bit)
        if f is None:
            fixed += str(row.fixed[bit])
            bit -= 1
            continue
        tokens += [fixed, f"{f.name}:{'s' if f.signed else ''}{f.width}"]
        fixed = ""
        bit -= f.width
    return " ".join(token for token in [*tokens, fixed] if token)


def sentences(row: Row, forms: list[Form]) -> str:
    """What is told of a row below its bits."""
    word, _, text = row.said["example"].partition(" ")
    said = [f"Example: `{word}` is `{text}`."]
    if row.allows:
        said.append("Allowed where " + "; ".join(test_words(test) for test in row.allows) + ".")
    function = access_call(row).partition("(")[0]
    if function in STORES:
        field = STORES[function]
        said.append(f"Stores where `{field}` is 0." if field else "Always stores.")
    own = [f"`{form.name}`" for form in forms if form.row == row.name]
    if own:
        said.append(f"Forms: {', '.join(own)}.")
    return " ".join(said)


def row_page(row: Row, forms: list[Form]) -> str:
    """The section of a row."""
    return "\n".join([f"### {row.name}", "", row.said["names"], "", f"    {bits_of(row)}", "",
                      sentences(row, forms)])


def written(rows: Rows, forms: list[Form]) -> dict[str, str]:
    sections = [row_page(row, forms) for row in rows.values()]
    own = [f"`{form.name}` ({form.text.rstrip('.')})" for form in forms if not form.row]
    worked_out = ("## Forms with a value that is worked out\n\n"
                  "Made of logical immediates, of moves of constants and of UBFM, whose fields are "
                  f"worked out: {', '.join(own)}.")
    text = "\n\n".join([HEAD.format(rows=len(rows), forms=len(forms)).rstrip("\n"), "## The rows",
                        *sections, worked_out])
    return {PATH: text + "\n" + TAIL.format(overlaps=overlaps(rows))}


def overlaps(rows: Rows) -> str:
    """Each pair of rows that overlap, and what keeps them apart."""
    lines = []
    for one, other, found in table.find_overlaps(rows):
        assert found, "a row's overlaps were checked when it was read"
        row, test = found
        lines.append(f"- {one.name} and {other.name}: {row.name} is allowed only where "
                     f"{test_words(test)}.")
    return "\n".join(lines)


def matching_form(row: Row, values: Mapping[str, int], forms: list[Form],
                  rows: Rows) -> Optional[Form]:
    """The first form that has the row with these fields."""
    for form in forms:
        if form.row != row.name or any(values[f] != v for f, v in form.given.items()):
            continue
        if all(values[f] < bound for f, bound in table.bounds(form, rows).items()):
            return form
    return None


def explained(word: int, rows: Rows, forms: list[Form]) -> str:
    """What a word is: row, fields, and what refuses it or its form."""
    lines = []
    for row in rows.values():
        if not row.fits(word):
            continue
        values = row.values(word)
        fields = " ".join(f"{name}={value}" for name, value in values.items())
        lines.append(f"{word:08X}: {row.name} {fields}".rstrip())
        lines.append(f"  {row.said['names']}")
        refusals = row.refusals(word)
        lines += [f"  refused: allowed only where {test_words(test)}" for test in refusals]
        if refusals:
            continue
        form = matching_form(row, values, forms, rows)
        if form:
            kept = " ".join(f"{name}={values[name]}" for name, _ in form.kept)
            kind = "rare form" if form.table.held else "form"
            lines.append(f"  {kind} {form.name} {kept}".rstrip() + f": {form.function}")
        elif row.name in ("LogImm", "MoveWide"):
            lines.append("  a form with its mask or constant worked out, where its registers are "
                         "below 31")
        else:
            lines.append("  no form of its own")
    return "\n".join(lines) or f"{word:08X}: no row has its fixed bits"
