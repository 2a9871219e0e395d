"""The files that the rows of isa/a64.rows give, beside those of crate a64_step."""

from collections.abc import Iterable, Sequence

from a64 import calls
from a64.calls import Call, Sources
from a64.forms import check_passed
from a64.groups import read_groups, way_of
from a64.layout import functions_used
from a64.table import ONE_OF, ROWS, Field, FieldTest, Row, Rows, TableError

COLUMNS = 100  # of a line of what is written
FIELDS_ON_A_LINE = 18  # columns of a struct's fields, beyond which each has a line

# The most parameters of a function of the encoder. Of a row with more fields it takes them as the
# function of a64_step does, by structs.
MOST_PARAMETERS = 6

# What a function takes: names and types.
Parameters = list[tuple[str, str]]

# The groups on the way to each row, and the steps of the proof that its words take it.
Ways = dict[str, tuple[list[str], list[str]]]

WRITTEN = f"Written by tools/isa.py from {ROWS}. Do not edit."

# What refuses the values that a test of Encoding.antt does not allow, in the code.
REFUSED = {
    "equal": "{0} != {1}",
    "differ": "{0} == {1}",
    "mask": "!is_mask({0}, {1})",
    "load_store": "!is_load_store({0}, {1})",
    "load_store_pair": "!is_load_store_pair({0}, {1}, {2}, {3})",
    "write_back": "!may_write_back({0}, {1})",
}


def written(rows: Rows) -> dict[str, str]:
    """The path of each file, and its text."""
    classes, groups = read_groups(rows)
    ways = {name: way_of(row, classes, groups) for name, row in rows.items()}
    listed = list(rows.values())
    return {
        "crates/a64_instr/src/instruction.rt": instruction_file(listed),
        "crates/a64_asm/src/rows.rt": encoder_file(
            listed, calls.read_sources(set(), calls.ROW_CRATES)),
        "crates/a64_decode/specs/Fields.antt": fields_file(listed),
        "crates/a64_decode/src/rows.rt": decoder_file(listed),
        "crates/a64_decode/proofs/RowLemmas.antt": lemmas_file(listed, ways),
        "crates/a64_text/src/rows.rt": text_file(
            listed, calls.read_sources(set(), calls.TEXT_CRATES)),
        "tools/disassembly/rows.py": objdump_file(listed),
    }


# ---- lines


def filled(parts: Iterable[str], start: str, indent: str) -> str:
    """The parts, with a space between two of them, in lines: the first begins with `start`, each
    other with the indent."""
    lines: list[str] = []
    line, empty = start, True
    for part in parts:
        longer = line + part if empty else f"{line} {part}"
        if len(longer) > COLUMNS and not empty:
            lines.append(line)
            longer = indent + part
        line, empty = longer, False
    return "\n".join([*lines, line])


def with_commas(parts: list[str], end: str = "") -> list[str]:
    """The parts, a comma behind each but the last, which has the end."""
    return [part + "," for part in parts[:-1]] + [parts[-1] + end]


def one_line_or(line: str, several: str) -> str:
    """The line where it is short enough, else the several."""
    return line if len(line) <= COLUMNS else several


def names(row: Row, without: Sequence[str] = ()) -> list[str]:
    return [f.name for f in row.fields if f.name not in without]


def left_out(row: Row, key: str) -> list[str]:
    """The fields that a line of the row leaves out (-NAME)."""
    return [word[1:] for word in row.split(key) if word.startswith("-")]


def hexadecimal(word: int) -> str:
    """A word as Rust has it."""
    return f"0x{word >> 16:04X}_{word & 0xFFFF:04X}"


def applied(row: Row) -> str:
    """The instruction of a row with its fields, in a definition."""
    text = " ".join([f"instr.{row.name}", *names(row)])
    return f"({text})" if row.fields else text


def pattern(row: Row, unused: Sequence[str] = ()) -> str:
    """The pattern of a row with its fields, in the code."""
    shown = ", ".join(f"{name}: _" if name in unused else name for name in names(row))
    return f"Instr::{row.name} {{ {shown} }}" if shown else f"Instr::{row.name}"


def arm(left: str, right: str) -> str:
    """An arm of a match, whose pattern and value stand in a function."""
    return one_line_or(f"        {left} => {right},", f"        {left} =>\n            {right},")


def fields_of_macro(row: Row, first: Sequence[str]) -> list[str]:
    """What comes first, and the fields of a row as the macros `row` take them: each with its lowest
    bit and its width."""
    fields = [*first, *(f"{f.name} {f.bit}:{f.width}" for f in row.unsigned)]
    fields = with_commas(fields or [""])
    signed = row.signed
    if signed:
        fields[-1] += f"; signed {signed.name} {signed.bit}:{signed.width}"
    return fields


def refusal(test: FieldTest) -> str:
    """What refuses what the test does not allow, as an expression of the code."""
    word, arguments = test.word, test.arguments
    if word == "implies":
        premise, allowed = test.implied
        if premise.word != "equal":
            raise TableError(f"{ROWS}: a premise that isn't `equal`: {premise.word}")
        return f"{premise.arguments[0]} == {premise.arguments[1]} && {refusal(allowed)}"
    if word == "below":
        return f"{arguments[0]} > {int(arguments[1]) - 1}"
    if word in ONE_OF:
        return f"!matches!({arguments[0]}, {' | '.join(map(str, ONE_OF[word]))})"
    return REFUSED[word].format(*arguments)


def call_of_macro(row: Row, start: str, first: Sequence[str] = ()) -> str:
    """The call of a macro `row`: what comes before the fields, these and the refusals."""
    fields = fields_of_macro(row, first)
    refusals = [refusal(test) for test in row.allows]
    if not refusals:
        fields[-1] += ")"
        return filled(fields, start, " " * 8)
    line = start + " ".join(fields) + f"; refused {', '.join(refusals)})"
    fields[-1] += ";"
    return one_line_or(line, filled(fields, start, " " * 8) + "\n" + filled(
        with_commas(refusals, ")"), "        refused ", " " * 12))


# ---- a64_instr


INSTRUCTION_FILE = """\
// {written}
//! The instructions (Arm ARM DDI 0487, C4.1): one variant for each row of the table of encodings.

/// An A64 instruction of the profile: its variant is the row of the encoding table, its fields are
/// the row's fields as encoded in the word (Arm ARM DDI 0487, C4.1 and C6.2).
///
/// Fields are plain numbers; `encode` of `a64_asm` says which values are allowed. Offsets are
/// signed and count the unit of their instruction (bytes, words, pairs or granules).
#[derive(Clone, Copy)]
#[rattlefmt::skip]
pub enum Instr {{
{variants}
}}
"""


def variant(row: Row) -> str:
    """The variant of a row, with its mnemonics."""
    fields = [f"{f.name}: {f.type}" for f in row.fields]
    shape = f" {{ {', '.join(fields)} }}" if fields else ""
    return f"    /// {row.said['names']}\n    {row.name}{shape},"


def instruction_file(rows: list[Row]) -> str:
    return INSTRUCTION_FILE.format(written=WRITTEN, variants="\n".join(map(variant, rows)))


# ---- a64_asm


ENCODER_FILE = """\
// {written}
//! The word of an instruction by its row (Arm ARM DDI 0487, C4.1): the base, the fields and the
//! refusals of each.

ghost use Rattle.a64_asm.specs.Encoding.{{Encodes}};
ghost use Rattle.a64_instr.specs.declared.instruction.Instr.TheVariants as instr;

use crate::refusals::{{is_load_store, is_load_store_pair, may_write_back}};
use crate::row::row;
use a64_bits::{{fits_signed, is_mask, signed_bits}};
use a64_instr::Instr;
{structs}
/// The word of `instr`, by the function of its row.
#[rattlefmt::skip]
pub fn word_by_row(instr: &Instr) -> Option<u32>
    ensures {{ Encodes result instr.now }}
{{
    match *instr {{
{arms}
    }}
}}

{functions}
"""


def parameters_of(row: Row, sources: Sources) -> Parameters:
    """What the encoder's function of a row takes, by names and types: its fields or, where these
    are too many, what the function of a64_step takes, and the fields that it leaves out."""
    fields = [(f.name, f.type) for f in row.fields]
    if len(fields) <= MOST_PARAMETERS:
        return fields
    function = sources.functions[row.function]
    without = left_out(row, "step")
    return [*(taken for taken in function.parameters if taken[0] not in calls.STATE),
            *(each for each in fields if each[0] in without)]


def structs_of(row: Row, sources: Sources) -> list[tuple[str, str, list[str]]]:
    """The parameters that are structs: their names, types and fields."""
    return [(name, kind, sources.structs[kind].fields)
            for name, kind in parameters_of(row, sources) if kind in sources.structs]


def encoder_arm(row: Row, sources: Sources) -> str:
    if not row.fields:
        return arm(pattern(row), f"Some({hexadecimal(row.base)})")
    given = {name: calls.made(kind, {field: field for field in fields})
             for name, kind, fields in structs_of(row, sources)}
    arguments = ", ".join(given.get(name, name) for name, _ in parameters_of(row, sources))
    return arm(pattern(row), f"{row.function}({arguments})")


def taken_apart(name: str, kind: str, fields: list[str]) -> str:
    """The statement that gives the fields of a struct their names, as `rt fmt` lays it out."""
    listed = ", ".join(fields)
    if len(listed) <= FIELDS_ON_A_LINE:
        return f"    let {kind} {{ {listed} }} = {name};\n"
    lines = "".join(f"        {field},\n" for field in fields)
    return f"    let {kind} {{\n{lines}    }} = {name};\n"


def encoder(row: Row, sources: Sources) -> str:
    """The function that encodes a row."""
    structs = structs_of(row, sources)
    values = {field: f"{name}.{field}" for name, _, fields in structs for field in fields}
    parameters = ", ".join(f"{name}: {kind}" for name, kind in parameters_of(row, sources))
    said = [f"(instr.{row.name}", *(values.get(name, name) for name in names(row))]
    said[-1] += ") }"
    ensures = one_line_or(f"    ensures {{ Encodes result {' '.join(said)}",
                          "    ensures { Encodes result\n" + filled(said, " " * 8, " " * 8))
    taken = "".join(taken_apart(*each) for each in structs)
    return (f"fn {row.function}({parameters}) -> Option<u32>\n{ensures}\n{{\n{taken}"
            + call_of_macro(row, "    row!(", [hexadecimal(row.base)]) + "\n}")


def encoder_file(rows: list[Row], sources: Sources) -> str:
    used = {kind for row in rows for _, kind, _ in structs_of(row, sources)}
    return ENCODER_FILE.format(
        written=WRITTEN, structs=functions_used({"a64_instr::fields": used}),
        arms="\n".join(encoder_arm(row, sources) for row in rows),
        functions="\n\n".join(encoder(row, sources) for row in rows if row.fields))


# ---- a64_decode


FIELDS_FILE = """\
-- {written}
-- The fields that a word has at the places of each row: the table of encodings read back.
use Rattle.std.specs.Prelude.{{ℕ, List, [], ◌∷◌}}
use Rattle.a64_bits.specs.Fields.{{field_of, signed_of}}
use Rattle.a64_instr.specs.declared.instruction.Instr.{{Instr}}
use Rattle.a64_instr.specs.declared.instruction.Instr.TheVariants as instr

{readings}

-- All rows.
abbrev pub rows : ℕ → List Instr
rows w =
{rows}
"""


def reading(row: Row) -> str:
    """The definition of the instruction that has the fields of a word."""
    name = f"{row.function}_at"
    fields = []
    for f in row.fields:
        value = f"field_of {f.bit} {f.width} w"
        fields.append(f"(signed_of {f.width} ({value}))" if f.signed else f"({value})")
    parts = [f"instr.{row.name}", *fields]
    line = one_line_or(f"{name} w = {' '.join(parts)}",
                       f"{name} w =\n" + filled(parts, " " * 4, " " * 4))
    return f"abbrev pub {name} : ℕ → Instr\n{line}"


def list_of_rows(rows: list[Row]) -> str:
    """All rows of a word, in their order."""
    parts = [f"{row.function}_at w" if row.fields else f"instr.{row.name}" for row in rows]
    return filled([parts[0], *(f"∷ {part}" for part in parts[1:]), "∷ []"], " " * 4, " " * 4)


def fields_file(rows: list[Row]) -> str:
    return FIELDS_FILE.format(
        written=WRITTEN, rows=list_of_rows(rows),
        readings="\n\n".join(reading(row) for row in rows if row.fields))


DECODER_FILE = """\
// {written}
//! The instruction of a word by its row: the fields and the refusals of each.

ghost use Rattle.a64_decode.specs.Decoded.{{Reads}};
ghost use Rattle.a64_decode.specs.Fields;

use crate::row::row;
use a64_asm::{{Instr, is_load_store, is_load_store_pair, may_write_back}};
use a64_bits::{{field, is_mask, signed_field}};

{functions}
"""


def decoder(row: Row) -> str:
    """The function that reads a row."""
    return (f"pub fn {row.function}(word: u32) -> Option<Instr>\n"
            f"    ensures {{ Reads result (Some (Fields.{row.function}_at word)) }}\n{{\n"
            + call_of_macro(row, f"    row!({row.name} word: ") + "\n}")


def decoder_file(rows: list[Row]) -> str:
    return DECODER_FILE.format(
        written=WRITTEN, functions="\n\n".join(decoder(row) for row in rows if row.fields))


LEMMAS_FILE = """\
-- {written}
-- For each row: its words are found by their encoding groups, with their fields.
use Rattle.std.proofs.Common.{{ℕ, ℤ, refl, subst, arith}}
use Rattle.std.proofs.lemmas.Bool.{{ne_eqb}}
use Rattle.a64_bits.specs.Fields.{{field_of}}
use Rattle.a64_bits.proofs.FieldLemmas.{{twos_complement-lt}}
use Rattle.a64_instr.specs.declared.instruction.Instr.{{Instr}}
use Rattle.a64_instr.specs.declared.instruction.Instr.TheVariants as instr
{groups}
use Rattle.a64_decode.proofs.Table.{{is, is_signed}}
use Rattle.a64_decode.proofs.RowPaths.{{IsAt, Found, no_tag}}
use Rattle.a64_decode.proofs.RowPaths.{{to_load_store_pair, to_branches_exceptions_system}}

-- Each row: its place in the table, the fixed bits of its group, and its fields.
{lemmas}

pub again : (i : Instr) (w : ℕ) → Found w i
{again}
"""


def imports_of_groups(ways: Ways) -> str:
    """The lines that import the groups, each once."""
    start, line = "use Rattle.a64_decode.specs.Groups.{", ""
    lines: list[str] = []
    for name in dict.fromkeys(f"{name}_of" for groups, _ in ways.values() for name in groups):
        longer = f"{line}, {name}" if line else start + name
        if len(longer) >= COLUMNS:
            lines.append(line + "}")
            longer = start + name
        line = longer
    return "\n".join([*lines, line + "}"])


def step_of_path(step: str) -> str:
    """A test on the way to a row, as an equation."""
    if " " in step:
        lemma, *places = step.split()
        fields = " ".join(f"(field_of {place.replace(':', ' ')} w)" for place in places)
        return f"{lemma} {fields} (λ p. omega arith)"
    if "=" not in step:
        return f"to_{step} w (omega arith)"
    place, differs, value = step.partition("!=")
    if not differs:
        place, _, value = step.partition("=")
    bits = place.replace(":", " ")
    if differs:
        return f"ne_eqb {'w' if place == 'word' else f'(field_of {bits} w)'} {value} (omega arith)"
    return f"is w {bits} {value} (omega arith)"


def binders(row: Row) -> str:
    """The word and the fields of a lemma, with their types."""
    groups = [["ℕ", "w"]]
    for f in row.fields:
        kind = "ℤ" if f.signed else "ℕ"
        if groups[-1][0] != kind:
            groups.append([kind])
        groups[-1].append(f.name)
    return " ".join(f"({' '.join(group[1:])} : {group[0]})" for group in groups)


def field_of_lemma(f: Field) -> str:
    """A field of the word and its value, as an equation."""
    if f.signed:
        return f"is_signed w {f.bit} {f.width} {f.name} (omega arith) h.0 (omega arith)"
    return f"is w {f.bit} {f.width} {f.name} (omega arith)"


def rewriting(margin: str, start: str, equations: list[str], end: str) -> str:
    """The equations as the list of a tactic: a line, or a line for each."""
    return one_line_or(
        f"{margin}{start} ({', '.join(equations)}){end}",
        f"{margin}{start} (\n" + "".join(f"{margin}  {equation},\n" for equation in equations)
        + f"{margin}){end}")


def proof_of_lemma(row: Row, place: int, path: list[str]) -> str:
    """The proof of a lemma: the place, the path and the fields."""
    left = " ".join([row.function, "w", *names(row), "h e ="])
    if not path:
        return f"{left} ({place}, subst (λ v. IsAt v {applied(row)} {place}) e (refl, refl))"
    margin = "      " if row.signed else "  "
    steps = [step_of_path(step) for step in path]
    fields = [field_of_lemma(f) for f in row.fields]
    body = "\n".join([
        f"{margin}{place},",
        rewriting(margin, "rw", steps, ""),
        rewriting(margin + "    ", "(rw", fields, " (refl, refl)),")])
    if not row.signed:
        return f"{left} (\n{body}\n)"
    signed = row.signed
    bits = f"twos_complement-lt {signed.width} (omega arith) {signed.name} h.0"
    return f"{left}\n    let bits = {bits} in (\n{body}\n    )"


def lemma(row: Row, place: int, way: tuple[list[str], list[str]]) -> str:
    """The lemma of a row."""
    groups, path = way
    statement = f"{row.function} : {binders(row)}"
    found = f"→ Found w {applied(row)}"
    head = one_line_or(f"{statement} {found}", f"{statement}\n    {found}")
    unfolded = filled(["unfolding", *(f"{name}_of" for name in groups)], "", " " * 4)
    return f"{head}\n{unfolded}\n{proof_of_lemma(row, place, path)}"


def again(row: Row) -> str:
    left, right = f"again {applied(row)} w =", " ".join([row.function, "w", *names(row)])
    return one_line_or(f"{left} {right}", f"{left}\n    {right}")


def lemmas_file(rows: list[Row], ways: Ways) -> str:
    return LEMMAS_FILE.format(
        written=WRITTEN, groups=imports_of_groups(ways),
        lemmas="\n\n".join(lemma(row, place, ways[row.name]) for place, row in enumerate(rows)),
        again="\n".join(map(again, rows)))


# ---- a64_text


TEXT_FILE = """\
// {written}
//! The line of an instruction, by the function of its row.

use crate::control::*;
use crate::data_processing::*;
use crate::memory::*;
use crate::operand::TextLine;
use a64_instr::Instr;
{structs}
/// The line of `instr`, at `pc` where that is known.
#[rattlefmt::skip]
pub fn line_of(instr: &Instr, pc: Option<u64>) -> TextLine {{
    match *instr {{
{arms}
    }}
}}
"""


def text_call(row: Row, sources: Sources) -> Call:
    """The call of the function that writes a row."""
    place = f"{row.places.get('text', row.place)}: {row.name}"
    taken = names(row, left_out(row, "text"))
    call = calls.call_of(row.function, {name: name for name in taken}, sources, place)
    check_passed(call, taken, place)
    said = {"pc"} & set(row.split("text"))
    if {name for name, _ in call.function.parameters} & calls.STATE != said:
        raise TableError(f"{place}: text: the line and {row.function} differ in pc")
    return call


def text_file(rows: list[Row], sources: Sources) -> str:
    called = [(row, text_call(row, sources)) for row in rows]
    used = {name for _, call in called for name in call.structs}
    return TEXT_FILE.format(
        written=WRITTEN, structs=functions_used({"a64_instr::fields": used}),
        arms="\n".join(arm(pattern(row, left_out(row, "text")), call.text)
                       for row, call in called))


# ---- tools/disassembly


OBJDUMP_FILE = '''\
# {written}
"""The rows of the table of encodings: name, base, fields (NAME BIT:WIDTH), and which fields make
an instruction."""

from collections.abc import Callable
from typing import Optional

from .field_tests import {tests}

Row = tuple[str, int, str, Optional[Callable[[dict[str, int]], bool]]]

ROWS: list[Row] = [
{lines}
]
'''


def allowed_in_python(test: FieldTest, loose: bool = False) -> str:
    """A test of fields `f`, as an expression of Python; in brackets where `loose` binds less."""
    word = test.word
    if word == "implies":
        premise, allowed = test.implied
        told = [value_in_python(argument) for argument in premise.arguments]
        text = f"{told[0]} != {told[1]} or {allowed_in_python(allowed)}"
        return f"({text})" if loose else text
    values = [value_in_python(argument) for argument in test.arguments]
    sign = {"below": "<", "equal": "==", "differ": "!="}.get(word)
    return f"{values[0]} {sign} {values[1]}" if sign else f"{word}({', '.join(values)})"


def value_in_python(argument: str) -> str:
    return argument if argument.isdigit() else f'f["{argument}"]'


def row_of_objdump(row: Row) -> str:
    """A row: its name, base, fields, and which of their values make an instruction."""
    fields = " ".join(f"{f.name} {f.bit}:{f.width}" for f in row.fields)
    first = f'    ("{row.function}", 0x{row.base:08X},'
    if not row.allows:
        return one_line_or(f'{first} "{fields}", None),', f'{first}\n     "{fields}", None),')
    several = len(row.allows) > 1
    tests = [allowed_in_python(test, several) for test in row.allows]
    tests = [tests[0], *(f"and {test}" for test in tests[1:])]
    tests[-1] += "),"
    return f'{first}\n     "{fields}",\n' + filled(tests, "     lambda f: ", " " * 8)


def named_tests(rows: list[Row]) -> list[str]:
    """The tests that have a name and no sign in Python, each once."""
    words = {test.word for row in rows for test in row.allows}
    return sorted(words - {"implies", "below", "equal", "differ"})


def objdump_file(rows: list[Row]) -> str:
    return OBJDUMP_FILE.format(
        written=WRITTEN, tests=", ".join(named_tests(rows)),
        lines="\n".join(map(row_of_objdump, rows)))
