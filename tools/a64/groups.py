"""The encoding groups: the decisions by which the row of a word is found.

Written from the groups of isa/a64.rows are the functions of the decoder and their definitions; and
the way to each row, by which it is proved that a row's words are found.
"""

import re
from dataclasses import dataclass
from typing import NamedTuple, Optional

from a64 import layout, table
from a64.table import Row, Rows

CODE = "crates/a64_decode/src/groups.rt"
DEFINITIONS = "crates/a64_decode/specs/Groups.antt"

# Where the groups are told apart: bits 28 to 24.
CLASS = (24, 5)


@dataclass
class Test:
    """Bits of the word and the value that they must have; the whole word where `start` is None."""
    start: Optional[int]
    width: int
    value: int
    text: str  # the value as it stands in the data

    @property
    def mask(self) -> int:
        return 0xFFFFFFFF if self.start is None else ((1 << self.width) - 1) << self.start

    @property
    def bits(self) -> int:
        return self.value if self.start is None else self.value << self.start

    @property
    def token(self) -> str:
        """The test as the data have it."""
        return f"{'word' if self.start is None else f'{self.start}:{self.width}'}={self.text}"


@dataclass
class Line:
    tests: list[Test]
    target: str  # a row, a group, or "none"
    place: str  # in the file


@dataclass
class Group:
    name: str
    text: str
    lines: list[Line]
    knows: list[Test]  # the tests that hold where the group is reached
    place: str = table.ROWS


class Class(NamedTuple):
    """The first and the last value of bits 28 to 24, and their group."""
    first: int
    last: int
    group: str
    place: str


Groups = dict[str, Group]
Classes = list[Class]
Way = list[tuple[str, int]]  # groups, each with the number of a line


def parse_test(token: str, place: str) -> Test:
    found = re.fullmatch(r"(?:(\d+):(\d+)|word)=(0x[0-9A-F]+|\d+)", token)
    if not found:
        raise table.TableError(f"{place}: `{token}` is no test of bits: START:WIDTH=VALUE, or "
                               "word=VALUE")
    start = None if found[1] is None else int(found[1])
    test = Test(start, int(found[2] or 32), int(found[3], 0), found[3])
    if (start or 0) + test.width > 32 or test.width == 0:
        raise table.TableError(f"{place}: `{token}`: a word has no such bits")
    if test.value >> test.width:
        raise table.TableError(f"{place}: `{token}`: the value has more bits")
    return test


def parse_class(tokens: list[str], target: str, place: str) -> Class:
    """A line of `row`: values of bits 28 to 24, and their group."""
    found = re.fullmatch(r"(\d+)(?:\.\.(\d+))?", " ".join(tokens))
    if not found:
        raise table.TableError(f"{place}: `{' '.join(tokens)}` is no value of bits 28 to 24, nor "
                               "FIRST..LAST")
    first, last = int(found[1]), int(found[2] or found[1])
    size = last - first + 1
    if not first <= last < 1 << CLASS[1] or size not in (1, 2, 4, 8, 16) or first % size:
        raise table.TableError(f"{place}: {first}..{last} are not all values of some of bits 28 to "
                               "24, the highest fixed")
    return Class(first, last, target, place)


def parse_line(tokens: list[str], target: str, place: str) -> Line:
    """A line of a group: its tests, and what is there where they hold."""
    if not tokens:
        raise table.TableError(f"{place}: {target} has neither tests nor `else`")
    tests = [] if tokens == ["else"] else [parse_test(token, place) for token in tokens]
    return Line(tests, target, place)


def read_groups(rows: Rows) -> tuple[Classes, Groups]:
    """The classes of bits 28 to 24, and the groups by name."""
    classes: Classes = []
    groups: Groups = {}
    group = Group("", "", [], [])
    for place, line in table.lines_of_rows_and_groups()[1]:
        *tokens, target = line.split()
        if line[0].isspace():
            if group.name == "row":
                classes.append(parse_class(tokens, target, place))
            else:
                group.lines.append(parse_line(tokens, target, place))
            continue
        name, _, text = line.partition(" ")
        if name in groups or name == "none" or not re.fullmatch(r"[a-z][a-z0-9_]*", name):
            raise table.TableError(f"{place}: a group can't be called `{name}`, or there is one")
        group = Group(name, text, [], [], place)
        if name != "row":
            groups[name] = group
    check_groups(classes, groups, rows)
    return classes, groups


def check_groups(classes: Classes, groups: Groups, rows: Rows) -> None:
    """Each group and each row is reached once, and its words are; what is known in a group follows
    from its way."""
    places: dict[str, str] = {}  # of the line that leads to a row or a group
    for target, place in [*((each.group, each.place) for each in classes),
                          *((line.target, line.place) for group in groups.values()
                            for line in group.lines if line.target != "none")]:
        if target not in rows and target not in groups:
            raise table.TableError(f"{place}: {target} is neither a row nor a group")
        if target in places:
            raise table.TableError(f"{place}: {target} is reached by another line too "
                                   f"({places[target]})")
        places[target] = place
    for group in groups.values():
        if group.name not in places:
            raise table.TableError(f"{group.place}: no line leads to the group {group.name}")
        if not group.lines or any(not line.tests for line in group.lines[:-1]):
            raise table.TableError(f"{group.place}: the last line of {group.name} alone may have "
                                   "no tests, and there must be a line")
    for row in rows.values():
        if row.name not in places:
            raise row.error("no line of an encoding group leads to it")
    for each in classes:
        width = (each.last - each.first + 1).bit_length() - 1
        value = each.first >> width
        reach(each.group, [Test(CLASS[0] + width, CLASS[1] - width, value, str(value))], groups)
    for group in groups.values():
        if not group.knows:
            raise table.TableError(f"{group.place}: the lines that lead to {group.name} go round")


def reach(name: str, known: list[Test], groups: Groups) -> None:
    """Tells a group, and those below it, what is known where it is reached."""
    if name not in groups:
        return
    groups[name].knows = known
    passed: list[Test] = []
    for line in groups[name].lines:
        reach(line.target, known + passed + line.tests, groups)
        if len(line.tests) == 1 and line.tests[0].width == 1:
            # The other value of a single bit.
            test = line.tests[0]
            passed = passed + [Test(test.start, 1, 1 - test.value, str(1 - test.value))]


def find_row(word: int, classes: Classes, groups: Groups) -> Optional[str]:
    """The row that a word has by the encoding groups, whether its fields are allowed or not."""
    bits = word >> CLASS[0] & (1 << CLASS[1]) - 1
    name = next((each.group for each in classes if each.first <= bits <= each.last), "none")
    while name in groups:
        name = next((line.target for line in groups[name].lines
                     if all(word & test.mask == test.bits for test in line.tests)), "none")
    return None if name == "none" else name


# ---- the functions of the decoder

CODE_HEAD = """\
// Written by tools/isa.py from isa/a64.rows. Do not edit.
//! The row of a word, by the encoding groups of the Arm ARM (DDI 0487, C4.1): bits 28 to 24 select
//! the group, and other fixed bits the row.

ghost use Rattle.std.specs.Prelude.{◌≡◌, IfSome};
ghost use Rattle.a64_bits.specs.Fields.{field_of};
ghost use Rattle.a64_asm.specs.Encoding.{word_of};
ghost use Rattle.a64_decode.specs.Decoded.{Reads};
ghost use Rattle.a64_decode.specs.Groups;

use crate::rows::*;
use a64_asm::Instr;
use a64_bits::field;

/// Writes the instruction of `word`, whose row and fields are found by its fixed bits. All rows
/// write to one place, so that their fields are not merged where the rows meet.
#[inline(never)]
#[tactic(auto, unfolding(crate::specs::Groups::row_of))]
pub fn read(word: u32, found: &mut Option<Instr>)
    ensures row { Reads found.new (Groups.row_of word) }
    ensures same { IfSome found.new (λ i. word_of i ≡ word) }
{
    match field(word, 24, 5) {
{arms}
        _ => *found = None,
    }
}
"""

FUNCTION = """
/// {text}
#[rattlefmt::skip]
#[tactic(auto, unfolding(crate::specs::Groups::{name}_of))]
fn {name}(word: u32, found: &mut Option<Instr>)
{requires}
    ensures row {{ Reads found.new (Groups.{name}_of word) }}
    ensures same {{ IfSome found.new (λ i. word_of i ≡ word) }}
{{
{body}}}
"""


# What reads nothing, a group, a row with fields and one without: in code, and as a definition.
IN_CODE = ("*found = None", "{}(word, found)", "*found = {}(word)", "*found = Some(Instr::{})")
AS_DEFINITION = ("None", "{}_of w", "Some (fields.{}_at w)", "Some instr.{}")


def reached(target: str, rows: Rows, forms: tuple[str, str, str, str]) -> str:
    """What reads a row or a group, in one of these forms."""
    nothing, group, with_fields, without_fields = forms
    if target == "none":
        return nothing
    if target not in rows:
        return group.format(target)
    row = rows[target]
    return with_fields.format(row.function) if row.fields else without_fields.format(row.name)


def rust_number(text: str) -> str:
    return re.sub(r"0x([0-9A-F]{4})([0-9A-F]{4})$", r"0x\1_\2", text)


def test_code(test: Test) -> str:
    left = "word" if test.start is None else f"field(word, {test.start}, {test.width})"
    return f"{left} == {rust_number(test.text)}"


def is_match(group: Group) -> bool:
    """Whether the lines are told apart by one field, of more than one bit."""
    heads = {(line.tests[0].start, line.tests[0].width) for line in group.lines if line.tests}
    return len(heads) == 1 and next(iter(heads))[1] > 1 and len(group.lines) > 1


def match_body(group: Group, rows: Rows) -> str:
    first = group.lines[0].tests[0]
    code = f"    match field(word, {first.start}, {first.width}) {{\n"
    for line in group.lines:
        rest = " && ".join(test_code(test) for test in line.tests[1:])
        pattern = line.tests[0].text if line.tests else "_"
        arm = f"        {pattern}{' if ' + rest if rest else ''} =>"
        target = f"{reached(line.target, rows, IN_CODE)},\n"
        long = len(arm) + len(target) > 98
        code += f"{arm}\n            {target}" if long else f"{arm} {target}"
    if group.lines[-1].tests:
        code += "        _ => *found = None,\n"
    return code + "    }\n"


def chain_body(group: Group, rows: Rows) -> str:
    if not group.lines[0].tests:
        return f"    {reached(group.lines[0].target, rows, IN_CODE)}\n"
    code = ""
    for line in group.lines:
        tests = " && ".join(test_code(test) for test in line.tests)
        head = f"if {tests} {{" if line.tests else "{"
        code += ("    " if not code else " else ") + head
        code += f"\n        {reached(line.target, rows, IN_CODE)}\n    }}"
    if group.lines[-1].tests:
        code += " else {\n        *found = None\n    }"
    return code + "\n"


def requires_of(group: Group) -> str:
    known = [f"    requires bits_{t.start}_{t.width} "
             f"{{ field_of {t.start} {t.width} word ≡ {t.text} }}" for t in group.knows]
    return "\n".join(known)


def code(classes: Classes, groups: Groups, rows: Rows) -> str:
    arms = []
    for first, last, name, _ in classes:
        pattern = str(first) if first == last else f"{first}..={last}"
        arms.append(f"        {pattern} => {name}(word, found),")
    text = CODE_HEAD.replace("{arms}", "\n".join(arms))
    for group in groups.values():
        body = match_body(group, rows) if is_match(group) else chain_body(group, rows)
        text += FUNCTION.format(text=group.text, name=group.name, body=body,
                                requires=requires_of(group))
    return text


# ---- their definitions

DEFINITIONS_HEAD = """\
-- Written by tools/isa.py from isa/a64.rows. Do not edit.
-- The row that a word belongs to by its fixed bits, whether allowed or not: first by bits 28 to 24,
-- then by the other fixed bits of the group. It only serves the proof of the decoder, whose private
-- functions have the same names.
use Rattle.std.specs.Prelude.{ℕ, Option, Some, None, if◌then◌else◌, ◌==◌, nat_le, ◌&&◌}
use Rattle.a64_bits.specs.Fields.{field_of}
use Rattle.a64_decode.specs.Fields as fields
use Rattle.a64_instr.specs.declared.instruction.Instr.{Instr}
use Rattle.a64_instr.specs.declared.instruction.Instr.TheVariants as instr
"""


def test_definition(test: Test) -> str:
    left = "w" if test.start is None else f"field_of {test.start} {test.width} w"
    return f"({left} == {test.text})"


def definition(group: Group, rows: Rows) -> str:
    text = "\n" + layout.comment("--", group.text)
    text += f"unfoldable pub {group.name}_of : ℕ → Option Instr\n{group.name}_of w =\n"
    closing = ""
    for line in group.lines:
        tests = " && ".join(test_definition(test) for test in line.tests)
        target = reached(line.target, rows, AS_DEFINITION)
        if not line.tests:
            return text + f"    {target}{closing}\n"
        text += f"    if {tests} then {target}\n    else (\n"
        closing += ")"
    return text + f"    None{closing}\n"


def definitions(classes: Classes, groups: Groups, rows: Rows) -> str:
    text = DEFINITIONS_HEAD
    for group in reversed(groups.values()):
        text += definition(group, rows)
    text += "\n-- The row of a word.\nunfoldable pub row_of : ℕ → Option Instr\nrow_of w =\n"
    text += "    let class = field_of 24 5 w in\n"
    for first, last, name, _ in classes:
        test = (f"class == {first}" if first == last
                else f"nat_le {first} class && nat_le class {last}")
        text += f"    if {test} then {name}_of w\n    else (\n"
    return text + f"    None{')' * len(classes)}\n"


# ---- the way to a row


# The lemmas of proofs/RowPaths.antt that two fields don't have those values at once.
PAIRS: dict[tuple[str, ...], str] = {("1", "0"): "no_tag"}

# The groups of several classes that have a lemma there by which a word is led to them.
LED_TO = {"load_store_pair", "branches_exceptions_system"}


def find_way(row: Row, classes: Classes, groups: Groups) -> tuple[Class, Way]:
    """The class of a row, and the groups on the way to it, each with the number of its line."""
    def below(name: str) -> Way:
        if name not in groups:
            return []
        for number, line in enumerate(groups[name].lines):
            if line.target == row.name:
                return [(name, number)]
            rest = below(line.target)
            if rest:
                return [(name, number), *rest]
        return []
    for each in classes:
        way = below(each.group)
        if way:
            return each, way
    raise row.error("a class of bits 28 to 24 leads to it, and no group")


def check_class(row: Row, each: Class) -> None:
    """Whether all words of a row are of its class."""
    mask = (1 << CLASS[1]) - 1
    fixed, base = row.fixed_mask >> CLASS[0] & mask, row.base >> CLASS[0] & mask
    for value in range(1 << CLASS[1]):
        if value & fixed == base and not each.first <= value <= each.last:
            raise row.error(f"{each.place} takes it to be of the classes {each.first} to "
                            f"{each.last}, and it has words of {value} in bits 28 to 24")


def field_text(test: Test, row: Row) -> Optional[str]:
    """The value that a row's fixed bits give the bits of a test, or None where they don't."""
    if test.start is None or test.mask & ~row.fixed_mask:
        return None
    value = (row.base & test.mask) >> test.start
    return f"{test.start}:{test.width}={test.text if value == test.value else value}"


def excludes(row: Row, tests: list[Test]) -> bool:
    """Whether a row's fixed bits or its refusals exclude the values of tests: of whole fields, of
    parts of them, or of several."""
    bits, mask = 0, 0
    for test in tests:
        if (bits ^ test.bits) & mask & test.mask:
            return True
        bits, mask = bits | test.bits, mask | test.mask
    if (row.base ^ bits) & row.fixed_mask & mask:
        return True
    return any(table.fails_always(row, [own], bits, mask) for own in row.allows)


def passing_steps(line: Line, row: Row) -> list[str]:
    """Why a row's words pass a line: equations for its tests up to one that fails, or the lemma
    that two of them don't hold together."""
    steps: list[str] = []
    for test in line.tests:
        value = field_text(test, row)
        if value:
            steps.append(value)
            if not value.endswith(f"={test.text}"):
                return steps
        elif excludes(row, [test]):
            place = "word" if test.start is None else f"{test.start}:{test.width}"
            return [*steps, f"{place}!={test.text}"]
    said = " ".join(test.token for test in line.tests)
    if not excludes(row, line.tests):
        raise table.TableError(f"{line.place}: {line.target}: {said or 'else'} takes words of "
                               f"{row.name} ({row.place}), whose line is below: neither its fixed "
                               "bits nor what it refuses exclude them")
    lemma = PAIRS.get(tuple(test.text for test in line.tests))
    if steps or lemma is None:
        raise table.TableError(f"{line.place}: {line.target}: {row.name} ({row.place}) refuses "
                               f"{said} together, and crates/a64_decode/proofs/RowPaths.antt has "
                               "no lemma of it: test one field")
    bits = [f"{test.start}:{test.width}" for test in line.tests]
    return [f"{lemma} {' '.join(bits)}"]


def own_steps(line: Line, row: Row) -> list[str]:
    """Why a row's words satisfy the tests of a line on its way: its fixed bits have the values."""
    steps: list[str] = []
    for test in line.tests:
        value = field_text(test, row)
        if (row.base ^ test.bits) & row.fixed_mask & test.mask:
            raise table.TableError(f"{line.place}: {row.name}: {test.token} leads to it, and its "
                                   f"fixed bits differ ({row.place})")
        if value is None and test.start is not None:
            raise table.TableError(f"{line.place}: {row.name}: {test.token} leads to it, which are "
                                   f"bits of its fields ({row.place}): words of it with other "
                                   "values would not be found")
        steps += [value] if value else []
    return steps


def first_of_each(steps: list[str]) -> list[str]:
    """The steps without those that say a value of bits, or a difference, a second time."""
    found: dict[str, str] = {}
    for step in steps:
        place, differs, _ = step.partition("!=")
        found.setdefault(step if differs else place.partition("=")[0], step)
    return list(found.values())


def way_of(row: Row, classes: Classes, groups: Groups) -> tuple[list[str], list[str]]:
    """The groups on the way to a row, and the steps of the proof that its words take it."""
    (first, last, name, place), way = find_way(row, classes, groups)
    check_class(row, Class(first, last, name, place))
    single = first == last
    if not single and name not in LED_TO:
        raise table.TableError(f"{place}: {name} has several classes, and "
                               "crates/a64_decode/proofs/RowPaths.antt no lemma that leads to it")
    steps = [f"{CLASS[0]}:{CLASS[1]}={first}"] if single else [name]
    for group, number in way:
        lines = groups[group].lines
        for line in lines[:number]:
            steps += passing_steps(line, row)
        steps += own_steps(lines[number], row)
    if not row.fields:
        return ["row", *(group for group, _ in way)], []
    return ["row"] * single + [group for group, _ in way], first_of_each(steps)


def written(rows: Rows) -> dict[str, str]:
    classes, groups = read_groups(rows)
    return {CODE: code(classes, groups, rows),
            DEFINITIONS: definitions(classes, groups, rows)}
