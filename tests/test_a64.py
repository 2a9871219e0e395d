"""The package a64 of tools/: its words, tests, groups, calls, layout and definitions, each function
on cases that are worked out by hand or by GNU objdump."""

import inspect
import pathlib
import random
import re

import pytest
from a64 import (
    absent, access_form, accesses, calls, definitions, dispatch, forms, groups, layout, meaning,
    pages, reach, rows, table,
)
from a64.access_form import Access
from a64.definitions import Definitions, Unknown, apply
from a64.table import Field, FieldTest, Row

from tests.support.objdump import OBJDUMP, lines_of_objdump
from tests.support.places import ROOT
from tests.support.tools import need

ALL = table.read_rows()
FORMS = table.read_forms(ALL)
CLASSES, GROUPS = groups.read_groups(ALL)


def drawn_words(row: Row, count: int) -> list[int]:
    """Words of a row."""
    source = random.Random(row.name)
    return [row.word(meaning.draw_fields(source, row, {})) for _ in range(count)]


# ---- words


def test_fields_are_read_and_written() -> None:
    """A field has the type that holds its bits, and a signed one is in two's complement."""
    plain, signed = Field("rm", 16, 5, False), Field("imm19", 5, 19, True)
    assert (plain.type, plain.mask, plain.read(0x1F0000)) == ("u8", 0x1F0000, 31)
    assert (signed.type, signed.read(0x7FFFF << 5), signed.read(1 << 5)) == ("i32", -1, 1)
    assert [Field("f", 0, width, False).type for width in (8, 9, 16)] == ["u8", "u16", "u16"]
    assert [Field("f", 0, width, True).type for width in (8, 9, 17)] == ["i8", "i16", "i32"]


def test_words_are_encoded_and_decoded() -> None:
    """The word of the fields of a word is the word, and it has the row by its fixed bits and by the
    encoding groups."""
    for row in ALL.values():
        for word in drawn_words(row, 40):
            assert row.word(row.values(word)) == word
            assert table.decode(word, ALL) is row
            assert groups.find_row(word, CLASSES, GROUPS) == row.name


def test_other_words_have_no_row() -> None:
    """A word that no row allows has none by the groups, or one that refuses it; and the groups give
    each other word the row that allows it."""
    source = random.Random(7)
    words = [source.getrandbits(32) for _ in range(20000)]
    for word in [0, 0xFFFFFFFF, 0xD4000002, 0x1AC24020, *words]:
        row, by_groups = table.decode(word, ALL), groups.find_row(word, CLASSES, GROUPS)
        if row is not None:
            assert by_groups == row.name
        elif by_groups is not None and ALL[by_groups].fits(word):
            assert ALL[by_groups].refusals(word)


def test_names_are_objdumps(tmp_path: pathlib.Path) -> None:
    """The mnemonics of a row are those that objdump has for its words, without aliases; hints have
    more names."""
    need(OBJDUMP)
    for row in ALL.values():
        names = meaning.mnemonics(row.said["names"])
        texts = lines_of_objdump(drawn_words(row, 300), tmp_path, "-M", "no-aliases")
        found = {text.split()[0].upper() for text in texts}
        found = {"B.cond" if name.startswith("B.") else name for name in found}
        if row.name == "Hint":
            assert "HINT" in names and "NOP" in names
        elif names:
            assert found == names, row.name
        else:
            assert all(name.startswith(("LD", "ST")) for name in found), row.name


# ---- tests of fields


@pytest.mark.parametrize(("text", "holding", "failing"), [
    ("below opcode 6", {"opcode": 5}, {"opcode": 6}),
    ("equal n sf", {"n": 1, "sf": 1}, {"n": 0, "sf": 1}),
    ("differ opc 3", {"opc": 2}, {"opc": 3}),
    ("mask n imms", {"n": 0, "imms": 62 - 1 - 1}, {"n": 0, "imms": 61}),
    ("mask n imms", {"n": 1, "imms": 62}, {"n": 1, "imms": 63}),
    ("load_store size opc", {"size": 2, "opc": 2}, {"size": 3, "opc": 2}),
    ("load_store_pair opc l rt rt2", {"opc": 2, "l": 0, "rt": 3, "rt2": 3},
     {"opc": 2, "l": 1, "rt": 3, "rt2": 3}),
    ("write_back rn rt", {"rn": 31, "rt": 31}, {"rn": 4, "rt": 4}),
    ("two_source opcode", {"opcode": 11}, {"opcode": 16}),
    ("offset_register option", {"option": 7}, {"option": 4}),
    ("equal sf 0 -> below imm6 32", {"sf": 1, "imm6": 40}, {"sf": 0, "imm6": 40}),
])
def test_a_test_of_fields(text: str, holding: dict[str, int], failing: dict[str, int]) -> None:
    """It holds of the first values and not of the others, and is written as it was read."""
    row = Row("Any", [Field(name, 0, 6, False) for name in holding], {}, {})
    test = table.parse_test(text, row)
    assert table.holds(test, holding) and not table.holds(test, failing)
    assert table.short_test(test) == text
    assert set(table.fields_of_test(test)) - set("0123456789") >= set(holding) - {"0"}


def test_tests_in_words() -> None:
    """A test as the definition and the page have it."""
    test = ALL["AddSubShift"].allows[1]
    assert table.written_test(test) == "implies (equal sf 0) (below imm6 32)"
    assert pages.test_words(test) == "`imm6` is below 32 if `sf` is 0"


def test_what_never_holds() -> None:
    """A test fails of all words with some bits, or of some alone."""
    two_source = ALL["TwoSource"]
    fails = [value for value in range(8)
             if table.fails_always(two_source, two_source.allows, value << 13, 7 << 13)]
    assert fails == [2, 3, 4, 5, 6, 7]
    found = table.separating_test(two_source, ALL["Irg"])
    assert found == (two_source, FieldTest("two_source", ("opcode",)))
    assert table.separating_test(ALL["AddG"], ALL["AddG"]) is None


def test_masks_have_elements() -> None:
    """The sizes of elements by N and imms (DecodeBitMasks)."""
    assert [table.element_size(n, imms) for n, imms in (
        (1, 63), (0, 31), (0, 47), (0, 55), (0, 59), (0, 61), (0, 62))] == [64, 32, 16, 8, 4, 2, 1]


# ---- groups


def test_lines_that_are_passed() -> None:
    """Why the words of a row pass a line: fixed bits, a refusal of a whole field or of a part, a
    lemma of two."""
    def line(*tokens: str) -> groups.Line:
        return groups.parse_line(list(tokens), "none", "place")
    two_source = ALL["TwoSource"]
    assert groups.passing_steps(line("30:1=1"), two_source) == ["30:1=0"]
    assert groups.passing_steps(line("10:6=4", "31:1=1"), two_source) == ["10:6!=4"]
    assert groups.passing_steps(line("13:3=2"), two_source) == ["13:3!=2"]
    assert groups.passing_steps(line("21:3=6", "13:3=2"), two_source) == ["21:3=6", "13:3!=2"]
    assert groups.passing_steps(line("30:2=1", "22:1=0"), ALL["PairOff"]) == ["no_tag 30:2 22:1"]
    for tokens in (["13:3=1"], ["31:1=1"], ["30:1=0"]):
        with pytest.raises(table.TableError, match="takes words of TwoSource"):
            groups.passing_steps(line(*tokens), two_source)


def test_ways_to_rows() -> None:
    """The groups on the way to a row, and the steps of its proof."""
    names, steps = groups.way_of(ALL["TwoSource"], CLASSES, GROUPS)
    assert names == ["row", "data_processing_register", "data_processing_1_2_source",
                     "data_processing_2_source"]
    assert steps == ["24:5=26", "21:3=6", "30:1=0", "10:6!=0", "29:1=0", "10:6!=4", "10:6!=5"]


# ---- calls, layout, forms


def test_calls_follow_from_names() -> None:
    """A parameter or a struct's field has the row's field of its name."""
    sources = calls.Sources(
        {}, {"Pair": calls.Struct("a64_instr", "fields", ["rt", "rt2"])}, ("a64_step",))
    sources.functions["store"] = calls.Function(
        "store", "a64_step", "store", [("regs", "&mut Regs"), ("rn", "u8"), ("it", "Pair")], "")
    call = calls.call_of("store", {"rn": "rn", "rt": 3, "rt2": "rt2"}, sources, "place")
    assert call.text == "store(regs, rn, Pair { rt: 3, rt2 })"
    assert (call.structs, call.fields) == ({"Pair"}, {"rn", "rt", "rt2"})
    for name, told in (("load", "no function load"), ("store", "store takes rt2, which has no")):
        with pytest.raises(table.TableError, match=told):
            calls.call_of(name, {"rn": 1, "rt": 3}, sources, "place")


def test_rows_of_many_fields_take_structs() -> None:
    """The encoder's function takes at most six parameters: structs, and what these leave out."""
    sources = calls.read_sources(set(), calls.ROW_CRATES)
    assert rows.parameters_of(ALL["AddSubShift"], sources) == [
        ("addition", "AddSub"), ("second", "ShiftedRegister")]
    assert rows.parameters_of(ALL["Bitfield"], sources) == [
        ("field", "FieldMove"), ("rn", "u8"), ("rd", "u8"), ("n", "u8")]
    assert rows.parameters_of(ALL["Svc"], sources) == []
    assert all(len(rows.parameters_of(row, sources)) <= rows.MOST_PARAMETERS
               for row in ALL.values())
    assert rows.taken_apart("it", "Pair", ["rt", "rt2"]) == "    let Pair { rt, rt2 } = it;\n"
    assert rows.taken_apart("it", "Moved", ["sf", "opc", "immr", "imms"]) == (
        "    let Moved {\n        sf,\n        opc,\n        immr,\n        imms,\n    } = it;\n")


def test_lines_of_text_follow_from_names() -> None:
    """The function of a row's text takes its fields, and pc where the row says so."""
    sources = calls.read_sources(set(), calls.TEXT_CRATES)
    call = rows.text_call(ALL["PairPre"], sources)
    assert call.text == "pair_pre(l, PairTransfer { opc, rt2, rn, rt }, imm7)"
    sources.functions["adr"].parameters.remove(("pc", "Option<u64>"))
    with pytest.raises(table.TableError, match="the line and adr differ in pc"):
        rows.text_call(ALL["Adr"], sources)


def test_lines_are_laid_out() -> None:
    """Comments, arms, equations and imports are at most 100 columns wide."""
    assert layout.comment("//", "word " * 30).count("\n") == 2
    assert layout.sentence("some words") == "Some words."
    assert layout.alternatives(["A", "B"], "c") == "        A | B => c,\n"
    assert layout.alternatives(["A" * 50, "B" * 50], "c").count("\n") == 2
    assert layout.equation("f x", "y") == "f x = y\n"
    assert layout.equation("f x", "y" * 100) == f"f x =\n    {'y' * 100}\n"
    assert layout.functions_used({"m": {"b", "a"}, "crate::n": {"c"}}) == (
        "use crate::n::c;\nuse m::{a, b};\n")
    assert layout.imported("m", ["a", "b"]) == "ghost use Rattle.m.{a, b};\n"
    assert layout.row_pattern(ALL["Branch"], {"op": 1}) == "Instr::Branch { op: 1, imm26 }"
    assert layout.any_row(ALL["Svc"]) == "Instr::Svc"


def test_forms_have_bounds() -> None:
    """The bound of a field: the form's own, the row's refusal, or the width."""
    by_name = {form.name: form for form in FORMS}
    assert table.bounds(by_name["AddLsl32"], ALL) == {"rm": 31, "imm6": 32, "rn": 31, "rd": 31}
    assert table.bounds(by_name["LogShifted"], ALL)["opc"] == 3
    assert forms.power(1 << 12) == "2 ^ 12" and forms.power(31) == "31"
    assert len(forms.of_table(FORMS, table.FIRST_TABLE)) <= dispatch.MOST_FORMS


def test_rare_forms_have_tables() -> None:
    """A form's family tells its table: an `Op` has it, and a match and a definition name it there.
    Every ten have a function."""
    by_name = {form.name: form for form in FORMS}
    clz, load = by_name["Clz32"], by_name["AnyLiteral"]
    assert layout.form_made(clz) == "Op::Rare(RareOp::Clz32 { rn, rd })"
    assert layout.form_made(by_name["Svc"]) == layout.form_pattern(by_name["Svc"]) == "Op::Svc"
    assert layout.form_pattern(load) == "RareAccess::AnyLiteral { opc, imm19, rt }"
    assert layout.form_value(clz) == "(rare.Clz32 rn rd)"
    assert layout.any_form(load) == "RareAccess::AnyLiteral { .. }"
    many = [clz] * 21
    assert [(name, len(part)) for name, part in dispatch.tens("is_rare", many)] == [
        ("is_rare_1", 10), ("is_rare_2", 10), ("is_rare_3", 1)]
    assert forms.effects_of([load]) == ["Ops::effect", "RareOps::rare_access_effect"]


def test_forms_that_are_hidden() -> None:
    """A form whose instructions an earlier one takes is not reached."""
    by_name = {form.name: form for form in FORMS}
    any_, udiv = by_name["OneSource"], by_name["Clz32"]
    assert reach.is_reached(ALL["OneSource"], udiv, [any_])
    assert not reach.is_reached(ALL["OneSource"], udiv, [udiv])


# ---- what rows say, and the definitions


def test_what_rows_say() -> None:
    """The call of `accesses`, the constants and the register of `writes`."""
    assert accesses.access_call(ALL["LdStPost"]) == "single(size, opc, rn, rt, PostIndexed)"
    assert accesses.access_call(ALL["Svc"]) == ""
    assert accesses.split_writes(ALL["Branch"]) == ({"op": "1"}, "30")
    assert accesses.split_writes(ALL["AddG"]) == ({}, "rd")
    assert accesses.split_writes(ALL["Svc"]) == ({}, "")


@pytest.mark.parametrize(("text", "value"), [
    ("1 + 2 * 3 ^ 2", 19), ("7 - 9", 0), ("17 / 4 % 3", 1), ("if 2 == 3 then 1 else 4", 4),
    ("let a = 5 in a * a", 25), ("(record { x = 3; y = 4 }).y", 4), ("1 ∷ 2 ∷ []", [1, 2]),
    ("Some (1 + 1)", ("Some", 2)), ("not (1 == 1) || true", True), ("operand 0 (2 ^ 32 + 5)", 5),
    ("sign_extended 8 255", (1 << 64) - 1), ("(λ x. x + 1) 2", 3), ("with_new_base 1 2 None", 1),
    ("unheard_of 1", Unknown()), ("to_le_bytes w16 258", [2, 1]),
])
def test_definitions_are_evaluated(text: str, value: object) -> None:
    """An expression has the value that the definitions give."""
    read = Definitions(definitions.read_definitions())
    assert read.evaluate(definitions.read_expression(text), {}) == value


def test_a_definition_that_cannot_be_read() -> None:
    """What is no expression is told."""
    for text in ("1 +", "if 1 then 2", "(1", "1 ? 2", "let 1"):
        with pytest.raises(definitions.DefinitionError):
            definitions.read_expression(text)


def test_a_step_is_evaluated() -> None:
    """STP x5, x3, [x4, #-16]! stores both at the moved base; LDP loads."""
    read = Definitions(definitions.read_definitions())
    regs = meaning.draw_registers(random.Random(1))
    x = regs["x"]
    for load in (0, 1):
        left = apply(read.find_value("step_of_instr"),
                       [("PairPre", 2, load, -2, 3, 4, 5), regs, ("memory",)])
        written = left["regs"]["x"].written
        assert written[4] == (x[4] - 16) % 2**64
        if load:
            assert [written[n] for n in (5, 3)] == [
                sum(definitions.byte_read(at + k) << 8 * k for k in range(8))
                for at in (written[4], written[4] + 8)]
            assert left["memory"] == ("after_read", ("memory",), written[4], 16, True)
        else:
            assert left["memory"][:3] == ("after_write", ("memory",), written[4])
            assert bytes(left["memory"][3]) == b"".join(
                int(x[n]).to_bytes(8, "little") for n in (5, 3))


def test_forms_of_accesses() -> None:
    """The form that a call of `accesses` gives, and what an instruction of it does."""
    regs = meaning.draw_registers(random.Random(2))
    regs["x"][4] = 0x0300_0000_0000_1000
    regs["x"][5] = 0x1122_3344_5566_7788
    fields = {"rn": 4, "rt": 5, "size": 1, "opc": 0, "imm9": -2}
    call = "single(size, opc, rn, rt, Offset(i32::from(imm9)))"
    store = access_form.evaluate_call(call, fields)
    assert store == Access("Store", ("Offset", -2), 4, 2, 5)
    assert access_form.memory_after(store, regs) == (
        "after_write", ("memory",), 0x0300_0000_0000_0FFE, [0x88, 0x77], True)
    load = access_form.evaluate_call(call, {**fields, "opc": 3})
    value = access_form.registers_loaded(load, regs)[5]
    assert value & 0xFFFF == definitions.byte_read(0x0300_0000_0000_0FFE) + (
        definitions.byte_read(0x0300_0000_0000_0FFF) << 8)
    assert value >> 16 == (0xFFFF if value >> 15 & 1 else 0)
    tags = access_form.evaluate_call("store_tags(2, rn, rn, tag_mode(2, 1))", fields)
    assert access_form.memory_after(tags, regs) == (
        "with_granules", ("memory",), 0x1010, 2, 3, False)


def test_calls_of_accesses_are_those_of_the_code() -> None:
    """Each function that `accesses` may call is one of the code, with the same parameters."""
    code = (ROOT / "crates/a64_access/src/form.rt").read_text(encoding="utf-8")
    found = {name: re.findall(r"(\w+):", parameters)
             for name, parameters in re.findall(r"pub\(crate\) fn (\w+)\(([^)]*)\) -> ", code)}
    ours = {name: list(inspect.signature(function).parameters)[1:]
            for name, function in vars(access_form.Calls).items() if not name.startswith("_")}
    assert len(ours) == 10 and ours == found


# ---- absent families


def test_families_are_those_of_the_code() -> None:
    """The tests of words in families.rt, as masks and values."""
    code = ("fn family_of(word: u32) -> Option<&'static str> {\n"
            "    if is_one(word) {\n        Some(\"one\")\n"
            "    } else if let Some(family) = inner(word) {\n        Some(family)\n"
            "    } else {\n        last(word)\n    }\n}\n"
            "fn inner(word: u32) -> Option<&'static str> {\n"
            "    if word >> 24 & 0x3F == 0x08 || word & 0xFF00_0000 == 0x1200_0000 {\n"
            "        Some(TWO)\n    } else {\n        None\n    }\n}\n"
            "fn last(word: u32) -> Option<&'static str> {\n"
            "    if word >> 24 == 0xD6 && word & 0x9F_0000 == 0x9F_0000 {\n"
            "        Some(\"three (3)\")\n    } else {\n        None\n    }\n}\n"
            "const TWO: &str = \"two\";\n"
            "fn is_one(word: u32) -> bool {\n    let form = word >> 25 & 15;\n"
            "    form == 7 || word >> 28 == 1\n}\n")
    assert list(absent.find_families(code)) == [
        ("one", (0x1E000000, 0x0E000000)), ("one", (0xF0000000, 0x10000000)),
        ("two", (0x3F000000, 0x08000000)), ("two", (0xFF000000, 0x12000000)),
        ("three (3)", (0xFF9F0000, 0xD69F0000))]


def test_families_have_words_of_no_row() -> None:
    """The absent mnemonics are none of the rows."""
    families = absent.read_families()
    absent.check_rows(ALL, families)
    assert len(families) >= 14 and "prfm" in families[2].mnemonics
    assert "| PRFM | no `__builtin_prefetch`" in absent.page_table(families)
