"""tools/isa.py over altered copies of the data: new rows, rows that it refuses, and rows whose
`accesses`, `writes` or `names` are wrong."""

import pathlib
import random
import re
import sys
from collections.abc import Iterator, Sequence

import pytest
from a64 import groups, pages, table

from tests.support.altered_isa import AlteredIsa
from tests.support.objdump import OBJDUMP, lines_of_objdump
from tests.support.places import ROOT
from tests.support.running import Ran, run
from tests.support.tools import need

ROWS = "isa/a64.rows"
FORMS = "isa/a64.forms"
ENCODING = "crates/a64_asm/specs/Encoding.antt"
STEPS = "crates/a64_step/specs/Steps.antt"
DATA_PROCESSING = "crates/a64_step/specs/DataProcessing.antt"


@pytest.fixture(scope="module", name="copied")
def copied_once(tmp_path_factory: pytest.TempPathFactory) -> AlteredIsa:
    """The copy, which each test leaves as it was."""
    return AlteredIsa(tmp_path_factory.mktemp("isa"))


@pytest.fixture(name="isa")
def altered_isa(copied: AlteredIsa, monkeypatch: pytest.MonkeyPatch) -> Iterator[AlteredIsa]:
    """The copy, as it was."""
    monkeypatch.setattr(table, "ROOT", copied.root)
    yield copied
    copied.restore()


def test_the_copy_is_right(isa: AlteredIsa) -> None:
    """Nothing is said of an unaltered copy."""
    assert isa.findings(with_files=True) == []


# ---- CRC32 and CRC32C, of a byte to a doubleword, as one row (Arm ARM DDI 0487, C6.2)

CRC32 = """\
Crc32        sf:1 0011010110 rm:5 010 c:1 sz:2 rn:5 rd:5
    names    CRC32B, CRC32H, CRC32W, CRC32X, CRC32CB, CRC32CH, CRC32CW, CRC32CX.
    allows   equal sf 0 -> differ sz 3, equal sf 1 -> equal sz 3
    part     is_other_data_processing
    step     regs
    overlaps TwoSource
    example  9AC34C41 crc32x w1, w2, x3

"""
CRC32_WORD = """\
word_of (instr.Crc32 sf rm c sz rn rd) =
    0x1AC04000 + sf * 2 ^ 31 + rm * 2 ^ 16 + c * 2 ^ 12 + sz * 2 ^ 10 + rn * 2 ^ 5 + rd
"""
CRC32_TESTS = """\
tests (instr.Crc32 sf rm c sz rn rd) =
    unsigned 1 sf ∷ unsigned 5 rm ∷ unsigned 1 c ∷ unsigned 2 sz ∷ unsigned 5 rn ∷ unsigned 5 rd
    ∷ implies (equal sf 0) (differ sz 3) ∷ implies (equal sf 1) (equal sz 3) ∷ []
"""
CRC32_STEP = """\
step_of_instr (instr.Crc32 sf rm c sz rn rd) r m = done (crc32_of r rm c sz rn rd) m
"""
CRC32_DEFINITION = """
-- CRC32B, CRC32H, CRC32W, CRC32X, CRC32CB, CRC32CH, CRC32CW, CRC32CX.
unfoldable pub crc32_of : Regs → ℕ → ℕ → ℕ → ℕ → ℕ → Regs
crc32_of r rm c sz rn rd =
    with_register r rd (checksum c (8 * bytes_of sz) (operand 0 (register r rn)) (register r rm))
"""
CRC32_FUNCTION = """
pub fn crc32(regs: &mut Regs, sf: u8, rm: u8, c: u8, sz: u8, rn: u8, rd: u8) {
}
"""
CRC32_TEXT = """
pub fn crc32(sf: u8, rm: u8, c: u8, sz: u8, rn: u8, rd: u8) -> TextLine {
}
"""
MNEMONICS = {(0, 0, 0): "crc32b", (0, 0, 1): "crc32h", (0, 0, 2): "crc32w", (1, 0, 3): "crc32x",
             (0, 1, 0): "crc32cb", (0, 1, 1): "crc32ch", (0, 1, 2): "crc32cw", (1, 1, 3): "crc32cx"}


def add_crc32(isa: AlteredIsa) -> None:
    """Adds the row, its line in its encoding group, its definitions and its functions."""
    isa.change(ROWS, "\nOneSource ", f"\n{CRC32}OneSource ")
    isa.change(ROWS, "    else            TwoSource",
               "    13:3=2          Crc32\n    else            TwoSource")
    names = "    mnemonics crc32b crc32h crc32w crc32x crc32cb crc32ch crc32cw crc32cx\n"
    isa.change("isa/a64.absent", names, "")
    for path, name, text in ((ENCODING, "word_of", CRC32_WORD), (ENCODING, "tests", CRC32_TESTS),
                             (STEPS, "step_of_instr", CRC32_STEP)):
        isa.change(path, f"\n{name} (instr.OneSource ", f"\n{text}{name} (instr.OneSource ")
    isa.write(DATA_PROCESSING, isa.text(DATA_PROCESSING) + CRC32_DEFINITION)
    for crate, function in (("a64_step", CRC32_FUNCTION), ("a64_text", CRC32_TEXT)):
        code = f"crates/{crate}/src/data_processing.rt"
        isa.write(code, isa.text(code) + function)


def test_crc32_is_a_row(isa: AlteredIsa) -> None:
    """All eight mnemonics are one block: it is read, what follows from it is written, and the check
    is satisfied, in a process of its own too."""
    add_crc32(isa)
    assert isa.findings() == []
    isa.save()
    assert isa.findings(with_files=True) == []
    ran = run([sys.executable, isa.root / "tools" / "isa.py", "--check"])
    assert ran == Ran(0, b"", b"")
    assert "Crc32 { sf: u8, rm: u8, c: u8, sz: u8, rn: u8, rd: u8 }" in isa.text(
        "crates/a64_instr/src/instruction.rt")
    lemmas = isa.text("crates/a64_decode/proofs/RowLemmas.antt")
    two_source = lemmas.partition("\ntwo_source w ")[2].partition("\n)\n")[0]
    assert "ne_eqb (field_of 13 3 w) 2 (omega arith)" in two_source
    crc32 = lemmas.partition("\ncrc32 w ")[2].partition("\n)\n")[0]
    assert "is w 13 3 2 (omega arith)" in crc32 and "no_tag" not in crc32 + two_source


def test_a_row_is_not_absent(isa: AlteredIsa) -> None:
    """As long as the table of absent families has the mnemonics of a row, the row is refused."""
    add_crc32(isa)
    isa.write("isa/a64.absent", (ROOT / "isa" / "a64.absent").read_text(encoding="utf-8"))
    line, other = isa.line_of(ROWS, "CRC32B"), isa.line_of("isa/a64.absent", "a checksum (CRC32)")
    assert isa.findings() == [f"{ROWS}:{line}: Crc32: names: CRC32B is absent by "
                          f"isa/a64.absent:{other} (a checksum (CRC32))"]


def test_crc32_is_encoded_and_decoded(isa: AlteredIsa, tmp_path: pathlib.Path) -> None:
    """The words of all fields that are allowed are those of objdump's mnemonics, and are found by
    the row and by its encoding group; those of other sizes are refused."""
    need(OBJDUMP)
    add_crc32(isa)
    rows = table.read_rows()
    found = groups.read_groups(rows)
    source = random.Random(32)
    drawn = []
    for sf, c, sz in ((sf, c, sz) for sf in (0, 1) for c in (0, 1) for sz in range(4)):
        for _ in range(8):
            registers = {name: source.randrange(32) for name in ("rm", "rn", "rd")}
            drawn.append({"sf": sf, "c": c, "sz": sz, **registers})
    words = [rows["Crc32"].word(fields) for fields in drawn]
    for fields, word, text in zip(drawn, words, lines_of_objdump(words, tmp_path)):
        mnemonic = MNEMONICS.get((fields["sf"], fields["c"], fields["sz"]))
        row = table.decode(word, rows)
        assert groups.find_row(word, *found) == "Crc32"
        assert (row.name if row else None) == ("Crc32" if mnemonic else None), text
        if row is not None:
            assert row.values(word) == fields and text.split()[0] == mnemonic


def test_words_beside_crc32_keep_their_rows(isa: AlteredIsa) -> None:
    """With the new row each word that was an instruction has the row that it had."""
    before = table.read_rows()
    source = random.Random(5)
    words = [source.getrandbits(32) for _ in range(2000)]
    words += [0x1AC0_0000 | word & ~0x7FE0_0000 for word in words]
    had = [table.decode(word, before) for word in words]
    add_crc32(isa)
    after = table.read_rows()
    have = [table.decode(word, after) for word in words]
    assert any(row is not None and row.name == "Crc32" for row in have)
    assert all(now is not None and now.name == old.name for old, now in zip(had, have)
               if old is not None)


def test_crc32_is_explained(isa: AlteredIsa) -> None:
    """What a word is, and why one of another size is refused."""
    add_crc32(isa)
    rows = table.read_rows()
    forms = table.read_forms(rows)
    assert pages.explained(0x9AC34C41, rows, forms).split("\n")[-3:] == [
        "9AC34C41: Crc32 sf=1 rm=3 c=0 sz=3 rn=2 rd=1",
        "  CRC32B, CRC32H, CRC32W, CRC32X, CRC32CB, CRC32CH, CRC32CW, CRC32CX.",
        "  no form of its own"]
    assert "  refused: allowed only where `sz` is not 3 if `sf` is 0" in pages.explained(
        0x1AC34C41, rows, forms).split("\n")


# ---- rows and forms that are refused

BLOCK = "TwoSource    sf:1 0011010110 rm:5 opcode:6 rn:5 rd:5"
EXAMPLE = "example  9AC30841 udiv x1, x2, x3"
SYNTAX = "START:WIDTH=VALUE, or word=VALUE"
UDIV = "Udiv TwoSource opcode=2 |  | two_source |"

# A text of the rows, what takes its place, the line that is named, and what is said of it.
REFUSED_ROWS = [
    # The first line.
    (BLOCK, BLOCK.replace("rd:5", "rm:5"), "TwoSource ", "TwoSource: the field rm is there twice"),
    (BLOCK, BLOCK.replace("rm:5", "rm:4"), "TwoSource ",
     "TwoSource: its fields and fixed bits are 31 bits, and a word has 32"),
    (BLOCK, BLOCK.replace("rm:5", "rm:5 0"), "TwoSource ",
     "TwoSource: its fields and fixed bits are 33 bits, and a word has 32"),
    (BLOCK, BLOCK.replace("rm:5", "rm:x5"), "TwoSource ",
     "TwoSource: the type `x5` of the field rm is unknown: WIDTH, or sWIDTH for one in two's "
     "complement"),
    (BLOCK, BLOCK.replace("rm:5 opcode:6 rn:5", "rn:17"), "TwoSource ",
     "TwoSource: the field rn:17 has no type: an unsigned one has 1 to 16 bits, a signed one 2 to "
     "32"),
    (BLOCK, BLOCK.replace("rm:5", "rm:s5").replace("rn:5", "rn:s5"), "TwoSource ",
     "TwoSource: there are two signed fields, and the proofs are written for one"),
    (BLOCK, BLOCK.replace("rm:5", "match:5"), "TwoSource ",
     "TwoSource: a field can't be called `match`"),
    (BLOCK, BLOCK.replace("0011010110", "0011010120"), "TwoSource ",
     "TwoSource: `0011010120` is neither a field (NAME:WIDTH) nor fixed bits"),
    (BLOCK, BLOCK.replace("TwoSource", "CondSel  "), "CondSel      sf:1 0011010110",
     "CondSel: there is a row of this name (isa/a64.rows:{CondSel })"),
    (BLOCK, BLOCK.replace("TwoSource", "Condsel  ").replace("Condsel", "Two_Source"), "Two_Source",
     "`Two_Source` can't be the name of a row"),
    # The further lines.
    ("allows   two_source opcode", "allows   two_source code", "two_source code",
     "TwoSource: allows: there is no field code"),
    ("allows   two_source opcode", "allows   three_source opcode", "three_source",
     "TwoSource: allows: `three_source opcode` is no test (below, equal, differ, mask, load_store, "
     "load_store_pair, write_back, two_source, offset_register, or one -> another)"),
    ("allows   two_source opcode", "allows   two_source opcode rm", "opcode rm",
     "TwoSource: allows: `two_source opcode rm`: two_source takes 1"),
    ("allows   two_source opcode", "allows   below opcode 6 -> two_source opcode",
     "below opcode 6 ->",
     "TwoSource: allows: `below opcode 6 -> two_source opcode`: only `equal` implies a test"),
    ("allows   two_source opcode", "allows   equal 3 opcode", "equal 3 opcode",
     "TwoSource: allows: `equal 3 opcode` has a number where a field is tested"),
    (EXAMPLE, "sample   9AC30841 udiv", "sample ", "TwoSource: `sample` is no key"),
    (EXAMPLE, f"{EXAMPLE}\n    {EXAMPLE} ", f"{EXAMPLE} ", "TwoSource: `example` is there twice"),
    (EXAMPLE, "example  9AC3084 udiv", "9AC3084 ",
     "TwoSource: example: `9AC3084` is no word of eight hexadecimal digits"),
    (EXAMPLE, "example  9BC30841 udiv", "9BC30841",
     "TwoSource: example: 9BC30841 has other fixed bits"),
    (EXAMPLE, "example  9AC30041 udiv", "9AC30041",
     "TwoSource: example: 9AC30041 is refused: not `two_source opcode`"),
    ("    names    UDIV, SDIV, LSLV, LSRV, ASRV, RORV.\n", "", "TwoSource ",
     "TwoSource: there is no line `names`"),
    ("copies   sf=1 n=0 imm6=0; sf=1", "copies   sf=1 n=2; sf=1", "n=2; ",
     "LogShift: copies: n=2 is wider than the field"),
    ("copies   sf=1 n=0 imm6=0; sf=1", "copies   sf=1 n; sf=1", "sf=1 n;",
     "LogShift: copies: `n` is not FIELD=NUMBER"),
    ("copies   sf=1 n=0 imm6=0; sf=1", "copies   sf=1 m=0; sf=1", "m=0;",
     "LogShift: copies: there is no field m"),
    ("part     is_branch\n    step     regs\n    text     pc\n    writes",
     "part     is_jump\n    step     regs\n    text     pc\n    writes", "is_jump",
     "Branch: part: there is no part is_jump"),
    ("names    MOVN, MOVZ, MOVK.\n", "names    MOVN, MOVZ, MOVK.\n    part     is_branch\n",
     "MoveWide ", "MoveWide: it isn't next to the others of is_branch: Bitfield is between"),
    ("step     regs memory\n    text     pc", "step     registers memory\n    text     pc",
     "registers memory", "LdLit: step: `registers` is neither regs nor memory nor -FIELD"),
    ("    text     pc\n    accesses literal(opc, imm19, rt)\n", "    text     pc\n", "LdLit ",
     "LdLit: it takes memory and doesn't say how it accesses it"),
    ("step     regs memory\n    text     pc", "step     regs\n    text     pc", "LdLit +4",
     "LdLit: step: ld_lit takes memory, outcome, regs, and the line says regs"),
    ("text     pc\n    accesses literal", "accesses literal", "LdLit ",
     "LdLit: text: the line and ld_lit differ in pc"),
    ("text     pc\n    accesses literal", "text     here\n    accesses literal", "text     here",
     "LdLit: text: `here` is neither pc nor -FIELD"),
    # Rows beside one another.
    ("overlaps TwoSource\n    example  9ADF", "example  9ADF", "SubP ",
     "SubP: it overlaps TwoSource (isa/a64.rows:{TwoSource }), and neither says so"),
    ("    allows   two_source opcode\n", "", "SubP +4",
     "SubP: overlaps: nothing keeps it apart from TwoSource (isa/a64.rows:{TwoSource }), whose "
     "fixed bits allow words of it"),
    ("overlaps PairPost PairOff PairPre", "overlaps PairPost PairOff PairPre Svc", "PairPre Svc",
     "StGP: overlaps: it doesn't overlap Svc (isa/a64.rows:{Svc })"),
    ("overlaps PairPost PairOff PairPre", "overlaps PairPost PairOf PairPre", "PairOf ",
     "StGP: overlaps: there is no row PairOf"),
]

# The same of lines of encoding groups, and of rows that these don't lead to.
REFUSED_GROUPS = [
    ("    else            TwoSource", "    13:3=1          TwoSource", "13:3=1",
     "TwoSource: 13:3=1 leads to it, which are bits of its fields (isa/a64.rows:{TwoSource }): "
     "words of it with other values would not be found"),
    ("    else            TwoSource", "    21:1=1          TwoSource", "21:1=1          Two",
     "TwoSource: 21:1=1 leads to it, and its fixed bits differ (isa/a64.rows:{TwoSource })"),
    ("    else            TwoSource", "    else            TwoSources", " TwoSources",
     "TwoSources is neither a row nor a group"),
    ("    else            TwoSource", "    else            Irg", "else            Irg",
     "Irg is reached by another line too (isa/a64.rows:{31:1=1   Irg})"),
    ("    else            TwoSource\n", "", "TwoSource ",
     "TwoSource: no line of an encoding group leads to it"),
    ("    10:6=4 31:1=1   Irg", "    13:3=1 31:1=1   Irg", "13:3=1",
     "Irg: 13:3=1 31:1=1 takes words of TwoSource (isa/a64.rows:{TwoSource }), whose line is "
     "below: neither its fixed bits nor what it refuses exclude them"),
    ("    30:2=1 22:1=0   StGP", "    22:1=0 30:2=1   StGP", "22:1=0 30:2=1",
     "StGP: PairPost (isa/a64.rows:{PairPost }) refuses 22:1=0 30:2=1 together, and "
     "crates/a64_decode/proofs/RowPaths.antt has no lemma of it: test one field"),
    ("    10:6=4 31:1=1   Irg", "    10:6=64 31:1=1  Irg", "10:6=64",
     "`10:6=64`: the value has more bits"),
    ("    10:6=4 31:1=1   Irg", "    30:6=4 31:1=1   Irg", "30:6=4",
     "`30:6=4`: a word has no such bits"),
    ("    10:6=4 31:1=1   Irg", "    opcode=4        Irg", "opcode=4",
     f"`opcode=4` is no test of bits: {SYNTAX}"),
    ("    10:6=4 31:1=1   Irg", "    Irg", "    Irg\n", "Irg has neither tests nor `else`"),
    ("    8..9    load", "    8..10   load", "8..10",
     "8..10 are not all values of some of bits 28 to 24, the highest fixed"),
    ("    24      load_store_register", "    25      load_store_register", "LdStUnscaled ",
     "LdStUnscaled: isa/a64.rows:{25      load_store_register} takes it to be of the classes 25 to "
     "25, and it has words of 24 in bits 28 to 24"),
    ("\nbitfield_and_extract B", "\nlogical_and_move_wide B", "logical_and_move_wide B",
     "a group can't be called `logical_and_move_wide`, or there is one"),
]

# And of forms.
REFUSED_FORMS = [
    (UDIV, UDIV.replace("opcode=2", "opcode=64"), "Udiv: opcode=64 is wider than the field"),
    (UDIV, UDIV.replace("opcode=2", "opc=2"), "Udiv: TwoSource has no field opc"),
    (UDIV, UDIV.replace("opcode=2", "opcode"), "Udiv: `opcode` is not FIELD=NUMBER"),
    (UDIV, UDIV.replace("TwoSource", "ThreeSource"), "Udiv: there is no row ThreeSource"),
    (UDIV, UDIV.replace("|  |", "|"), "Udiv: the line has 4 parts, and a form has 5"),
    (UDIV, UDIV.replace("|  |", "| gpr ra |"), "Udiv: it keeps no field ra"),
    (UDIV, UDIV.replace("|  |", "| rm |"), "Udiv: `rm` is not FIELD<NUMBER"),
    (UDIV, UDIV.replace("two_source |", "one_source |"),
     "Udiv: one_source doesn't take the field rm"),
    (UDIV, UDIV.replace("two_source |", "divide |"),
     "Udiv: no function divide in a64_step or a64_ops or a64_execute"),
    ("{rn: u8, rd: u8, shift: u8} step_of_instr (instr.Bitfield 1",
     "{rn: u8, rd: u8, shift: u7} step_of_instr (instr.Bitfield 1",
     "Lsl: the type `u7` of the field shift is unknown"),
    ("of any registers. | is_rare\nSdiv", "of any registers. | is_division\nSdiv",
     "Udiv: there is no family is_division"),
    ("of any registers. | is_rare\nSdiv", "of any registers. | is_rare_access\nSdiv",
     "Udiv: its function has the family is_rare"),
    ("LDR, LDRSW (literal). | is_rare_access", "LDR, LDRSW (literal). | is_rare",
     "AnyLiteral: its function has the family is_rare_access"),
    ("SVC. | \n", "SVC. | is_rare\n",
     "Svc: a rare form is executed by the function of its row, and call_supervisor is none"),
    ("Hint {} done r m |  | no_operation | Hints: NOP, BTI and their kind. | \n",
     "Hint {} done r m |  | no_operation | Hints: NOP, BTI and their kind. | is_rare\n",
     "Hint: a rare form is a row with constants"),
    *(("Svc Svc |  |", "".join(f"Svc{n} Svc |  | call_supervisor | SVC. |\n" for n in range(56))
       + "Svc Svc |  |", "Svc: Op has 254 forms, and may have 253: a rare form has the family "
       "is_rare or is_rare_access"),),
]


def ids(cases: Sequence[tuple[str, ...]]) -> list[str]:
    """A name for each case, by what is told."""
    return ["_".join(re.findall(r"\w+", case[-1])[:8]) for case in cases]


def with_lines(isa: AlteredIsa, told: str) -> str:
    """What is told, with the number of the line that has the text in braces."""
    def numbered(found: re.Match[str]) -> str:
        return str(isa.line_of(ROWS, found[1]))
    return re.sub(r"\{(.*?)\}", numbered, told)


@pytest.mark.parametrize(("old", "new", "where", "told"), [*REFUSED_ROWS, *REFUSED_GROUPS],
                         ids=ids([*REFUSED_ROWS, *REFUSED_GROUPS]))
def test_rows_are_refused(isa: AlteredIsa, old: str, new: str, where: str, told: str) -> None:
    """One error names the line, the row and the reason."""
    isa.change(ROWS, old, new)
    text, _, lines_below = where.partition("+")
    line = isa.line_of(ROWS, text.rstrip("\n")) + int(lines_below or 0)
    assert isa.findings() == [f"{ROWS}:{line}: {with_lines(isa, told)}"]


@pytest.mark.parametrize(("old", "new", "told"), REFUSED_FORMS, ids=ids(REFUSED_FORMS))
def test_forms_are_refused(isa: AlteredIsa, old: str, new: str, told: str) -> None:
    """One error names the line, the form and the reason."""
    isa.change(FORMS, old, new)
    found = isa.findings()
    assert len(found) == 1 and re.match(rf"{FORMS}:\d+: ", found[0]), found
    assert found[0].partition(": ")[2] == told, found


# ---- whatever else is written in a row


def altered_line(source: random.Random, line: str, others: Sequence[str]) -> str:
    """The line without one of its words, with one twice, or with one of another line."""
    start = line[:len(line) - len(line.lstrip())]
    words = line.split()
    at = source.randrange(len(words))
    other = source.choice(source.choice(others).split())
    changed: list[str] = source.choice([[], [words[at]] * 2, [other]])
    return start + " ".join([*words[:at], *changed, *words[at + 1:]])


@pytest.mark.parametrize("path", [ROWS, FORMS])
def test_whatever_is_written_is_taken_or_refused(isa: AlteredIsa, path: str) -> None:
    """Of a line with a word too few, too many or wrong, the tool writes what follows, or tells one
    line of a file, or where definitions differ; nothing else is raised."""
    source = random.Random(67)
    lines = isa.text(path).split("\n")
    full = [number for number, line in enumerate(lines) if line and not line.startswith("#")]
    for _ in range(60):
        number = source.choice(full)
        line = altered_line(source, lines[number], [lines[each] for each in full])
        isa.write(path, "\n".join([*lines[:number], line, *lines[number + 1:]]))
        for told in isa.findings():
            assert re.match(r"(isa/a64\.(rows|forms):\d+|crates/\w+/specs/\w+\.antt): \S", told
                            ), (line, told)


def test_errors_go_to_standard_error(isa: AlteredIsa) -> None:
    """The command ends with 1, and prints the error alone."""
    isa.change(ROWS, BLOCK, BLOCK.replace("rd:5", "rm:5"))
    line = isa.line_of(ROWS, "TwoSource ")
    told = f"{ROWS}:{line}: TwoSource: the field rm is there twice\n"
    for option in ("--check", "--overlaps", "--files", "--why=9AC30841"):
        ran = run([sys.executable, isa.root / "tools" / "isa.py", option])
        assert ran == Ran(1, b"", told.encode())


# ---- what a row accesses, writes and is called, compared with the definitions

WRONG_MEANINGS = [
    # accesses: an offset, a size, a register, a mode, a field, another function, none, one too few.
    ("Offset(scaled_offset(imm12, size))", "Offset(scaled_offset(imm12, 3))", "LdStImm",
     "accesses"),
    ("single(size, opc, rn, rt, PostIndexed)", "single(3, opc, rn, rt, PostIndexed)", "LdStPost",
     "accesses"),
    ("single(size, opc, rn, rt, PostIndexed)", "single(size, opc, rn, rt, Offset(8))", "LdStPost",
     "accesses"),
    ("single(size, opc, rn, rt, PostIndexed)", "single(size, 1, rn, rt, PostIndexed)", "LdStPost",
     "accesses"),
    ("single(size, opc, rn, rt, PreIndexed", "single(size, opc, rn, rt, Offset", "LdStPre",
     "accesses"),
    ("single(size, opc, rn, rt, register_offset(rm, option, s))",
     "single(size, opc, rn, rm, register_offset(rm, option, s))", "LdStReg", "accesses"),
    ("register_offset(rm, option, s)", "register_offset(rm, option, 0)", "LdStReg", "accesses"),
    ("register_offset(rm, option, s)", "register_offset(rm, 3, s)", "LdStReg", "accesses"),
    ("literal(opc, imm19, rt)", "literal(1, imm19, rt)", "LdLit", "accesses"),
    ("literal(opc, imm19, rt)", "single(3, 1, rt, rt, Offset(0))", "LdLit", "accesses"),
    ("pair(opc, l, rn, rt, rt2, PostIndexed)", "pair(opc, 1, rn, rt, rt2, PostIndexed)",
     "PairPost", "accesses"),
    ("pair(opc, l, rn, rt, rt2, Offset", "pair(opc, l, rn, rt2, rt, Offset", "PairOff",
     "accesses"),
    ("rt2, PreIndexed(pair_offset(opc, imm7))", "rt2, PreIndexed(pair_offset(0, imm7))", "PairPre",
     "accesses"),
    ("tag_mode(2, i32::from(imm9))", "tag_mode(1, i32::from(imm9))", "Ldg", "accesses"),
    ("store_tags(opc, rn, rt, tag_mode(mode, i32::from(imm9)))",
     "store_tags(opc, rn, rt, tag_mode(2, i32::from(imm9)))", "StG", "accesses"),
    ("store_tags(opc, rn, rt, tag", "store_tags(0, rn, rt, tag", "StG", "accesses"),
    ("store_tags(opc, rn, rt, tag", "store_tags(opc, rn, rn, tag", "StG", "accesses"),
    ("store_tags(opc, rn, rt, tag", "load_tag(rn, rt, tag", "StG", "accesses"),
    ("tagged_pair(rn, rt, rt2, tag_mode(mode", "pair(2, 0, rn, rt, rt2, tag_mode(mode", "StGP",
     "accesses"),
    ("tagged_pair(rn, rt, rt2", "tagged_pair(rn, rt2, rt", "StGP", "accesses"),
    ("Offset(scaled_offset(imm12, size))", "Offset(scaled_offset(imm12))", "LdStImm", "accesses"),
    ("single(size, opc, rn, rt, PostIndexed)", "singly(size, opc, rn, rt, PostIndexed)",
     "LdStPost", "accesses"),
    ("single(size, opc, rn, rt, PostIndexed)", "single(size, opc, rd, rt, PostIndexed)",
     "LdStPost", "accesses"),
    ("    example  9ADF", "    accesses load_tag(rn, rd, PostIndexed)\n    example  9ADF", "SubP",
     "accesses"),
    # writes: another field, another number, another constant, one that writes nothing, none.
    ("writes   rt", "writes   rn", "Ldg", "writes"),
    ("    writes   rt\n", "", "Ldg", "writes"),
    ("writes   op=1 30", "writes   op=1 29", "Branch", "writes"),
    ("writes   op=1 30", "writes   op=0 30", "Branch", "writes"),
    ("writes   op=1 30", "writes   30", "Branch", "writes"),
    ("    writes   opc=1 30\n", "", "BranchReg", "writes"),
    ("writes   opc=1 30", "writes   opc=2 30", "BranchReg", "writes"),
    ("    example  9ADF", "    writes   rm\n    example  9ADF", "SubP", "writes"),
    ("    example  BA42A025", "    writes   rn\n    example  BA42A025", "CondCmp", "writes"),
    # names: a mnemonic misspelt, missing, or too many; another kind; another addressing mode.
    ("names    STGP.", "names    STPG.", "StGP", "names"),
    ("names    UDIV, SDIV, LSLV, LSRV, ASRV, RORV.", "names    UDIV, LSLV, LSRV, ASRV, RORV.",
     "TwoSource", "names"),
    ("names    CBZ, CBNZ.", "names    CBZ, CBNZ, CBB.", "CmpBranch", "names"),
    ("names    ADD, ADDS, SUB, SUBS (immediate).", "names    ADD, ADDS, SUB, SUBS (register).",
     "AddSubImm", "names"),
    ("names    LDP, STP, LDPSW, post-indexed.", "names    LDP, STP, LDPSW, pre-indexed.",
     "PairPost", "names"),
    ("names    Loads and stores of a register, unscaled offset.",
     "names    Loads and stores of a register, unsigned offset.", "LdStUnscaled", "names"),
]


@pytest.mark.parametrize(("old", "new", "row", "key"), WRONG_MEANINGS)
def test_wrong_meanings_are_told(isa: AlteredIsa, old: str, new: str, row: str, key: str) -> None:
    """A row that accesses, writes or is called something else than the definition is told, with its
    line, and no other is."""
    isa.change(ROWS, old, new)
    found = isa.findings()
    assert len(found) == 1, found
    place, name, rest = found[0].split(": ", 2)
    line = int(place.removeprefix(f"{ROWS}:"))
    first = isa.line_of(ROWS, f"{row} ")
    assert name == row and first <= line < first + 10
    assert rest.startswith(f"{key}: ") or key == "writes" and line == first, found


@pytest.mark.parametrize(("path", "old", "new", "row"), [
    ("crates/a64_step/specs/MemoryTagging.antt", "with_register r rt (with_address_tag",
     "with_register r rn (with_address_tag", "Ldg"),
    ("crates/a64_step/specs/Branches.antt", "if opc == BLR then", "if opc == BR then", "BranchReg"),
    ("crates/a64_step/specs/LoadStore.antt", "-- LDR, LDRSW (literal)", "-- LDR (literal)",
     "LdLit"),
])
def test_changed_definitions_are_told(isa: AlteredIsa, path: str, old: str, new: str,
                                      row: str) -> None:
    """A definition that no longer does what the row says is told with the row."""
    isa.change(path, old, new)
    found = isa.findings()
    assert len(found) == 1 and f": {row}: " in found[0], found


# ---- the absent families

ABSENT = "isa/a64.absent"


@pytest.mark.parametrize(("path", "old", "new", "told"), [
    (ABSENT, "FFFFF000=D5033000", "FFFFF000=D5034000",
     ["isa/a64.absent:{a barrier}: a barrier: crates/run_cause/src/families.rt has no "
      "FFFFF000=D5034000",
      "crates/run_cause/src/families.rt: FFFFF000=D5033000 of a barrier is not in isa/a64.absent"]),
    ("crates/run_cause/src/families.rt", "word >> 24 == 0xD8", "word >> 24 == 0xD9",
     ["isa/a64.absent:{a prefetch}: a prefetch: crates/run_cause/src/families.rt has no "
      "FF000000=D8000000",
      "crates/run_cause/src/families.rt: FF000000=D9000000 of a prefetch is not in "
      "isa/a64.absent"]),
    ("crates/run_cause/src/families.rt", 'Some("a barrier")', 'Some("barriers")',
     ["isa/a64.absent:{a barrier}: a barrier: crates/run_cause/src/families.rt has no "
      "FFFFF000=D5033000",
      "crates/run_cause/src/families.rt: FFFFF000=D5033000 of barriers is not in isa/a64.absent"]),
    (ABSENT, "page      PRFM", "page      PRFM and PRFUM",
     ["docs/TENANTS.md:{| PRFM |}: isn't what the data give (run tools/isa.py)"]),
    (ABSENT, "mnemonics prfm prfum", "mnemonics prfm",
     ["tools/disassembly/absent.py:{prfm}: isn't what the data give (run tools/isa.py)"]),
    (ABSENT, "7FE0E000=1AC04000", "7FE0E000=1AC0400",
     ["isa/a64.absent:{1AC0400}: a checksum (CRC32): `7FE0E000=1AC0400` is not MASK=VALUE of eight "
      "hexadecimal digits each"]),
    (ABSENT, "7FE0E000=1AC04000", "7FE0E000=9AC04000",
     ["isa/a64.absent:{9AC04000}: a checksum (CRC32): `7FE0E000=9AC04000`: the value has bits that "
      "the mask hasn't"]),
    (ABSENT, "    page      SVE\n", "",
     ["isa/a64.absent:{SVE or SME}: SVE or SME: `page` and `avoid` go together"]),
    (ABSENT, "    page      SVE\n", "    pages     SVE\n",
     ["isa/a64.absent:{pages}: a line of no family, of no key, or a second one: pages"]),
    ("docs/TENANTS.md", "<!-- to here. -->\n", "",
     ["docs/TENANTS.md: the lines around its table of instructions are missing"]),
])
def test_absent_families_are_compared(isa: AlteredIsa, path: str, old: str, new: str,
                                      told: list[str]) -> None:
    """The page, the mnemonics and the families that a report tells are those of the table."""
    isa.change(path, old, new)
    def numbered(found: re.Match[str]) -> str:
        return f"{found[1]}:{isa.line_of(found[1], found[2])}"
    wanted = [re.sub(r"([\w./]+):\{(.*?)\}", numbered, text) for text in told]
    assert isa.findings(with_files=True) == wanted


def test_order_of_absent_families(isa: AlteredIsa) -> None:
    """Where words are of two families, the one that the code asks for first is the first."""
    text = isa.text(ABSENT)
    svc, hypervisor = re.findall(r"(?:^an SVC|^a call)[^\n]*\n[^\n]*\n\n", text, re.M)
    isa.write(ABSENT, text.replace(svc + hypervisor, hypervisor + svc))
    line = isa.line_of(ABSENT, "an SVC")
    assert isa.findings() == [
        f"{ABSENT}:{line}: an SVC of another number than 0: crates/run_cause/src/families.rt asks "
        "for FFE0001F=D4000001 before a call of a hypervisor, a monitor or a debugger"]
