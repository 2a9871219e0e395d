"""The instruction set as data: what is written from it, what the checks notice, and what the tool
tells of words. Nothing that was built is needed."""

import re
import sys
import textwrap

import pytest
from a64 import calls, dispatch, forms, table

from tests.support.places import ROOT
from tests.support.running import Ran, run

TOOLS = ROOT / "tools"
WRONG_CHANGES = 12


def isa(*words: str) -> Ran:
    """What tools/isa.py says."""
    return run([sys.executable, TOOLS / "isa.py", *words])


def test_files_are_what_the_data_give() -> None:
    """Each written file follows from isa/, and the definitions by hand agree with it."""
    assert isa("--check") == Ran(0, b"", b"")


def test_written_files_say_so() -> None:
    """Each written file is there, and its first line says that it is written."""
    files = isa("--files").output.split()
    assert len(files) >= 15
    for name in files:
        first = (ROOT / name).read_text(encoding="utf-8").split("\n")[0]
        assert "Written by tools/isa.py from isa/a64." in first and "Do not edit." in first, name


def test_words_are_explained() -> None:
    """The example of each row on the page is a word of that row, with its fields."""
    page = (ROOT / "docs" / "project" / "INSTRUCTIONS.md").read_text(encoding="utf-8")
    examples = re.findall(r"^### (\w+)\n.*?^Example: `(\w+)`", page, re.M | re.S)
    assert len(examples) >= 41
    for row, word in examples[::4]:
        ran = isa("--why", word)
        _, found, told = f"\n{ran.output}".partition(f"\n{word}: {row}")
        assert ran.status == 0 and found and "refused" not in told, ran.output + ran.errors


@pytest.mark.parametrize(("word", "told"), [
    ("8B07FCC5", "8B07FCC5: AddSubShift sf=1 op=0 s=0 shift=0 rm=7 imm6=63 rn=6 rd=5\n"
     "  ADD, ADDS, SUB, SUBS (shifted register).\n"
     "  form AddLsl rm=7 imm6=63 rn=6 rd=5: add_shifted_gpr\n"),
    ("8BC7FCC5", "8BC7FCC5: AddSubShift sf=1 op=0 s=0 shift=3 rm=7 imm6=63 rn=6 rd=5\n"
     "  ADD, ADDS, SUB, SUBS (shifted register).\n"
     "  refused: allowed only where `shift` is not 3\n"),
    ("3201F083", "3201F083: LogImm sf=0 opc=1 n=0 immr=1 imms=60 rn=4 rd=3\n"
     "  AND, ORR, EOR, ANDS (immediate).\n"
     "  a form with its mask or constant worked out, where its registers are below 31\n"),
    ("9AC30841", "9AC30841: TwoSource sf=1 rm=3 opcode=2 rn=2 rd=1\n"
     "  UDIV, SDIV, LSLV, LSRV, ASRV, RORV.\n"
     "  rare form Udiv sf=1 rm=3 rn=2 rd=1: two_source\n"),
    ("D43FFFE0", "D43FFFE0: Brk imm16=65535\n  BRK.\n  no form of its own\n"),
    ("00000000", "00000000: no row has its fixed bits\n"),
])
def test_a_word_is_explained(word: str, told: str) -> None:
    """A word with a form, a refused one, one whose mask is worked out, one with a rare form, one
    without a form or a row."""
    assert isa("--why", word) == Ran(0, told.encode(), b"")


def test_the_page_shows_a_row() -> None:
    """The row of docs/project/ADDING_AN_INSTRUCTION.md is that of the data."""
    page = (ROOT / "docs" / "project" / "ADDING_AN_INSTRUCTION.md").read_text(encoding="utf-8")
    shown = re.findall(r"^ {7}(StGP .*\n(?: {11}.*\n)+)", page, re.M)
    rows = (ROOT / "isa" / "a64.rows").read_text(encoding="utf-8")
    assert len(shown) == 1 and textwrap.dedent("       " + shown[0]) in rows


def test_the_page_counts_the_forms() -> None:
    """docs/project/ADDING_AN_INSTRUCTION.md has how many forms each table has and may have, and how
    many arms the first match has."""
    page = (ROOT / "docs" / "project" / "ADDING_AN_INSTRUCTION.md").read_text(encoding="utf-8")
    found = table.read_forms(table.read_rows())
    rooms = {of.enum: dispatch.MOST_VARIANTS for of in table.RARE_TABLES.values()}
    rooms[table.FIRST_TABLE.enum] = dispatch.MOST_FORMS
    for of in (table.FIRST_TABLE, *table.RARE_TABLES.values()):
        name = "op" if of == table.FIRST_TABLE else "rare_op"
        text = (ROOT / "crates" / "a64_ops" / "src" / f"{name}.rt").read_text(encoding="utf-8")
        inside = text.partition(f"pub enum {of.enum} {{\n")[2].partition("\n}")[0]
        count = len(forms.of_table(found, of))
        others = len(table.RARE_TABLES) + 1 if of == table.FIRST_TABLE else 0
        assert len(re.findall(r"^    [A-Z]\w*(?:,| \{|\()", inside, re.M)) == count + others
        assert f"| `{of.enum}` | {count} | {rooms[of.enum]} |" in page
    assert f"**There are {len(found)} forms, and there is room for {sum(rooms.values())}**" in page
    first = forms.of_table(found, table.FIRST_TABLE)
    alone = sum(not form.family for form in first)
    arms = dispatch.first_arms(first, calls.read_sources(set(dispatch.WRITTEN)))
    assert (f"has {len(arms) + len(table.RARE_TABLES) + 1} arms: one for each of the {alone} forms "
            f"without a family, one for each of the {len(dispatch.FAMILIES)} families, one for "
            "each table of rare forms and one for `Other`") in page


def test_rows_that_overlap() -> None:
    """The rows that overlap are those of the page."""
    page = (ROOT / "docs" / "project" / "INSTRUCTIONS.md").read_text(encoding="utf-8")
    listed = isa("--overlaps").output
    assert listed.count("\n") >= 7 and page.endswith(listed)


def test_wrong_changes_are_noticed() -> None:
    """Of the wrong changes to data, written files and definitions, some that are drawn: each makes
    the check red."""
    ran = run([sys.executable, TOOLS / "isa_plants.py", "--count", str(WRONG_CHANGES)])
    assert ran == Ran(0, f"{WRONG_CHANGES} noticed, 0 not, green after the last\n".encode(), b"")
