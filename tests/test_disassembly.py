"""The text of instructions, as the library for C has it, compared with GNU objdump's.

The variables DISASSEMBLY_WORDS and DISASSEMBLY_SEED draw other words: how many (6000), and which
(2036, by which each alias occurs).
"""

import os
import pathlib
import random
import re
import sys
from collections.abc import Iterable

import pytest
from a64 import table
from disassembly.absent import ABSENT

from tests.support.drawn_words import Drawn, draw_all
from tests.support.embedding.built import EMBED, in_python
from tests.support.objdump import OBJDUMP, START, lines_of_objdump
from tests.support.running import succeed
from tests.support.tools import need

COUNT = int(os.environ.get("DISASSEMBLY_WORDS", "6000"))
SEED = int(os.environ.get("DISASSEMBLY_SEED", "2036"))

ASSEMBLER = "aarch64-linux-gnu-as"
# Each of the aliases that must occur.
ALIASES = set("""
    asr bfc bfi bfxil cinc cinv cmn cmp cmpp cneg cset csetm lsl lsr mneg mov mul mvn neg negs ngc
    ngcs ret ror sbfiz sbfx smnegl smull sxtb sxth sxtw tst ubfiz ubfx umnegl umull uxtb uxth
""".split())


# Prints the texts of words, a line each; each has its address in front of it.
PRINTS = """
import sys
from tombolopan import disassemble
numbers = [int(it, 16) for it in sys.stdin.read().split()]
for pc, word in zip(numbers[::2], numbers[1::2]):
    try:
        print(disassemble(word, pc))
    except ValueError:
        print(f".inst 0x{word:08x} // undefined")
"""


def texts_of(shared: pathlib.Path, words: Iterable[tuple[int, int]]) -> list[str]:
    """The library's texts of words, each after its address."""
    text = " ".join(f"{pc:x} {word:x}" for pc, word in words)
    extra = in_python(shared, EMBED / "tombolopan").extra
    return succeed([sys.executable, "-B", "-c", PRINTS], stdin=text.encode(),
                   extra=extra).output.splitlines()


def is_unpredictable(theirs: str) -> bool:
    """Whether a pair is loaded into one register, or a base is also transferred: what the manual
    calls CONSTRAINED UNPREDICTABLE."""
    registers = re.findall(r"\b[wx](\d+|zr)\b|\b(sp)\b", theirs)
    numbers = [number or name for number, name in registers]
    return theirs.startswith(("ld", "st")) and len(set(numbers)) < len(numbers)


def may_refuse(theirs: str) -> bool:
    """Whether a word that objdump reads so may be no instruction of the profile: objdump refuses it
    too, it is of an absent family, or it is unpredictable."""
    return "undefined" in theirs or theirs.split()[0] in ABSENT or is_unpredictable(theirs)


def is_right(drawn: Drawn, ours: str, theirs: str) -> bool:
    """Whether our text of a word is right, beside objdump's."""
    if drawn.row is not None:
        return ours == theirs
    return ours == f".inst 0x{drawn.word:08x} // undefined" and may_refuse(theirs)


@pytest.fixture(scope="module")
def made() -> list[Drawn]:
    """Words of all rows."""
    return draw_all(random.Random(SEED), COUNT)


def test_text_is_objdumps(shared: pathlib.Path, made: list[Drawn],
                          tmp_path: pathlib.Path) -> None:
    """Each instruction of the profile has objdump's text, and a word that is none is refused."""
    need(OBJDUMP)
    words = [drawn.word for drawn in made]
    ours = texts_of(shared, ((START + 4 * at, it) for at, it in enumerate(words)))
    theirs = lines_of_objdump(words, tmp_path)
    assert len(ours) == len(theirs) == len(words) >= COUNT
    wrong = [f"{drawn.word:08x} ({drawn.row}): {mine!r}, objdump {other!r}"
             for drawn, mine, other in zip(made, ours, theirs) if not is_right(drawn, mine, other)]
    assert not wrong, f"{len(wrong)} of {len(words)}\n" + "\n".join(wrong[:40])


def test_words_are_of_all_kinds(made: list[Drawn], tmp_path: pathlib.Path) -> None:
    """Every alias is among the words, every row, and refused words."""
    need(OBJDUMP)
    texts = lines_of_objdump([drawn.word for drawn in made], tmp_path)
    seen = {text.split()[0] for drawn, text in zip(made, texts) if drawn.row}
    assert not ALIASES - seen
    rows = {drawn.row for drawn in made}
    assert None in rows and len(rows) >= 41


# Words, each at START, and their texts.
WORKED = {
    0x910003FF: "mov sp, sp",
    0x8B226BFF: "add sp, sp, x2, lsl #2",
    0xEB0103FF: "cmp xzr, x1",
    0x4B811003: "sub w3, w0, w1, asr #4",
    0xB204CFE0: "mov x0, #0xf0f0f0f0f0f0f0f0",
    0x320003E0: "orr w0, wzr, #0x1",
    0x92800000: "mov x0, #0xffffffffffffffff",
    0xD2A00000: "movz x0, #0x0, lsl #16",
    0xD37DF041: "lsl x1, x2, #3",
    0x53001C20: "uxtb w0, w1",
    0xB37D0FE0: "bfc x0, #3, #4",
    0x93C10C20: "ror x0, x1, #3",
    0xF0000001: "adrp x1, 0x403000",
    0x97FFFFFF: "bl 0x3ffffc",
    0x54000041: "b.ne 0x400008",
    0xB6080041: "tbz x1, #33, 0x400008",
    0xD65F03C0: "ret",
    0xFA42A02F: "ccmp x1, x2, #0xf, ge",
    0x9A9F17E0: "cset x0, eq",
    0x9B02FC20: "mneg x0, x1, x2",
    0x78800041: "ldursh x1, [x2]",
    0xB862D820: "ldr w0, [x1, w2, sxtw #2]",
    0x98FFFFE2: "ldrsw x2, 0x3ffffc",
    0xA8C17BFD: "ldp x29, x30, [sp], #16",
    0xD503245F: "bti c",
    0xBAC2003F: "cmpp x1, x2",
    0x91BF3C41: "addg x1, x2, #0x3f0, #0xf",
    0xD96FF89F: "stzg sp, [x4, #4080]",
    0x9ADF13E1: "irg x1, sp",
}
# Words that are none of the profile's: data, LDP and LDR with equal registers, SVC with an
# immediate, ADDG with bit 14 set, the unallocated mode 0 of STGP.
REFUSED = (0, 0x00006948, 0xA9400000, 0xF8008400, 0xD4000021, 0x91804000, 0x68000000)


def test_worked_texts(shared: pathlib.Path) -> None:
    """Aliases, targets and immediates of each kind, and words that are refused; the address after
    the last one is 0."""
    assert dict(zip(WORKED, texts_of(shared, ((START, it) for it in WORKED)))) == WORKED
    assert texts_of(shared, ((START, it) for it in REFUSED)) == [
        f".inst 0x{it:08x} // undefined" for it in REFUSED]
    last = (1 << 64) - 4
    assert texts_of(shared, [(last, 0x14000002), (0, 0x14000002)]) == ["b 0x4", "b 0x8"]


def test_examples_of_rows(shared: pathlib.Path, tmp_path: pathlib.Path) -> None:
    """The example of each row is the word that GNU as makes of its text, and objdump reads our
    text of it; it has the row's fields."""
    need(ASSEMBLER, OBJDUMP)
    rows = table.read_rows()
    examples = {name: row.said["example"].partition(" ")[::2] for name, row in rows.items()}
    source, binary = tmp_path / "words.s", tmp_path / "words.o"
    source.write_text("".join(f"{text}\n" for _, text in examples.values()))
    succeed([ASSEMBLER, "-march=armv8.5-a+memtag", "-o", binary, source])
    words = [int(it, 16) for it, _ in examples.values()]
    told = succeed([OBJDUMP, "-d", binary]).output
    assert [int(it, 16) for it in re.findall(r"^ *[0-9a-f]+:\t([0-9a-f]{8}) ", told, re.M)] == words
    assert texts_of(shared, ((START + 4 * at, it) for at, it in enumerate(words))) == (
        lines_of_objdump(words, tmp_path))
    for name, word in zip(examples, words):
        row = table.decode(word, rows)
        assert row is not None and row.name == name and row.word(row.values(word)) == word
    assert len(words) >= 41
