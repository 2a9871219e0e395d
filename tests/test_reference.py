"""`mte_run --check` compared with a reference: a second checker in Python, tests/reference/. By the
rules of docs/CHECKING.md it keeps what is undefined and where pointers are from, along the lines
of `--trace`. Both look at drawn programs.

TOMBOLOPAN_DRAWN is how many programs of each kind are drawn, from seed 0 on.
"""

import os
import pathlib
import random
from collections.abc import Callable, Iterable
from typing import Optional

import pytest

from tests.reference import compare
from tests.reference.compare import Outcome
from tests.reference.definedness import first_uses
from tests.reference.drawing import word
from tests.reference.numbers import ALL
from tests.reference.provenance import first_findings
from tests.reference.runs import Runner
from tests.support.instructions import SERVICE, Words, add, call, copy, load, move, store

DRAWN = int(os.environ.get("TOMBOLOPAN_DRAWN", "200"))
MALLOC, FREE, EXIT, REALLOC = 3, 4, 0, 6
# How often each is reached, at the least, by 200 programs of its kind.
LEAST = 3
ROWS = {
    "add_sub_imm", "add_sub_shift", "add_sub_ext", "log_imm", "log_shift", "move_wide", "bitfield",
    "extr", "adr", "branch", "branch_cond", "cmp_branch", "test_branch", "branch_reg", "adc_sbc",
    "cond_cmp", "cond_sel", "two_source", "one_source", "mul_add", "mul_add_long", "mul_high",
    "ld_st_imm", "ld_st_unscaled", "ld_st_post", "ld_st_pre", "ld_st_reg", "ld_lit", "pair_post",
    "pair_off", "pair_pre", "svc", "hint", "add_g", "sub_p", "irg", "gmi", "ldg", "st_g", "st_g_p",
}
UNDEFINED = {
    "add_sub_imm", "add_sub_shift", "add_sub_ext", "log_imm", "log_shift", "move_wide", "bitfield",
    "extr", "adc_sbc", "cond_cmp", "cond_sel", "two_source", "one_source", "mul_add",
    "mul_add_long", "mul_high", "add_g", "sub_p", "irg", "branch_reg", "load", "load with a sign",
    "load over two words", "store", "bytes that realloc adds",
    "cond_cmp by an undefined condition", "cond_sel by an undefined condition",
}
USES = {"UndefinedBranch", "UndefinedAddress", "UndefinedJump", "UndefinedOutput",
        "UndefinedArgument", "UndefinedExitStatus", "none"}
POINTERS = {
    "an access in its chunk", "a read of an aligned word over the end", "overflow", "underflow",
    "after free", "an access over the end",
    "a realloc in its place", "a realloc that moves", "a pointer that is loaded",
    "a pointer again by its value", "an access that is judged by its address",
    "add_sub_imm: Sum", "add_sub_shift: Sum", "add_sub_ext: Sum", "log_imm: Sum", "log_shift: Sum",
    "cond_sel: Sum", "add_g: Sum", "mul_add: Lost",
}
WRONG = {"Overflow", "Underflow", "AfterFree", "none"}


@pytest.fixture
def runner(alone: pathlib.Path, tmp_path: pathlib.Path) -> Runner:
    """Runs programs in a folder of a test."""
    return Runner(alone, tmp_path)


def compared(runner: Runner, kind: Callable[[Runner, int], Outcome]) -> Outcome:
    """All drawn programs of a kind."""
    found = Outcome()
    for seed in range(DRAWN):
        found.add(kind(runner, seed))
    assert not found.differences, "\n".join(found.differences)
    return found


def rarely(counts: "dict[str, int]", names: Iterable[str]) -> list[str]:
    """Those that were not reached often enough."""
    return sorted(name for name in names if counts.get(name, 0) < LEAST)


def test_undefined_values(runner: Runner) -> None:
    """Step, kind, origin and address agree, and each row, each rule and each use is reached."""
    found = compared(runner, compare.undefined_values)
    if DRAWN >= 200:
        assert not rarely(found.rows, ROWS)
        assert not rarely(found.rules, UNDEFINED)
        assert not rarely(found.ends, USES)


def test_wrong_pointers(runner: Runner) -> None:
    """Step, kind, byte and chunk agree, and each rule and each kind is reached."""
    found = compared(runner, compare.wrong_pointers)
    if DRAWN >= 200:
        assert not rarely(found.rules, POINTERS)
        assert not rarely(found.ends, WRONG)


# ---- rules that drawn programs seldom need


def operand(register: int, value: int, undefined: int, chunk: int = 9) -> list[int]:
    """A register with bits of a chunk that was not written; the others are those of a value."""
    return [load(register, chunk), *move(10, undefined),
            word("log_shift", sf=1, rm=10, rn=register, rd=register),
            *move(10, value & ~undefined),
            word("log_shift", sf=1, opc=1, rm=10, rn=register, rd=register)]


def flat(*parts: Words) -> list[int]:
    """Instructions in a row, and an exit."""
    found: list[int] = []
    for it in (*parts, call(EXIT, 0)):
        found += [it] if isinstance(it, int) else it
    return found


FRESH: list[int] = [*call(MALLOC, 24), copy(9, 0)]
# Chunks in x9, x20 and x21: of which of them bits are is told.
CHUNKS: list[int] = [*FRESH, *call(MALLOC, 24), copy(20, 0), *call(MALLOC, 24), copy(21, 0)]
HIGH = 0xFFFFFFFF << 32
IF_EQUAL = word("branch_cond", imm19=1, cond=0)
COMPARE = word("add_sub_shift", sf=1, op=1, s=1, rm=2, rn=1, rd=31)


def if_bit(bit: int) -> int:
    """A branch by a bit of x4, to the next instruction."""
    return word("test_branch", b5=bit >> 5, b40=bit & 31, imm14=1, rt=4)


def half(opc: int, register: int, base: int, at: int) -> int:
    """A store or a load (0 or 1) of the lower half of a register."""
    return word("ld_st_imm", size=2, opc=opc, imm12=at // 4, rn=base, rt=register)


# A rule, and a program that ends with a use of what it leaves undefined, or defined.
RULES: tuple[tuple[str, list[int]], ...] = (
    ("sum-with-0", flat(FRESH, operand(1, 0x1000, 0x100), word(
        "add_sub_imm", sf=1, s=1, rn=1, rd=31), IF_EQUAL)),
    ("sum-of-two", flat(FRESH, operand(1, 0x1000, 0x100), operand(2, 0x10, 0x20), word(
        "add_sub_shift", sf=1, s=1, rm=2, rn=1, rd=31), IF_EQUAL)),
    ("subp", flat(FRESH, operand(1, 0x1000, 0x100), word("sub_p", rm=9, rn=1, rd=4), if_bit(0))),
    ("subps", flat(FRESH, operand(1, 0x1000, 0x100), move(2, 0x10),
                   word("sub_p", s=1, rm=2, rn=1, rd=4), IF_EQUAL)),
    ("clz", flat(FRESH, operand(1, 0, 16), word("one_source", sf=1, opcode=4, rn=1, rd=4),
                 if_bit(2))),
    ("cls", flat(FRESH, operand(1, 0, 16), word("one_source", sf=1, opcode=5, rn=1, rd=4),
                 if_bit(6))),
    ("ccmp", flat(FRESH, operand(1, 0, 1), move(2, 0), operand(4, 0x1000, 0x100), COMPARE,
                  word("cond_cmp", sf=1, op=1, i=1, rm=3, rn=4, nzcv=0), IF_EQUAL)),
    ("ldg", flat(FRESH, operand(1, 0, 1 << 57), word("ldg", imm9=0, rn=9, rt=1), copy(4, 1),
                 if_bit(57))),
    ("irg", flat(FRESH, operand(1, 0, 1 << 57), word("irg", rm=31, rn=1, rd=4), if_bit(57))),
    ("gmi", flat(FRESH, operand(2, 0, 4), word("gmi", rm=2, rn=9, rd=4), if_bit(2))),
    ("addg", flat(FRESH, operand(1, 16, 16), word("add_g", uimm6=1, rn=1, rd=4), if_bit(5))),
    # Of these the chunk is what counts: the operand or the bytes of the other one leave no bit
    # undefined, or come before.
    ("store-of-fewer-bytes", flat(CHUNKS, operand(1, 0, HIGH, 20), half(0, 1, 9, 4),
                                  half(1, 4, 9, 0), if_bit(0))),
    ("store-over-two-words", flat(CHUNKS, operand(1, 0, HIGH, 20), word(
        "ld_st_unscaled", size=3, opc=0, imm9=4, rn=9, rt=1), half(1, 4, 9, 0), if_bit(0))),
    ("moved-by-realloc", flat(FRESH, call(MALLOC, 20), copy(20, 0), load(1, 9), half(0, 1, 20, 16),
                              copy(0, 20), move(1, 200), move(8, REALLOC), SERVICE, copy(20, 0),
                              half(1, 4, 20, 20), if_bit(0))),
    ("sum-of-32-bits", flat(CHUNKS, operand(1, 0, HIGH), operand(2, 0, 1, 20), word(
        "add_sub_shift", rm=2, rn=1, rd=4), if_bit(0))),
    ("adc-of-32-bits", flat(CHUNKS, operand(1, 0, HIGH), operand(2, 0, 1, 20), word(
        "adc_sbc", rm=2, rn=1, rd=4), if_bit(0))),
    ("ccmp-of-32-bits", flat(CHUNKS, operand(1, 0, HIGH), operand(2, 0, 1, 20), word(
        "cond_cmp", op=1, rm=2, rn=1, cond=14), IF_EQUAL)),
    ("and-of-two", flat(CHUNKS, operand(1, 0xF0, 0x0F), operand(2, 0, 0xF0, 20), word(
        "log_shift", sf=1, rm=2, rn=1, rd=4), if_bit(4))),
    ("orr-of-two", flat(CHUNKS, operand(1, 0, 0x0F), operand(2, 0x0F, 0xF0, 20), word(
        "log_shift", sf=1, opc=1, rm=2, rn=1, rd=4), if_bit(4))),
    ("bfi", flat(CHUNKS, operand(1, 0, 0xF0), operand(4, 0, 0xF0, 20), word(
        "bitfield", sf=1, opc=1, n=1, imms=3, rn=1, rd=4), if_bit(4))),
    ("extr", flat(CHUNKS, operand(1, 0, 1), operand(2, 0, 1, 20), word(
        "extr", sf=1, n=1, imms=8, rm=2, rn=1, rd=4), if_bit(56))),
    ("madd-with-0", flat(CHUNKS, operand(1, 0, 1), move(2, 0), operand(3, 0, 1, 20), word(
        "mul_add", sf=1, rm=2, ra=3, rn=1, rd=4), if_bit(0))),
    ("subp-of-56-bits", flat(CHUNKS, operand(1, 0, 1 << 60), operand(2, 0, 1, 20), word(
        "sub_p", rm=2, rn=1, rd=4), if_bit(0))),
)
# Rows of which each is drawn with operands that have undefined bits, and fields of each.
ROWS_OF_RULES: tuple[tuple[str, dict[str, tuple[int, ...]]], ...] = (
    ("add_sub_shift", {"sf": (0, 1), "s": (1,), "rm": (2,), "rd": (4,)}),
    ("add_sub_imm", {"sf": (0, 1), "s": (1,), "imm12": (0, 1, 4095), "rd": (4,)}),
    ("cond_cmp", {"sf": (0, 1), "op": (0, 1), "i": (0, 1), "rm": (0, 2, 2, 31),
                  "cond": tuple(range(14)), "nzcv": tuple(range(16))}),
    ("sub_p", {"s": (0, 1), "rm": (2,), "rd": (4,)}),
    ("one_source", {"sf": (0, 1), "opcode": (4, 5), "rd": (4,)}),
    ("irg", {"rm": (2, 31), "rd": (4,)}),
    ("gmi", {"rm": (2,), "rd": (4,)}),
    ("add_g", {"op": (0, 1), "uimm6": (0, 1, 63), "rd": (4,)}),
    ("log_shift", {"sf": (0, 1), "opc": (0, 1, 2, 3), "n": (0, 1), "rm": (2,), "rd": (4,)}),
    ("bitfield", {"sf": (1,), "n": (1,), "opc": (0, 1, 1, 2), "immr": tuple(range(64)),
                  "imms": tuple(range(64)), "rd": (4,)}),
    ("extr", {"sf": (1,), "n": (1,), "imms": tuple(range(64)), "rm": (2,), "rd": (4,)}),
    ("mul_add", {"sf": (0, 1), "o0": (0, 1), "rm": (2, 31), "ra": (3, 31), "rd": (4,)}),
    ("adc_sbc", {"sf": (0, 1), "op": (0, 1), "s": (0, 1), "rm": (2,), "rd": (4,)}),
    ("cond_sel", {"sf": (0, 1), "op": (0, 1), "o2": (0, 1), "cond": tuple(range(14)), "rm": (2,),
                  "rd": (4,)}),
)
# Bits of results that are tested more often than others.
LOW_BITS, TAG_BITS, CONDITIONS = range(8), range(54, 62), 14


def drawn_operand(source: random.Random, register: int, chunk: int) -> list[int]:
    """A register, most often with a few undefined bits, of the lowest, the highest or all."""
    value = source.choice((0, 1, 1 << 31, 1 << 63, ALL, source.getrandbits(64)))
    bits, at = source.choice(((0, 0), (1, 0), (3, 2), (8, 28), (6, 56), (2, 62), (64, 0)))
    undefined = source.getrandbits(bits) << at if bits else 0
    return operand(register, value, undefined, chunk)


def drawn_rule(seed: int) -> list[int]:
    """A program of one of these rows and a branch by its result or by its flags."""
    source = random.Random(seed)
    row, fields = ROWS_OF_RULES[seed % len(ROWS_OF_RULES)]
    drawn = {name: source.choice(values) for name, values in fields.items()}
    ends = [if_bit(source.choice((*LOW_BITS, *TAG_BITS, source.randrange(64))))]
    ends.append(word("branch_cond", imm19=1, cond=source.randrange(CONDITIONS)))
    sets = bool(drawn.get("s")) or row == "log_shift" and drawn["opc"] == 3
    is_of_flags = row == "cond_cmp" or sets and source.random() < 0.8
    compared = [*drawn_operand(source, 3, 21), word("add_sub_imm", sf=1, op=1, s=1, rn=3, rd=31)]
    return flat(CHUNKS, drawn_operand(source, 1, 9), drawn_operand(source, 2, 20), copy(4, 2),
                compared, word(row, rn=1, **drawn), ends[is_of_flags])


@pytest.mark.parametrize("words", [words for _, words in RULES], ids=[name for name, _ in RULES])
def test_rules(runner: Runner, words: list[int]) -> None:
    """Bits and flags are undefined only where they depend on undefined bits."""
    moments, _ = runner.trace(words)
    possible, certain, _ = first_uses(moments)
    assert compare.differs(runner.check(words, "undefined"), possible, certain) is None


def test_drawn_rules(runner: Runner) -> None:
    """As much for drawn operands and fields of these rows."""
    names, found = set(), []
    for seed in range(2 * DRAWN):
        words = drawn_rule(seed)
        moments, _ = runner.trace(words)
        possible, certain, _ = first_uses(moments)
        verdict = runner.check(words, "undefined")
        names.add((seed % len(ROWS_OF_RULES), verdict.name))
        differs = compare.differs(verdict, possible, certain)
        found += [f"seed {seed}: {differs}: {verdict}, {certain}"] if differs else []
    assert not found, "\n".join(found)
    if DRAWN >= 200:
        assert len(names) == 2 * len(ROWS_OF_RULES), names


@pytest.mark.parametrize(("size", "opc", "granule", "found"), [
    (40, 1, 2, "Overflow"), (40, 1, 1, None), (40, 3, 1, "Overflow"), (48, 3, 1, None),
    (40, 1, 3, "Overflow"), (40, 1, -1, "Underflow"), (40, 0, 2, None),
])
def test_cleared_granules(runner: Runner, size: int, opc: int, granule: int,
                          found: Optional[str]) -> None:
    """STZG and STZ2G of a granule that ends past a chunk's size write past it, as they do before
    its first; STG writes no bytes."""
    words = flat(call(MALLOC, size), copy(19, 0),
                 word("st_g", opc=opc, mode=2, imm9=granule, rn=19, rt=19))
    moments, _ = runner.trace(words)
    possible, certain, _ = first_findings(moments)
    assert not possible and (certain and certain.name) == found
    verdict = runner.check(words, "provenance")
    assert compare.differs_of_pointers(verdict, possible, certain) is None


FAULTS = {
    "translation": flat(call(MALLOC, 40), copy(19, 0), move(3, 0x1000000),
                        word("add_sub_shift", sf=1, rm=3, rn=19, rd=4), load(5, 4)),
    "tag": flat(call(MALLOC, 40), copy(19, 0), load(1, 19, 64)),
    "abort": flat(call(MALLOC, 40), copy(19, 0), move(8, FREE), SERVICE, copy(0, 19), SERVICE),
    "undefined": flat(FRESH, load(4, 9), load(5, 4)),
}


@pytest.mark.parametrize(("name", "kind", "found"), [
    ("translation", "provenance", "Overflow"), ("tag", "provenance", "Overflow"),
    ("abort", "frees", "DoubleFree"), ("undefined", "undefined", "UndefinedAddress"),
])
def test_findings_first(runner: Runner, name: str, kind: str, found: str) -> None:
    """A finding is reported instead of the fault or the abort of the same instruction."""
    _, document = runner.trace(FAULTS[name])
    assert document["status"]["kind"] in ("fault", "abort")
    verdict = runner.check(FAULTS[name], kind)
    assert (verdict.name, verdict.step) == (found, document["steps"])


def test_the_second_of_a_pair(runner: Runner) -> None:
    """Each register of a pair is judged."""
    words = flat(call(MALLOC, 40), copy(19, 0), store(19, 19), add(1, 19, 32),
                 word("pair_off", opc=2, imm7=0, rt=2, rt2=3, rn=1))
    moments, _ = runner.trace(words)
    possible, certain, _ = first_findings(moments)
    assert certain is not None and certain.name == "Overflow"
    verdict = runner.check(words, "provenance")
    assert compare.differs_of_pointers(verdict, possible, certain) is None


def test_a_load_over_two_words(runner: Runner) -> None:
    """Of a load over two words the chunk is named that its undefined bytes are of, also where the
    rest of the second word is of another one."""
    words = flat(FRESH, call(MALLOC, 24), copy(20, 0), load(1, 20), store(1, 9, 8),
                 word("ld_st_imm", size=2, opc=0, imm12=2, rn=9, rt=31),
                 word("ld_st_unscaled", size=3, opc=1, imm9=4, rn=9, rt=4), if_bit(0))
    moments, _ = runner.trace(words)
    possible, certain, _ = first_uses(moments)
    assert certain is not None and certain.origins == {("chunk", 1)}
    assert compare.differs(runner.check(words, "undefined"), possible, certain) is None
