"""What a fuzzer is told of the comparisons of a run, by its trace."""

from collections.abc import Iterator, Sequence
from dataclasses import dataclass
from typing import Optional

from tests.reference import results
from tests.reference.decode import SP, Instruction, logical_mask
from tests.reference.known import Known
from tests.reference.moments import PLAIN, Moment
from tests.reference.numbers import holds, mask_of

ANDS, EOR, RET = 3, 2, 2
Values = tuple[str, int, int]  # the kind, and both operands


@dataclass(frozen=True)
class Comparison:
    """As the library enters it."""

    step: int
    pc: int
    left: int
    right: int
    length: int
    kind: str
    width: int


def first_operand(at: Moment, may_be_sp: bool) -> int:
    """The register Rn, or SP."""
    it = at.instruction
    if may_be_sp and it["rn"] == SP:
        return at.before[SP] & mask_of(it.bits)
    return at.value(it["rn"], it.bits)


def second_operand(at: Moment) -> int:
    """The other operand of an addition, a subtraction or an operation on bits."""
    it = at.instruction
    if it.row == "add_sub_imm":
        return it["imm12"] << 12 * it["sh"]
    if it.row == "log_imm":
        return logical_mask(it["n"], it["immr"], it["imms"], it.bits)
    if it.row == "add_sub_ext":
        register = Known(at.value(it["rm"]))
        return results.extended(register, it["option"], it["imm3"], it.bits).value
    register = Known(at.value(it["rm"], it.bits))
    value = results.shifted(register, it["shift"], it["imm6"], it.bits).value
    return value ^ mask_of(it.bits) if it.row == "log_shift" and it["n"] else value


def operation(at: Moment) -> Optional[Values]:
    """What an instruction compares by its flags, or together with CBZ."""
    it = at.instruction
    if it.row.startswith("add_sub_"):
        kind = {(0, 1): "adds", (1, 0): "sub cbz", (1, 1): "subs"}.get((it["op"], it["s"]))
        may_be_sp = it.row != "add_sub_shift"
    elif it.row in ("log_imm", "log_shift"):
        kind, may_be_sp = {ANDS: "ands", EOR: "eor cbz"}.get(it["opc"]), False
    else:
        kind = None
    return (kind, first_operand(at, may_be_sp), second_operand(at)) if kind else None


def with_zero(last: Optional[Moment], at: Moment) -> Values:
    """What CBZ compares: a register with 0, or what the instruction right before compared."""
    it = at.instruction
    if last is not None and (found := operation(last)) and "cbz" in found[0]:
        before = last.instruction
        keeps = "imm" in before.row or before["rm"] != it["rt"]
        if keeps and before["rd"] == it["rt"] != SP and before.bits == it.bits:
            return found
    return "cbz", at.value(it["rt"], it.bits), 0


def values(last: Optional[Moment], at: Moment) -> Optional[Values]:
    """The kind and the operands of what an instruction compares."""
    it = at.instruction
    if it.row == "cmp_branch":
        return with_zero(last, at)
    if it.row == "test_branch":
        return "tbz", at.value(it["rt"]), 1 << 32 * it["b5"] + it["b40"]
    if it.row == "cond_cmp":
        right = it["rm"] if it["i"] else at.value(it["rm"], it.bits)
        kind = "ccmp" if it["op"] else "ccmn"
        is_made = holds(it["cond"], at.flags)
        return (kind, at.value(it["rn"], it.bits), right) if is_made else None
    found = operation(at)
    return None if found and "cbz" in found[0] else found


def target(at: Moment) -> Optional[int]:
    """Where an unconditional branch goes that is no RET."""
    it = at.instruction
    if it.row == "branch":
        return at.step.pc + 4 * it["imm26"] & PLAIN
    if it.row == "branch_reg" and it["opc"] != RET:
        return at.value(it["rn"]) & PLAIN
    return None


def width_of(it: Instruction) -> int:
    """How many bytes an operand has."""
    return 8 if it.row == "test_branch" else it.bits // 8


def comparisons(moments: Sequence[Moment], functions: Sequence[int]) -> Iterator[Comparison]:
    """All of a run, in their order."""
    before: list[Optional[Moment]] = [None, *moments]
    for last, at in zip(before, moments):
        place = target(at)
        if place in functions:
            first, second, third = at.before[:3]
            yield Comparison(at.step.number, at.step.pc, first, second, third, "call",
                             list(functions).index(place or 0))
        elif found := values(last, at):
            kind, left, right = found
            yield Comparison(at.step.number, at.step.pc, left, right, 0, kind,
                             width_of(at.instruction))
