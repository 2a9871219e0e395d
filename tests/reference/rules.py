"""How data processing carries undefined bits: the rule of each row."""

from collections import Counter
from collections.abc import Callable

from tests.reference import conditions, known, results
from tests.reference.conditions import Flags
from tests.reference.decode import SP, Instruction, sign_extended
from tests.reference.known import Known
from tests.reference.moments import ALL, STACK_END, Moment
from tests.reference.numbers import mask_of

TAG = 15 << 56
LOW = (1 << 56) - 1


class Registers:
    """The undefined bits of the registers (31 is SP) and of the flags."""

    def __init__(self) -> None:
        self.registers = [Known(0)] * 31 + [Known(STACK_END)]
        self.flags = Flags()
        # How often each rule was needed for bits that were not defined.
        self.rules: Counter[str] = Counter()

    def read(self, register: int, bits: int = 64) -> Known:
        """A register; 31 is zero."""
        return Known(0) if register == SP else self.registers[register].low(bits)

    def base(self, register: int, bits: int = 64) -> Known:
        """A register; 31 is SP."""
        return self.registers[register].low(bits)

    def set(self, register: int, value: Known) -> None:
        """A register gets a result; 31 is zero."""
        if register != SP:
            self.registers[register] = value

    def count(self, it: Instruction) -> None:
        """Counts a rule where one of its operands has undefined bits."""
        names = [name for name in ("rn", "rm", "ra") if name in it.fields]
        if it.row in ("move_wide", "bitfield"):
            names.append("rd")
        if any(self.registers[it[name]].must for name in names if it[name] != SP):
            self.rules[it.row] += 1
        if "cond" in it.fields and self.flags.is_open(it["cond"]):
            self.rules[f"{it.row} by an undefined condition"] += 1


def flags_of_sum(it: Instruction, x: Known, y: Known) -> Flags:
    """Those of ADDS and CMN, or of SUBS and CMP, where y is inverted."""
    return conditions.of_sum(x, y, Known(it["op"]), it.bits, bool(it["op"]))


def sum_or_difference(state: Registers, it: Instruction, x: Known, y: Known) -> Known:
    """ADD, ADDS, SUB and SUBS."""
    bits = it.bits
    if it["op"]:
        y = y.inverted(bits)
    carry = Known(it["op"])
    if it["s"]:
        state.flags = flags_of_sum(it, x, y)
    return known.total(x, y, carry, bits)


def add_sub_imm(state: Registers, moment: Moment, it: Instruction) -> None:
    """A constant; SP may be the source and the target."""
    y = Known(it["imm12"] << (12 if it["sh"] else 0))
    found = sum_or_difference(state, it, state.base(it["rn"], it.bits), y)
    if it["rd"] != SP:
        state.set(it["rd"], found)
    elif not it["s"]:
        state.registers[SP] = found


def shifted_operands(state: Registers, it: Instruction) -> tuple[Known, Known]:
    """A register, and one that is shifted."""
    y = results.shifted(state.read(it["rm"], it.bits), it["shift"], it["imm6"], it.bits)
    return state.read(it["rn"], it.bits), y


def without_shared(it: Instruction, x: Known, found: Known) -> Known:
    """Of two operands that share undefined bits, what certainly depends on them is the lowest bit
    of x - (x << n), with n above 0; else nothing is said."""
    if it["rn"] != it["rm"]:
        return found
    must = 0
    if it.row == "add_sub_shift" and it["shift"] == 0 and it["imm6"]:
        must = x.must & -x.must
    return Known(found.value, must, found.may, found.origins)


def add_sub_shift(state: Registers, moment: Moment, it: Instruction) -> None:
    """A shifted register."""
    x, y = shifted_operands(state, it)
    found = sum_or_difference(state, it, x, y)
    state.set(it["rd"], without_shared(it, x, found))


def add_sub_ext(state: Registers, moment: Moment, it: Instruction) -> None:
    """An extended register; SP may be the source and the target."""
    y = results.extended(state.read(it["rm"]), it["option"], it["imm3"], it.bits)
    found = sum_or_difference(state, it, state.base(it["rn"], it.bits), y)
    if it["rd"] != SP:
        state.set(it["rd"], found)
    elif not it["s"]:
        state.registers[SP] = found


def logical(state: Registers, it: Instruction, x: Known, y: Known) -> Known:
    """AND, ORR, EOR and ANDS."""
    rules = [known.conjunction, known.disjunction, known.difference, known.conjunction]
    found = rules[it["opc"]](x, y)
    if it["opc"] == 3:
        state.flags = conditions.of_result(found, it.bits)
    return found


def log_imm(state: Registers, moment: Moment, it: Instruction) -> None:
    """A mask; SP may be the target."""
    found = logical(state, it, state.read(it["rn"], it.bits), results.immediate(it))
    if it["rd"] != SP:
        state.set(it["rd"], found)
    elif it["opc"] != 3:
        state.registers[SP] = found


def log_shift(state: Registers, moment: Moment, it: Instruction) -> None:
    """A shifted register, which may be inverted."""
    x, y = shifted_operands(state, it)
    if it["n"]:
        y = y.inverted(it.bits)
    state.set(it["rd"], without_shared(it, x, logical(state, it, x, y)))


def move_wide(state: Registers, moment: Moment, it: Instruction) -> None:
    """MOVN, MOVZ, and MOVK, which keeps the other bits."""
    found = Known(moment.after[it["rd"]])
    if it["opc"] == 3:
        kept = mask_of(it.bits) & ~(0xFFFF << 16 * it["hw"])
        old = state.read(it["rd"], it.bits)
        found = Known(found.value, old.must & kept, old.may & kept, old.origins)
    state.set(it["rd"], found)


def bitfield(state: Registers, moment: Moment, it: Instruction) -> None:
    """SBFM, BFM, UBFM."""
    state.set(it["rd"], results.field(it, state.read(it["rn"], it.bits),
                                      state.read(it["rd"], it.bits)))


def extr(state: Registers, moment: Moment, it: Instruction) -> None:
    """Bits of two registers."""
    x, y, by = state.read(it["rn"], it.bits), state.read(it["rm"], it.bits), it["imms"]
    high = x.moved(lambda value: value << it.bits - by & mask_of(it.bits))
    state.set(it["rd"], known.disjunction(high, y.moved(lambda value: value >> by)))


def adr(state: Registers, moment: Moment, it: Instruction) -> None:
    """An address of the image."""
    state.set(it["rd"], Known(moment.after[it["rd"]]))


def calls(state: Registers, moment: Moment, it: Instruction) -> None:
    """BL and BLR write their return address."""
    is_call = it["op"] if it.row == "branch" else it["opc"] == 1
    if is_call:
        state.set(30, Known(moment.after[30]))


def adc_sbc(state: Registers, moment: Moment, it: Instruction) -> None:
    """A sum with carry, of which more may count as undefined."""
    x, y = state.read(it["rn"], it.bits), state.read(it["rm"], it.bits)
    if it["op"]:
        y = y.inverted(it.bits)
    carry = state.flags.carry
    found = known.total(x, y, carry, it.bits)
    lowest = known.any_of(x, y, carry)
    may = mask_of(it.bits) & ~((lowest & -lowest) - 1) if lowest else 0
    if it["s"]:
        state.flags = conditions.of_sum_with_carry(x, y, carry, it.bits)
    state.set(it["rd"], known.combined(found.value, found.must, may, x, y, carry))


def cond_cmp(state: Registers, moment: Moment, it: Instruction) -> None:
    """CCMN and CCMP."""
    y = Known(it["rm"]) if it["i"] else state.read(it["rm"], it.bits)
    if it["op"]:
        y = y.inverted(it.bits)
    x = state.read(it["rn"], it.bits)
    compared = flags_of_sum(it, x, y)
    state.flags = conditions.chosen(it["cond"], state.flags, compared, it["nzcv"])


def cond_sel(state: Registers, moment: Moment, it: Instruction) -> None:
    """CSEL, CSINC, CSINV, CSNEG."""
    state.set(it["rd"], results.selected(it, state.flags, state.read(it["rn"], it.bits),
                                         state.read(it["rm"], it.bits)))


def two_source(state: Registers, moment: Moment, it: Instruction) -> None:
    """Divisions, and shifts by a register."""
    state.set(it["rd"], results.by_two(it, state.read(it["rn"], it.bits),
                                       state.read(it["rm"], it.bits)))


def one_source(state: Registers, moment: Moment, it: Instruction) -> None:
    """Reversals and counts."""
    state.set(it["rd"], results.by_one(it, state.read(it["rn"], it.bits)))


def mul_add(state: Registers, moment: Moment, it: Instruction) -> None:
    """MADD and MSUB."""
    x, y, addend = (state.read(it[name], it.bits) for name in ("rn", "rm", "ra"))
    state.set(it["rd"], results.product(it, x, y, addend))


def mul_add_long(state: Registers, moment: Moment, it: Instruction) -> None:
    """SMADDL, SMSUBL, UMADDL, UMSUBL."""
    x, y = state.read(it["rn"], 32), state.read(it["rm"], 32)
    if not it["u"]:
        x, y = (value.moved(lambda bits: sign_extended(bits, 32)) for value in (x, y))
    state.set(it["rd"], results.product(it, x, y, state.read(it["ra"])))


def mul_high(state: Registers, moment: Moment, it: Instruction) -> None:
    """SMULH and UMULH."""
    state.set(it["rd"], results.high_half(it, state.read(it["rn"]), state.read(it["rm"])))


def add_g(state: Registers, moment: Moment, it: Instruction) -> None:
    """ADDG and SUBG: a sum of 56 bits, and another tag."""
    x = state.base(it["rn"])
    offset = Known((moment.after[it["rd"]] - x.value) & LOW)
    found = known.total(x.low(56), offset, Known(0), 56)
    may = found.may | (ALL & ~LOW if x.may else 0)
    state.registers[it["rd"]] = known.combined(
        moment.after[it["rd"]], found.must, may, x)


def sub_p(state: Registers, moment: Moment, it: Instruction) -> None:
    """SUBP and SUBPS: a difference of 56 bits with its sign."""
    x, y = state.base(it["rn"]), state.base(it["rm"])
    x, y = (value.moved(lambda bits: sign_extended(bits, 56)) for value in (x, y))
    y = y.inverted(64)
    if it["s"]:
        state.flags = conditions.of_sum(x, y, Known(1), 64, True)
    state.set(it["rd"], known.total(x, y, Known(1), 64))


def irg(state: Registers, moment: Moment, it: Instruction) -> None:
    """Another tag in a pointer."""
    x, y = state.base(it["rn"]).masked(ALL & ~TAG), state.read(it["rm"], 16)
    may = x.may | (TAG if y.may else 0)
    state.registers[it["rd"]] = known.combined(moment.after[it["rd"]], x.must, may, x, y)


def gmi(state: Registers, moment: Moment, it: Instruction) -> None:
    """A mask with the tag of a pointer."""
    x, y = state.base(it["rn"]).masked(TAG), state.read(it["rm"])
    given = 0xFFFF if x.may else 1 << (x.value >> 56)
    may = y.may | 0xFFFF if x.may else y.may & ~given
    state.set(it["rd"], known.combined(moment.after[it["rd"]], y.must & ~given, may, x, y))


def ldg(state: Registers, moment: Moment, it: Instruction) -> None:
    """The tag of a granule, in a pointer."""
    old = state.read(it["rt"])
    state.set(it["rt"], known.combined(moment.after[it["rt"]], old.must & ~TAG, old.may & ~TAG,
                                       old))


Rule = Callable[[Registers, Moment, Instruction], None]
RULES: dict[str, Rule] = {
    rule.__name__: rule
    for rule in (add_sub_imm, add_sub_shift, add_sub_ext, log_imm, log_shift, move_wide, bitfield,
                 extr, adr, adc_sbc, cond_cmp, cond_sel, two_source, one_source, mul_add,
                 mul_add_long, mul_high, add_g, sub_p, irg, gmi, ldg)
} | {"branch": calls, "branch_reg": calls}
