"""What is known of the flags NZCV, and of a condition."""

from dataclasses import dataclass, replace
from typing import Optional

from tests.reference import numbers
from tests.reference.known import NOWHERE, Known, Origins, any_of
from tests.reference.numbers import Partial, holds

N, Z, C, V = 8, 4, 2, 1
# Conditions of a comparison by its extremes: whether they are of numbers with a sign, and whether
# equal numbers satisfy them.
ORDERS = {1: (False, True), 4: (False, False), 5: (True, True), 6: (True, False)}


@dataclass(frozen=True)
class Flags:
    """The flags, some values that they can have (`must`), the flags that may count as undefined
    (`may`), and the numbers that were compared, as far as no more than that is known of them."""

    value: int = 0
    must: frozenset[int] = frozenset()
    may: int = 0
    compared: Optional[tuple[Partial, Partial, int]] = None
    origins: Origins = NOWHERE

    def is_open(self, condition: int) -> bool:
        """Whether a condition depends on undefined bits."""
        outcomes = {holds(condition, it) for it in self.must | {self.value}}
        return len(outcomes) > 1

    def may_be_open(self, condition: int) -> bool:
        """Whether a checker may count it as such: not where defined bits decide a comparison."""
        if self.compared is not None:
            x, y, bits = self.compared
            if condition >> 1 == 0:
                return numbers.is_equal_open(x, y)
            if condition >> 1 in ORDERS:
                return is_order_open(x, y, bits, condition >> 1)
        others = {self.value & ~self.may | it & self.may for it in range(16)}
        return len({holds(condition, it) for it in others}) > 1

    @property
    def carry(self) -> Known:
        """C as a number."""
        must = len({it & C for it in self.must | {self.value}}) > 1
        may = self.may >> 1 & 1
        return Known(self.value >> 1 & 1, int(must), may, self.origins if must or may else NOWHERE)


def is_order_open(x: Partial, y: Partial, bits: int, order: int) -> bool:
    """Whether the extremes of two numbers leave their order open."""
    has_sign, is_with_equal = ORDERS[order]
    least, largest = numbers.bounds(x, bits, has_sign)
    low, high = numbers.bounds(y, bits, has_sign)
    if is_with_equal:
        return not (least >= high or largest < low)
    return not (least > high or largest <= low)


def of_sum(x: Known, y: Known, carry: Known, bits: int, is_difference: bool) -> Flags:
    """Those of ADDS, or of SUBS where y is inverted."""
    found = numbers.tried([x.lower, y.lower, carry.lower],
                          lambda a, b, c: numbers.add_with_carry(a, b, c, bits)[1])
    if not any_of(x, y, carry):
        return Flags(found[0])
    may = V
    undefined = numbers.in_sum(x.upper, y.upper, carry.upper, bits)
    if undefined >> bits - 1:
        may |= N
    if is_difference:
        is_zero_open = numbers.is_equal_open(x.upper, y.inverted(bits).upper)
    else:
        result, _ = numbers.add_with_carry(x.value, y.value, carry.value, bits)
        is_zero_open = bool(undefined) and not result & ~undefined
    if is_zero_open:
        may |= Z
    least = (x.value & ~x.may) + (y.value & ~y.may) + carry.value
    if least >> bits != (x.value | x.may) + (y.value | y.may) + carry.value >> bits:
        may |= C
    compared = (x.upper, y.inverted(bits).upper, bits) if is_difference else None
    return Flags(found[0], frozenset(found), may, compared, x.origins | y.origins)


def widened(flags: Flags, *operands: Known) -> Flags:
    """All flags may count as undefined, where an operand has undefined bits."""
    if not any_of(*operands):
        return flags
    origins = frozenset(it for operand in operands for it in operand.origins)
    return replace(flags, may=N | Z | C | V, compared=None, origins=flags.origins | origins)


def of_sum_with_carry(x: Known, y: Known, carry: Known, bits: int) -> Flags:
    """Those of ADCS and SBCS, which may all count as undefined."""
    return widened(of_sum(x, y, carry, bits, False), x, y, carry)


def of_result(result: Known, bits: int) -> Flags:
    """Those of ANDS and BICS: C and V are 0."""
    def read(value: int) -> int:
        return (value >> bits - 1) << 3 | (value == 0) << 2

    found = numbers.tried([result.lower], read)
    may = N if result.may >> bits - 1 else 0
    if result.may and not result.value & ~result.may:
        may |= Z
    return Flags(found[0], frozenset(found), may, None, result.origins)


def chosen(condition: int, flags: Flags, compared: Flags, constant: int) -> Flags:
    """Those of CCMP: of the comparison where the condition holds, else the constant."""
    is_first = holds(condition, flags.value)
    if not flags.may_be_open(condition) and not flags.is_open(condition):
        return compared if is_first else Flags(constant)
    value = compared.value if is_first else constant
    must = frozenset({value})
    if flags.is_open(condition):
        must = compared.must | {compared.value, constant}
    elif is_first:
        must = compared.must
    may = (compared.value ^ constant) | compared.may
    return Flags(value, must, may, None, flags.origins | compared.origins)
