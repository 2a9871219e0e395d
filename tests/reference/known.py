"""What is known of a value: which of its bits were never given.

`must` are the bits that depend on undefined ones; `may` are those that the page lets a checker
count as undefined: more of a division, a product and a sum with carry. `mte_run` is between.
"""

from collections.abc import Callable
from dataclasses import dataclass

from tests.reference import numbers
from tests.reference.numbers import Partial

# Where undefined bits come from: a heap call by its number, or the instruction that moved SP.
Origin = tuple[str, int]
Origins = frozenset[Origin]
NOWHERE: Origins = frozenset()


@dataclass(frozen=True)
class Known:
    """A value with its undefined bits, and what these come from."""

    value: int
    must: int = 0
    may: int = 0
    origins: Origins = NOWHERE

    @property
    def lower(self) -> Partial:
        """The value with the bits that are undefined."""
        return self.value, self.must

    @property
    def upper(self) -> Partial:
        """The value with the bits that may count as undefined."""
        return self.value, self.may

    def moved(self, function: Callable[[int], int]) -> "Known":
        """Each bit goes to other places, as by a shift. Where no undefined bit is left, it has no
        origin."""
        must, may = function(self.must), function(self.may)
        return Known(function(self.value), must, may, self.origins if must | may else NOWHERE)

    def inverted(self, bits: int) -> "Known":
        """All bits inverted."""
        return Known(~self.value & numbers.mask_of(bits), self.must, self.may, self.origins)

    def low(self, bits: int) -> "Known":
        """The lowest bits."""
        return self.masked(numbers.mask_of(bits))

    def masked(self, mask: int) -> "Known":
        """Some of the bits."""
        return self.moved(lambda it: it & mask)


def combined(value: int, must: int, may: int, *operands: Known) -> Known:
    """A result with the origins of its operands."""
    if not may and not must:
        return Known(value)
    origins = frozenset(it for operand in operands for it in operand.origins)
    return Known(value, must, may | must, origins)


def total(x: Known, y: Known, carry: Known, bits: int) -> Known:
    """A sum."""
    value, _ = numbers.add_with_carry(x.value, y.value, carry.value, bits)
    return combined(value, numbers.in_sum(x.lower, y.lower, carry.lower, bits),
                    numbers.in_sum(x.upper, y.upper, carry.upper, bits), x, y, carry)


def conjunction(x: Known, y: Known) -> Known:
    """AND: of each operand those bits count that a 0 of the other one does not decide."""
    return combined(x.value & y.value, numbers.in_and(x.lower, y.lower),
                    numbers.in_and(x.upper, y.upper), x.masked(y.value | y.may),
                    y.masked(x.value | x.may))


def disjunction(x: Known, y: Known) -> Known:
    """ORR: of each operand those bits count that a 1 of the other one does not decide."""
    return combined(x.value | y.value, numbers.in_or(x.lower, y.lower),
                    numbers.in_or(x.upper, y.upper), x.masked(~y.value | y.may),
                    y.masked(~x.value | x.may))


def difference(x: Known, y: Known) -> Known:
    """EOR."""
    return combined(x.value ^ y.value, x.must | y.must, x.may | y.may, x, y)


def choice(x: Known, y: Known, is_first: bool) -> Known:
    """One of two by a condition that is not defined."""
    differ = x.value ^ y.value
    return combined((x if is_first else y).value, differ | x.must | y.must,
                    differ | x.may | y.may, x, y)


def tried(may: int, function: Callable[..., int], *operands: Known) -> Known:
    """A result whose undefined bits are found by assignments of those of the operands."""
    results = numbers.tried([it.lower for it in operands], function)
    return combined(results[0], numbers.differing(results), may, *operands)


def any_of(*operands: Known) -> int:
    """All bits that may be undefined in one of the operands."""
    found = 0
    for it in operands:
        found |= it.may
    return found
