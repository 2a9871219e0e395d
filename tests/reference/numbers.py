"""Plain results of A64 operations, and which bits of a result depend on undefined bits.

A pair (value, undefined) is a number of which some bits were never given. A result's bit is
undefined where two assignments of these bits make it differ; operands are independent.
"""

import random
from collections.abc import Callable, Sequence

Partial = tuple[int, int]
ALL = (1 << 64) - 1


def mask_of(bits: int) -> int:
    """So many ones."""
    return (1 << bits) - 1


def signed(value: int, bits: int) -> int:
    """A number as one with a sign."""
    return value - (1 << bits) if value >> bits - 1 else value


def add_with_carry(x: int, y: int, carry: int, bits: int) -> tuple[int, int]:
    """The sum and the flags NZCV (Arm ARM DDI 0487, AddWithCarry)."""
    mask = mask_of(bits)
    whole = x + y + carry
    result = whole & mask
    total = signed(x, bits) + signed(y, bits) + carry
    flags = (result >> bits - 1) << 3 | (result == 0) << 2 | (whole > mask) << 1
    return result, flags | (signed(result, bits) != total)


def holds(condition: int, flags: int) -> bool:
    """Whether a condition holds (Arm ARM DDI 0487, ConditionHolds)."""
    n, z, c, v = flags >> 3 & 1, flags >> 2 & 1, flags >> 1 & 1, flags & 1
    base = [z, c, n, v, c & (1 - z), n == v, n == v and not z, True][condition >> 1]
    is_inverted = condition & 1 and condition != 15
    return bool(base) != bool(is_inverted)


def in_sum(x: Partial, y: Partial, carry: Partial, bits: int) -> int:
    """The undefined bits of a sum: its operands' own, and those that a carry reaches or not."""
    low = (x[0] & ~x[1]) + (y[0] & ~y[1]) + (carry[0] & ~carry[1])
    high = (x[0] | x[1]) + (y[0] | y[1]) + (carry[0] | carry[1])
    return (x[1] | y[1] | low ^ high) & mask_of(bits)


def in_and(x: Partial, y: Partial) -> int:
    """Those of AND: a defined 0 decides."""
    return (x[1] | y[1]) & (x[0] | x[1]) & (y[0] | y[1])


def in_or(x: Partial, y: Partial) -> int:
    """Those of ORR: a defined 1 decides."""
    return (x[1] | y[1]) & (~x[0] | x[1]) & (~y[0] | y[1])


def in_zeros(x: Partial, bits: int) -> int:
    """Those of a count of leading zeros: in which of the possible counts differ."""
    counts: list[int] = []
    for count in range(bits):
        bit = 1 << bits - 1 - count
        if (x[0] | x[1]) & bit:
            counts.append(count)
        if x[0] & ~x[1] & bit:
            break
    else:
        counts.append(bits)
    return differing(counts)


def differing(values: Sequence[int]) -> int:
    """The bits in which numbers differ."""
    found = 0
    for value in values:
        found |= value ^ values[0]
    return found


def is_equal_open(x: Partial, y: Partial) -> bool:
    """Whether defined bits leave open if two numbers are equal."""
    return bool(x[1] | y[1]) and not (x[0] ^ y[0]) & ~(x[1] | y[1])


def upward(undefined: int, bits: int) -> int:
    """All bits from the lowest undefined one on."""
    return mask_of(bits) & ~((undefined & -undefined) - 1) if undefined else 0


def bounds(x: Partial, bits: int, has_sign: bool) -> tuple[int, int]:
    """The least and the largest number that it can be."""
    value, undefined = x
    if not has_sign:
        return value & ~undefined, value | undefined
    top = 1 << bits - 1
    least = (value & ~undefined) | undefined & top
    largest = (value | undefined) & ~(undefined & top)
    return signed(least, bits), signed(largest, bits)


# The most assignments of undefined bits that are tried.
ASSIGNMENTS = 48


def assignments(operands: Sequence[Partial], seed: int) -> list[tuple[int, ...]]:
    """Operands with some values of their undefined bits: as they are, all 0, all 1, the first as
    the second and as its negation, and drawn ones."""
    made = [tuple(value for value, _ in operands),
            tuple(value & ~undefined for value, undefined in operands),
            tuple(value | undefined for value, undefined in operands)]
    if len(operands) > 1:
        (x, ux), (y, uy) = operands[:2]
        for other in (y, -y & ALL, ~y & ALL):
            same = x & ~ux | other & ux
            for last in (y, y & ~uy | same & uy, y & ~uy | ~same & uy):
                made.append((same, last, *(value for value, _ in operands[2:])))
    source = random.Random(seed)
    while len(made) < ASSIGNMENTS:
        made.append(tuple(value & ~undefined | source.getrandbits(64) & undefined
                          for value, undefined in operands))
    return made


def tried(operands: Sequence[Partial], result: Callable[..., int]) -> list[int]:
    """The results of some assignments, the actual one first."""
    if not any(undefined for _, undefined in operands):
        return [result(*(value for value, _ in operands))]
    return [result(*them) for them in assignments(operands, 1)]
