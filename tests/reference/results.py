"""The results of data processing: which of their bits depend on undefined bits."""

from collections.abc import Callable

from tests.reference import known, numbers
from tests.reference.conditions import Flags
from tests.reference.decode import Instruction, logical_mask, rotated, sign_extended
from tests.reference.known import Known
from tests.reference.numbers import ALL, mask_of, signed


def shifted(x: Known, kind: int, amount: int, bits: int) -> Known:
    """By LSL, LSR, ASR or ROR (0 to 3)."""
    def asr(value: int) -> int:
        return signed(value, bits) >> amount & mask_of(bits)

    functions: list[Callable[[int], int]] = [
        lambda it: it << amount & mask_of(bits), lambda it: it >> amount, asr,
        lambda it: rotated(it, amount, bits)]
    return x.moved(functions[kind])


def extended(x: Known, option: int, amount: int, bits: int) -> Known:
    """By UXTB to SXTX (0 to 7), and shifted left."""
    size = 8 << (option & 3)

    def extend(value: int) -> int:
        low = value & mask_of(size)
        return ((sign_extended(low, size) if option & 4 else low) << amount) & mask_of(bits)

    return x.moved(extend)


def field(it: Instruction, x: Known, old: Known) -> Known:
    """SBFM, BFM and UBFM."""
    bits, low, high = it.bits, it["immr"], it["imms"]
    width, at = (high - low + 1, 0) if high >= low else (high + 1, bits - low)

    def taken(value: int) -> int:
        part = (value >> (low if high >= low else 0)) & mask_of(width)
        if it["opc"] == 0:
            part = sign_extended(part, width)
        return part << at & mask_of(bits)

    found = x.moved(taken)
    if it["opc"] != 1:
        return found
    kept = ~(mask_of(width) << at) & mask_of(bits)
    rest = old.moved(lambda value: value & kept)
    return Known(found.value | rest.value, found.must | rest.must, found.may | rest.may,
                 found.origins | rest.origins)


def reversed_bytes(value: int, size: int, bits: int) -> int:
    """The bytes of each so many bytes reversed."""
    data = value.to_bytes(bits // 8, "little")
    parts = [data[at:at + size][::-1] for at in range(0, len(data), size)]
    return int.from_bytes(b"".join(parts), "little")


def leading(value: int, bits: int) -> int:
    """How many bits after the first are equal to it (CLS)."""
    top = value >> bits - 1
    count = 0
    while count < bits - 1 and value >> bits - 2 - count & 1 == top:
        count += 1
    return count


def by_one(it: Instruction, x: Known) -> Known:
    """RBIT, REV16, REV32, REV, CLZ, CLS."""
    bits, opcode = it.bits, it["opcode"]
    if opcode == 0:
        return x.moved(lambda value: int(format(value, f"0{bits}b")[::-1], 2))
    if opcode < 4:
        return x.moved(lambda value: reversed_bytes(value, 1 << opcode, bits))
    if opcode == 4:
        return known.combined(bits - x.value.bit_length(), numbers.in_zeros(x.lower, bits),
                              numbers.in_zeros(x.upper, bits), x)
    return known.tried(bits - 1 if x.may else 0, lambda value: leading(value, bits), x)


def quotient(x: int, y: int, bits: int, has_sign: bool) -> int:
    """UDIV and SDIV."""
    if y == 0:
        return 0
    if not has_sign:
        return x // y
    left, right = signed(x, bits), signed(y, bits)
    size = abs(left) // abs(right)
    return (-size if (left < 0) != (right < 0) else size) & mask_of(bits)


def by_two(it: Instruction, x: Known, y: Known) -> Known:
    """UDIV, SDIV, LSLV, LSRV, ASRV, RORV."""
    bits, opcode = it.bits, it["opcode"]
    may = mask_of(bits) if known.any_of(x, y) else 0
    if opcode < 4:
        return known.tried(may, lambda a, b: quotient(a, b, bits, opcode == 3), x, y)
    amount = y.moved(lambda value: value & (bits - 1))
    if not amount.may:
        return shifted(x, opcode - 8, amount.value, bits)
    return known.tried(mask_of(bits), lambda a, b: shifted(Known(a), opcode - 8, b, bits).value,
                       x, amount)


def factors(x: Known, y: Known) -> tuple[Known, Known]:
    """Two factors; the bits of one do not count where the other is a defined 0."""
    return (x if y.value | y.may else Known(x.value)), (y if x.value | x.may else Known(y.value))


def product(it: Instruction, x: Known, y: Known, addend: Known) -> Known:
    """MADD, MSUB, and those of 32-bit factors."""
    bits = it.bits
    x, y = factors(x, y)

    def result(a: int, b: int, c: int) -> int:
        return (c - a * b if it["o0"] else c + a * b) & mask_of(bits)

    may = numbers.upward(known.any_of(x, y, addend), bits)
    return known.tried(may, result, x, y, addend)


def high_half(it: Instruction, x: Known, y: Known) -> Known:
    """SMULH and UMULH."""
    x, y = factors(x, y)

    def result(a: int, b: int) -> int:
        if not it["u"]:
            a, b = signed(a, 64), signed(b, 64)
        return a * b >> 64 & ALL

    return known.tried(ALL if known.any_of(x, y) else 0, result, x, y)


def selected(it: Instruction, flags: Flags, x: Known, y: Known) -> Known:
    """CSEL, CSINC, CSINV, CSNEG."""
    bits, condition = it.bits, it["cond"]
    if it["op"]:
        y = y.inverted(bits)
    if it["o2"]:
        y = known.total(y, Known(1), Known(0), bits)
    is_first = numbers.holds(condition, flags.value)
    if flags.is_open(condition):
        found = known.choice(x, y, is_first)
    elif flags.may_be_open(condition):
        either, one = known.choice(x, y, is_first), x if is_first else y
        found = known.combined(one.value, one.must, either.may, x, y)
    else:
        return x if is_first else y
    return Known(found.value, found.must, found.may, found.origins | flags.origins)


def immediate(it: Instruction) -> Known:
    """The mask of a logical immediate."""
    return Known(logical_mask(it["n"], it["immr"], it["imms"], it.bits))
