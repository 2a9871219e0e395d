"""The registers of a core."""
from __future__ import annotations

import ctypes
import operator
from collections.abc import Iterable, Iterator, MutableSequence
from typing import Any, SupportsIndex, overload

from .abi import _Regs
from .ranges import all_in_bits, in_bits

COUNT = 31
# By name, how many bits it has: what is beside x0 to x30.
_WIDTHS = {"sp": 64, "pc": 64, "nzcv": 32, "rgsr_seed": 16, "rgsr_tag": 16}
_FLAGS = {"n": 31, "z": 30, "c": 29, "v": 28}


class _Whole:
    """A register of 64 bits by its number: x0 to x30, of which x29 is fp and x30 is lr."""

    def __init__(self, number: int) -> None:
        self._number = number

    def __set_name__(self, owner: type, name: str) -> None:
        self._name = name

    def __get__(self, regs: Regs, owner: type) -> int:
        value: int = regs._held.x[self._number]
        return value

    def __set__(self, regs: Regs, value: int) -> None:
        regs._held.x[self._number] = in_bits(self._name, value, 64)


class _Low(_Whole):
    """Its low half: w0 to w30. What is set makes the high half 0, as an instruction does."""

    def __get__(self, regs: Regs, owner: type) -> int:
        value: int = regs._held.x[self._number]
        return value & 0xFFFFFFFF

    def __set__(self, regs: Regs, value: int) -> None:
        regs._held.x[self._number] = in_bits(self._name, value, 32)


class _Field:
    """A register by the name of its field: sp, pc, nzcv, and the two fields of RGSR_EL1."""

    def __set_name__(self, owner: type, name: str) -> None:
        self._name = name

    def __get__(self, regs: Regs, owner: type) -> int:
        value: int = getattr(regs._held, self._name)
        return value

    def __set__(self, regs: Regs, value: int) -> None:
        setattr(regs._held, self._name, in_bits(self._name, value, _WIDTHS[self._name]))


class _Flag:
    """A flag: bit 31, 30, 29 or 28 of nzcv."""

    def __set_name__(self, owner: type, name: str) -> None:
        self._name, self._bit = name, _FLAGS[name]

    def __get__(self, regs: Regs, owner: type) -> bool:
        return bool(regs._held.nzcv >> self._bit & 1)

    def __set__(self, regs: Regs, value: bool) -> None:
        rest = regs._held.nzcv & ~(1 << self._bit)
        regs._held.nzcv = rest | in_bits(self._name, value, 1) << self._bit


class Numbered(MutableSequence[int]):
    """x0 to x30 by their numbers, each 0 to 2^64 - 1."""

    def __init__(self, held: _Regs) -> None:
        self._held = held

    def __len__(self) -> int:
        return COUNT

    @overload
    def __getitem__(self, at: int) -> int: ...

    @overload
    def __getitem__(self, at: slice) -> list[int]: ...

    def __getitem__(self, at: int | slice) -> int | list[int]:
        if isinstance(at, slice):
            return list(self._held.x)[at]
        value: int = self._held.x[self._of(at)]
        return value

    @overload
    def __setitem__(self, at: int, value: int) -> None: ...

    @overload
    def __setitem__(self, at: slice, value: Iterable[int]) -> None: ...

    def __setitem__(self, at: int | slice, value: int | Iterable[int]) -> None:
        if isinstance(at, slice):
            numbers, values = range(COUNT)[at], list(value if isinstance(value, Iterable) else ())
            if len(numbers) != len(values):
                raise ValueError(f"{len(values)} numbers for {len(numbers)} registers")
            checked = [in_bits(f"x{it}", number, 64) for it, number in zip(numbers, values)]
            for it, number in zip(numbers, checked):
                self._held.x[it] = number
        else:
            number = self._of(at)
            self._held.x[number] = in_bits(f"x{number}", value, 64)  # type: ignore[arg-type]

    def __delitem__(self, at: int | slice) -> None:
        raise TypeError("a core has 31 registers")

    def insert(self, index: int, value: int) -> None:
        """There are 31 registers, and no more."""
        raise TypeError("a core has 31 registers")

    def __iter__(self) -> Iterator[int]:
        return iter(list(self._held.x))

    def __eq__(self, other: object) -> bool:
        return isinstance(other, Iterable) and list(self) == list(other)

    def __repr__(self) -> str:
        return f"[{', '.join(f'{it:#x}' for it in self)}]"

    @staticmethod
    def _of(at: SupportsIndex) -> int:
        number = operator.index(at)
        if not -COUNT <= number < COUNT:
            raise IndexError(f"there is no register x{number}: they are x0 to x30")
        return number % COUNT


class Regs:
    """The registers of a core: x0 to x30 (x29 is also fp, x30 lr), their low halves w0 to w30, sp,
    pc, nzcv with the flags n, z, c and v in its bits 31 to 28, and the two fields of RGSR_EL1.

    >>> regs = Regs(pc=0x10000, x0=41, lr=0x10040)
    >>> regs.x0 += 1
    >>> regs.x0, regs.x[0], regs.w30, regs.z
    (42, 42, 65600, False)
    >>> regs
    Regs(x0=0x2a, x30=0x10040, pc=0x10000)

    What is set to w0 makes the high half of x0 zero. A number that does not fit is refused:

    >>> regs.x1 = 0x5555555566666666
    >>> regs.w1 = 7
    >>> hex(regs.x1)
    '0x7'
    >>> regs.w1 = 1 << 32
    Traceback (most recent call last):
        ...
    ValueError: w1 is 0x100000000, and not 0 to 0xffffffff
    >>> regs.x31
    Traceback (most recent call last):
        ...
    AttributeError: 'Regs' object has no attribute 'x31'

    `copy` and `restore` are what a context is in other emulators:

    >>> saved = regs.copy()
    >>> regs.x0 = 0
    >>> regs == saved
    False
    >>> regs.restore(saved)
    >>> regs.x0
    42
    """

    __slots__ = ("_held",)

    x0, x1, x2, x3 = _Whole(0), _Whole(1), _Whole(2), _Whole(3)
    x4, x5, x6, x7 = _Whole(4), _Whole(5), _Whole(6), _Whole(7)
    x8, x9, x10, x11 = _Whole(8), _Whole(9), _Whole(10), _Whole(11)
    x12, x13, x14, x15 = _Whole(12), _Whole(13), _Whole(14), _Whole(15)
    x16, x17, x18, x19 = _Whole(16), _Whole(17), _Whole(18), _Whole(19)
    x20, x21, x22, x23 = _Whole(20), _Whole(21), _Whole(22), _Whole(23)
    x24, x25, x26, x27 = _Whole(24), _Whole(25), _Whole(26), _Whole(27)
    x28, x29, x30, fp, lr = _Whole(28), _Whole(29), _Whole(30), _Whole(29), _Whole(30)
    w0, w1, w2, w3 = _Low(0), _Low(1), _Low(2), _Low(3)
    w4, w5, w6, w7 = _Low(4), _Low(5), _Low(6), _Low(7)
    w8, w9, w10, w11 = _Low(8), _Low(9), _Low(10), _Low(11)
    w12, w13, w14, w15 = _Low(12), _Low(13), _Low(14), _Low(15)
    w16, w17, w18, w19 = _Low(16), _Low(17), _Low(18), _Low(19)
    w20, w21, w22, w23 = _Low(20), _Low(21), _Low(22), _Low(23)
    w24, w25, w26, w27 = _Low(24), _Low(25), _Low(26), _Low(27)
    w28, w29, w30 = _Low(28), _Low(29), _Low(30)
    sp, pc, nzcv, rgsr_seed, rgsr_tag = _Field(), _Field(), _Field(), _Field(), _Field()
    n, z, c, v = _Flag(), _Flag(), _Flag(), _Flag()

    def __init__(
        self,
        x: Iterable[int] = (),
        sp: int = 0,
        pc: int = 0,
        nzcv: int = 0,
        rgsr_seed: int = 0,
        rgsr_tag: int = 0,
        **names: int,
    ) -> None:
        numbers = all_in_bits("x", x, 64)
        if len(numbers) > COUNT:
            raise ValueError(f"x has {len(numbers)} numbers, and not 0 to {COUNT}")
        self._held = _Regs()
        self._held.x[: len(numbers)] = numbers
        self.sp, self.pc, self.nzcv = sp, pc, nzcv
        self.rgsr_seed, self.rgsr_tag = rgsr_seed, rgsr_tag
        for name, number in names.items():
            if not hasattr(self, name) or callable(getattr(self, name)):
                raise TypeError(f"there is no register {name}")
            setattr(self, name, number)

    @property
    def x(self) -> Numbered:
        """x0 to x30 by their numbers."""
        return Numbered(self._held)

    @x.setter
    def x(self, values: Iterable[int]) -> None:
        self.x[:] = list(values)

    def copy(self) -> Regs:
        """A copy, which shares nothing."""
        other = Regs()
        other.restore(self)
        return other

    __copy__ = copy

    def __deepcopy__(self, memo: dict[int, Any]) -> Regs:
        return self.copy()

    def restore(self, saved: Regs) -> None:
        """Gives all registers the values that others have."""
        ctypes.memmove(ctypes.byref(self._held), ctypes.byref(saved._held), ctypes.sizeof(_Regs))

    def _fields(self) -> tuple[list[int], int, int, int, int, int]:
        it = self._held
        return list(it.x), it.sp, it.pc, it.nzcv, it.rgsr_seed, it.rgsr_tag

    def __reduce__(self) -> tuple[type[Regs], tuple[list[int], int, int, int, int, int]]:
        return Regs, self._fields()

    def __eq__(self, other: object) -> bool:
        return isinstance(other, Regs) and self._fields() == other._fields()

    __hash__ = None  # type: ignore[assignment]

    def __repr__(self) -> str:
        """Those that are not 0, and pc."""
        known = {f"x{at}": it for at, it in enumerate(self.x)}
        known |= {name: getattr(self, name) for name in _WIDTHS}
        told = [f"{name}={it:#x}" for name, it in known.items() if it or name == "pc"]
        return f"Regs({', '.join(told)})"
