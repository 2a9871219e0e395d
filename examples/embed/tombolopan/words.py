"""Words that results have: texts that are members of an enum, each with the library's number."""
from __future__ import annotations

from enum import Enum
from typing import TypeVar

W = TypeVar("W", bound="Word")


class Word(str, Enum):
    """A text of a result. It equals the text, and `number` is what the library answers."""

    number: int

    def __new__(cls: type[W], number: int, text: str) -> W:
        it = str.__new__(cls, text)
        it._value_, it.number = text, number
        return it

    @classmethod
    def of(cls: type[W], number: int) -> W:
        """The member of a number; ValueError where it has none."""
        for it in cls:
            if it.number == number:
                return it
        raise ValueError(f"{number} is no {cls.__name__}")

    def __str__(self) -> str:
        return str.__str__(self)

    def __format__(self, form: str) -> str:
        return str.__format__(self, form)

    def __repr__(self) -> str:
        return f"{type(self).__name__}.{self.name}"

    def __reduce_ex__(self, protocol: object) -> tuple[type[W], tuple[int]]:
        return type(self).of, (self.number,)  # type: ignore[return-value]
