"""Which bits of the memory were never given, byte by byte, and where those of a word are from."""

from collections.abc import Iterable

from tests.reference.known import NOWHERE, Known, Origins


class BitMemory:
    """Bytes that are not kept are defined."""

    def __init__(self) -> None:
        self.must: dict[int, int] = {}
        self.may: dict[int, int] = {}
        # One origin a word, by its number: that of the later store of undefined bits.
        self.origins: dict[int, Origins] = {}

    def undefine(self, places: Iterable[int], origins: Origins) -> None:
        """No bit of these bytes is given."""
        for at in places:
            self.must[at] = self.may[at] = 255
            self.origins[at // 8] = origins

    def define(self, places: Iterable[int]) -> None:
        """All bits of these bytes are given."""
        for at in places:
            self.must.pop(at, None)
            self.may.pop(at, None)

    def store(self, start: int, size: int, known: Known) -> None:
        """The bytes of a register."""
        for at in range(size):
            place = start + at
            self.must[place] = known.must >> 8 * at & 255
            self.may[place] = known.may >> 8 * at & 255
            if self.must[place]:
                self.origins[place // 8] = known.origins
            elif self.may[place]:
                self.origins[place // 8] = known.origins | self.origins.get(place // 8, NOWHERE)

    def load(self, start: int, size: int, value: int) -> Known:
        """Some bytes as a number, whose value is given."""
        must = may = 0
        origins = NOWHERE
        for at in range(size):
            must |= self.must.get(start + at, 0) << 8 * at
            may |= self.may.get(start + at, 0) << 8 * at
            if self.may.get(start + at, 0):
                origins |= self.origins.get((start + at) // 8, NOWHERE)
        return Known(value, must, may, origins)

    def copy(self, source: int, target: int, size: int, more: Origins) -> None:
        """What a `realloc` moves."""
        for at in range(size):
            self.must[target + at] = self.must.get(source + at, 0)
            self.may[target + at] = self.may.get(source + at, 0)
            if self.may[target + at]:
                old = self.origins.get((source + at) // 8, NOWHERE)
                self.origins[(target + at) // 8] = old | more
