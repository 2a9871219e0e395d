"""The tags of one size class by other numbers than the heap's: how many bits a tag has, and whether
blocks have odd and even tags in turn. By the heap's own numbers the pointers are the heap's.
"""
from __future__ import annotations

from dataclasses import dataclass, field

START, BLOCK, GRANULE, ALLOCATION = 0x12000000, 64, 16, 48
TAG_SHIFT = 56


def tag_of(pointer: int) -> int:
    """The tag of a pointer."""
    return pointer >> TAG_SHIFT & 15


def address_of(pointer: int) -> int:
    """The address of a pointer, with tag 0."""
    return pointer & (1 << TAG_SHIFT) - 1


def with_tag(address: int, tag: int) -> int:
    """The pointer to an address with a tag."""
    return address_of(address) | tag << TAG_SHIFT


@dataclass(frozen=True)
class Numbers:
    """The bits of a tag, 2 to 4, and whether blocks have odd and even tags in turn."""

    bits: int = 4
    odd_and_even: bool = True

    def allowed(self, half: int, present: int) -> list[int]:
        """The tags that a draw may give in a block of half 0 (odd tags) or 1 (even ones): none is 0
        or the one that is present."""
        return [tag for tag in range(1, 1 << self.bits) if tag != present
                and (not self.odd_and_even or tag % 2 != half)]


def chosen(allowed: list[int], last: int, offset: int) -> int:
    """The tag that is an offset after the last one, in a circle: ChooseNonExcludedTag (Arm ARM DDI
    0487)."""
    if offset == 0:
        return allowed[sum(tag < last for tag in allowed) % len(allowed)]
    return allowed[(sum(tag <= last for tag in allowed) + offset - 1) % len(allowed)]


@dataclass
class Generator:
    """RGSR_EL1: its seed of 16 bits, and the tag that was drawn last."""

    seed: int
    last: int

    def draw(self, allowed: list[int], bits: int) -> int:
        """A tag, by as many bits of the generator."""
        offset = 0
        for at in range(bits):
            bit = (self.seed ^ self.seed >> 2 ^ self.seed >> 3 ^ self.seed >> 5) & 1
            self.seed = self.seed >> 1 | bit << 15
            offset |= bit << at
        self.last = chosen(allowed, self.last, offset)
        return self.last


@dataclass
class ModelHeap:
    """A heap of blocks of 64 bytes, each with its header, a chunk of up to 48 bytes, and nothing
    else: the block that was freed last is the next one, else the lowest that was never used."""

    numbers: Numbers
    generator: Generator
    free_blocks: list[int] = field(default_factory=list)
    used: int = 0
    tags: dict[int, int] = field(default_factory=dict)
    pointers: list[int] = field(default_factory=list)

    @classmethod
    def of(cls, numbers: Numbers, state: int) -> ModelHeap:
        """A new heap by the low 20 bits of a tenant's seed."""
        return cls(numbers, Generator(state & 0xFFFF, state >> 16 & (1 << numbers.bits) - 1))

    def paint(self, address: int, granules: int, tag: int) -> None:
        """Gives granules a tag."""
        for at in range(granules):
            self.tags[address + at * GRANULE] = tag

    def draw(self, address: int) -> int:
        """A tag for the chunk at an address."""
        half = (address - START) // BLOCK % 2
        allowed = self.numbers.allowed(half, self.tag_at(address))
        return self.generator.draw(allowed, self.numbers.bits)

    def malloc(self, size: int) -> int:
        """The pointer to a new chunk of 1 to 48 bytes."""
        assert 1 <= size <= ALLOCATION
        if not self.free_blocks:
            self.free_blocks.append(START + self.used * BLOCK)
            self.used += 1
        address = self.free_blocks.pop() + GRANULE
        tag = self.draw(address)
        self.paint(address, ALLOCATION // GRANULE, 0)
        self.paint(address, -(-size // GRANULE), tag)
        self.pointers.append(with_tag(address, tag))
        return self.pointers[-1]

    def free(self, pointer: int) -> None:
        """Frees the chunk that a pointer is to: its granules get another tag."""
        address = address_of(pointer)
        tag, old = self.draw(address), self.tag_at(address)
        granules = sum(self.tag_at(address + at * GRANULE) == old for at in range(3))
        self.paint(address, granules, tag)
        self.free_blocks.append(address - GRANULE)

    def tag_at(self, address: int) -> int:
        """The tag of the granule that holds an address."""
        return self.tags.get(address_of(address) // GRANULE * GRANULE, 0)

    def opens(self, pointer: int) -> bool:
        """Whether a checked access through a pointer completes, within a granule."""
        return self.tag_at(pointer) == tag_of(pointer)
