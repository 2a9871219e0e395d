"""A model of the tenants' heap in Python: Scudo's size classes and headers, one stack of free
blocks a class, pages of their own by first fit, and tags as IRG chooses them (Arm ARM DDI 0487,
RandomTag and ChooseNonExcludedTag). It is written from Scudo's sources and the manual, not from
the code."""

from dataclasses import dataclass, field
from typing import Optional

PLAIN, PAGE, GRANULE = (1 << 56) - 1, 4096, 16
MOST = 1 << 20
REGIONS, REGION, LARGE = 0x10000000, 0x1000000, 0x3D001000
# Scudo's classes: 32 to 256 by 32, and then four in each power of two.
SIZES = [*range(32, 257, 32), *(power // 4 * it for power in (1 << at for at in range(8, 17))
                                for it in (5, 6, 7, 8))]
BY_MALLOC, BY_MEMALIGN = 0, 3
AVAILABLE, ALLOCATED, QUARANTINED = 0, 1, 2


def checksum(cookie: int, pointer: int, header: int) -> int:
    """Scudo's computeBSDChecksum over the untagged pointer and the header's low 48 bits."""
    total = cookie & 0xFFFF
    for word in (pointer & PLAIN, header & (1 << 48) - 1):
        for at in range(8):
            total = (total >> 1 | (total & 1) << 15) + (word >> 8 * at & 0xFF) & 0xFFFF
    return total


@dataclass(frozen=True)
class Header:
    """The fields of a chunk's header (chunk.h: class, state, origin, size, offset)."""

    class_id: int
    state: int
    origin: int
    size: int
    offset: int

    def packed(self, cookie: int, pointer: int) -> int:
        """The header as a word."""
        low = (self.class_id | self.state << 8 | self.origin << 10 | self.size << 12
               | self.offset << 32)
        return low | checksum(cookie, pointer, low) << 48


def class_of(need: int) -> Optional[int]:
    """The number of the least class that has so many bytes, from 1 on."""
    return next((at for at, size in enumerate(SIZES, 1) if need <= size), None)


def choose(tag: int, offset: int, exclude: int) -> int:
    """ChooseNonExcludedTag."""
    if exclude & 0xFFFF == 0xFFFF:
        return 0
    while offset == 0 and exclude >> tag & 1:
        tag = (tag + 1) % 16
    for _ in range(offset):
        tag = (tag + 1) % 16
        while exclude >> tag & 1:
            tag = (tag + 1) % 16
    return tag


@dataclass
class Generator:
    """RGSR_EL1."""

    seed: int
    tag: int = 0

    def draw(self, exclude: int) -> int:
        """The tag that IRG chooses: four bits of the seed's shift register are the offset."""
        offset = 0
        for bit in range(4):
            top = (self.seed >> 5 ^ self.seed >> 3 ^ self.seed >> 2 ^ self.seed) & 1
            self.seed = top << 15 | self.seed >> 1
            offset |= top << bit
        self.tag = choose(self.tag, offset, exclude)
        return self.tag


@dataclass
class Chunk:
    """A live chunk: its block or pages, its size and its tag."""

    start: int
    class_id: int
    size: int
    tag: int


@dataclass
class HeapModel:
    """A heap and its memory; calls answer as the library's do."""

    pages: int
    cookie: int = 0
    generator: Generator = field(default_factory=lambda: Generator(1))
    free_blocks: dict[int, list[int]] = field(default_factory=dict)
    carved: dict[int, int] = field(default_factory=dict)
    tags: dict[int, int] = field(default_factory=dict)
    mappings: list[tuple[int, int]] = field(default_factory=list)
    chunks: dict[int, Chunk] = field(default_factory=dict)
    headers: dict[int, int] = field(default_factory=dict)

    def left(self) -> int:
        """How many pages are not mapped yet."""
        return self.pages - sum(self.carved.values()) - sum(it for _, it in self.mappings)

    def malloc(self, size: int) -> int:
        """The pointer, or 0."""
        return self._take(size, GRANULE, BY_MALLOC)

    def memalign(self, alignment: int, size: int) -> int:
        """The pointer, or 0."""
        if not 0 < alignment <= PAGE or alignment & alignment - 1:
            return 0
        return self._take(size, max(alignment, GRANULE), BY_MEMALIGN)

    def _take(self, size: int, alignment: int, origin: int) -> int:
        if size > MOST:
            return 0
        size = max(size, 1)
        class_id = class_of(rounded(size) + alignment)
        if class_id is None:
            return self._map(size, alignment, origin)
        start = self._block(class_id)
        if start is None:
            return 0
        user = -(-(start + GRANULE) // alignment) * alignment
        region = REGIONS + class_id * REGION
        parity = 0xAAAA if (start - region) // SIZES[class_id - 1] % 2 else 0x5555
        tag = self.generator.draw(1 | parity | 1 << self.tags.get(user, 0))
        self._retag(user, size, tag)
        self.tags[user - GRANULE] = 0
        end = start + SIZES[class_id - 1]
        if user + rounded(size) < end:
            self.tags[user + rounded(size)] = 0
        self.chunks[user] = Chunk(start, class_id, size, tag)
        self._write(user, Header(class_id, ALLOCATED, origin, size,
                                 (user - GRANULE - start) // GRANULE))
        return user | tag << 56

    def _block(self, class_id: int) -> Optional[int]:
        free = self.free_blocks.setdefault(class_id, [])
        if not free:
            size, has = SIZES[class_id - 1], self.carved.get(class_id, 0)
            first = has * PAGE // size
            wanted = has - (-size // PAGE)
            if wanted - has > self.left() or wanted * PAGE > REGION:
                return None
            self.carved[class_id] = wanted
            start = REGIONS + class_id * REGION
            free += [start + at * size for at in reversed(range(first, wanted * PAGE // size))]
        return free.pop()

    def _map(self, size: int, alignment: int, origin: int) -> int:
        """First fit, with a page between two mappings; the chunk is at the end of its pages."""
        pages = -(-(rounded(size) + alignment) // PAGE)
        start = LARGE
        for taken, count in sorted(self.mappings):
            if start + (pages + 1) * PAGE <= taken:
                break
            start = taken + (count + 1) * PAGE
        if pages > self.left():
            return 0
        self.mappings.append((start, pages))
        user = (start + pages * PAGE - rounded(size)) // alignment * alignment
        self.chunks[user] = Chunk(start, 0, size, 0)
        unused = start + pages * PAGE - user - size
        self._write(user, Header(0, ALLOCATED, origin, unused, 0))
        return user

    def free(self, pointer: int) -> int:
        """Of a live chunk; the answer is 0."""
        user = pointer & PLAIN
        chunk = self.chunks.pop(user)
        if not chunk.class_id:
            self.mappings = [it for it in self.mappings if it[0] != chunk.start]
            self.headers.pop(user)
            return 0
        region = REGIONS + chunk.class_id * REGION
        parity = 0xAAAA if (chunk.start - region) // SIZES[chunk.class_id - 1] % 2 else 0x5555
        tag = self.generator.draw(1 | parity | 1 << chunk.tag)
        self._retag(user, chunk.size, tag)
        self.free_blocks[chunk.class_id].append(chunk.start)
        self.headers.pop(user)
        return 0

    def realloc(self, pointer: int, size: int) -> int:
        """Of a live chunk, to a size that is not 0: in place where the block has it."""
        user = pointer & PLAIN
        chunk = self.chunks[user]
        if size > MOST:
            return 0
        if not chunk.class_id or user + rounded(size) > chunk.start + SIZES[chunk.class_id - 1]:
            made = self.malloc(size)
            if made:
                self.free(pointer)
            return made
        for at in range(user, user + max(rounded(size), rounded(chunk.size)), GRANULE):
            self.tags[at] = chunk.tag if at < user + rounded(size) else 0
        end = user + rounded(size)
        if size > chunk.size and end < chunk.start + SIZES[chunk.class_id - 1]:
            self.tags[end] = 0
        chunk.size = size
        offset = (user - GRANULE - chunk.start) // GRANULE
        old = self.headers[user] >> 10 & 3
        self._write(user, Header(chunk.class_id, ALLOCATED, old, size, offset))
        return user | chunk.tag << 56

    def _retag(self, user: int, size: int, tag: int) -> None:
        for at in range(user, user + rounded(size), GRANULE):
            self.tags[at] = tag

    def _write(self, user: int, header: Header) -> None:
        self.headers[user] = header.packed(self.cookie, user)


def rounded(size: int) -> int:
    """Bytes in whole granules."""
    return -(-size // GRANULE) * GRANULE
