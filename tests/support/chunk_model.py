"""A small model of a tenant's chunks, by the list of its heap calls alone: which were live, who
made and freed them, and what docs/REPORT.md says that an access or a pointer near them means."""

import re
from collections.abc import Iterable
from dataclasses import dataclass
from typing import Optional

PLAIN = (1 << 56) - 1
NULL_END, STACK_START, STACK_END, PAGE = 0x1000, 0x3FFFC000, 0x40000000, 4096
HEAP = range(0x11000000, 0x3F000000)
NEAR, FIRST_STEPS, KEPT = 65536, 100, 65536
HEAP_CALLS = ("malloc", "free", "calloc", "realloc", "memalign", "usable_size")


@dataclass(frozen=True)
class HeapCall:
    """A heap call that was answered."""

    number: int
    step: int
    text: str
    name: str
    arguments: tuple[int, ...]
    result: int

    @property
    def made(self) -> Optional[tuple[int, int]]:
        """The pointer and the size of the chunk that it returned."""
        sizes = {"malloc": 0, "realloc": 1, "memalign": 1}
        if self.name == "calloc" and self.result:
            return self.result, self.arguments[0] * self.arguments[1]
        if self.name in sizes and self.result:
            return self.result, self.arguments[sizes[self.name]]
        return None

    @property
    def freed(self) -> Optional[int]:
        """The plain address of the chunk that it freed, or gave another size."""
        if self.name == "free" or (
            self.name == "realloc" and (self.result or not self.arguments[1])
        ):
            return self.arguments[0] & PLAIN
        return None


@dataclass
class Chunk:
    """A chunk that was returned, and the calls that made and freed it."""

    pointer: int
    size: int
    made: HeapCall
    freed: Optional[HeapCall] = None

    @property
    def start(self) -> int:
        """Its first plain address."""
        return self.pointer & PLAIN

    @property
    def end(self) -> int:
        """The address behind its last byte; one of no bytes has one."""
        return self.start + max(self.size, 1)

    @property
    def granules_end(self) -> int:
        """The end of its last granule."""
        return (self.end + 15) // 16 * 16

    @property
    def tag(self) -> int:
        """The tag of its pointer."""
        return self.pointer >> 56 & 15

    def holds(self, address: int) -> bool:
        """Whether the address is one of its bytes."""
        return self.start <= address < self.end

    def distance(self, address: int) -> int:
        """How far the address is from it."""
        return max(self.start - address, address - self.end + 1, 0)

    def __str__(self) -> str:
        return f"{self.size}-byte allocation at {self.pointer:#018x}"


def read_call(number: int, step: int, text: str) -> Optional[HeapCall]:
    """The heap call of a line of --services, if it is one that was answered."""
    found = re.match(r"(\w+)\((.*)\) = (\S+)$", text)
    if not found or found[1] not in HEAP_CALLS:
        return None
    arguments = tuple(int(word, 0) for word in found[2].split(", "))
    return HeapCall(number, step, text.split(" = ")[0], found[1], arguments, int(found[3], 0))


class ChunkModel:
    """All chunks that the last heap calls made, the oldest first."""

    def __init__(self, services: Iterable[tuple[int, str]]) -> None:
        self.calls: list[HeapCall] = []
        self.chunks: list[Chunk] = []
        self.live: dict[int, Chunk] = {}
        for step, text in services:
            call = read_call(len(self.calls) + 1, step, text)
            if call:
                self.calls.append(call)
        self.is_short = len(self.calls) > KEPT
        for call in self.calls[-KEPT:]:
            self.enter(call)

    def take(self, step: int, text: str) -> bool:
        """Enters the service of a step; whether it was a heap call."""
        call = read_call(len(self.calls) + 1, step, text)
        if call:
            self.calls.append(call)
            self.enter(call)
        return call is not None

    def enter(self, call: HeapCall) -> None:
        """What a call does to chunks."""
        if call.freed is not None:
            gone = self.live.pop(call.freed, None)
            if gone:
                gone.freed = call
        if call.made:
            chunk = Chunk(*call.made, call)
            self.chunks.append(chunk)
            self.live[chunk.start] = chunk

    def newest(self, chunks: Iterable[Chunk]) -> Optional[Chunk]:
        """The newest of some chunks."""
        found = sorted(chunks, key=lambda chunk: chunk.made.number)
        return found[-1] if found else None

    def refused(self) -> Optional[HeapCall]:
        """The newest call that asked for a chunk and got none."""
        asking = [
            call for call in self.calls
            if call.name in ("malloc", "calloc", "memalign", "realloc") and not call.result
            and not (call.name == "realloc" and not call.arguments[1])
        ]
        return asking[-1] if asking else None

    def of_access(self, address: int, tag: int) -> tuple[str, Optional[Chunk], Optional[Chunk]]:
        """What an access by a pointer of a tag means, the chunk, and the one that has its block
        now; an empty text where no chunk explains it."""
        own = self.newest(it for it in self.chunks if it.holds(address) and it.tag == tag)
        if own and not own.freed:
            return f"the tags were changed of a {own}", own, None
        if own:
            return self.of_freed(own, address)
        near = sorted(
            (it for it in self.chunks if it.tag == tag),
            key=lambda chunk: (chunk.distance(address), -chunk.made.number),
        )
        if near and near[0].distance(address) <= NEAR:
            return "[MTE]: " + beside(near[0], address), near[0], None
        return "", None, None

    def of_freed(self, own: Chunk, address: int) -> tuple[str, Chunk, Optional[Chunk]]:
        """The same of a chunk that was freed."""
        newest = self.newest(it for it in self.chunks if it.holds(address))
        young = newest if newest and not newest.freed else None
        name = "Use After Free" + (" by a stale pointer" if young else "")
        offset = bytes_of(address - own.start)
        return f"[MTE]: {name}, {offset} into a {own}", own, young

    def of_fault(
        self, address: int, tag: int, step: int, is_write: bool,
    ) -> tuple[str, Optional[Chunk], Optional[Chunk]]:
        """The cause of an access that met no page or another tag."""
        if address < NULL_END:
            return "Null Pointer", None, None
        found = self.of_access(address, tag)
        if found[0]:
            return found
        stack = of_stack(address, step, is_write)
        if stack:
            return stack, None, None
        other = self.newest(it for it in self.chunks if it.holds(address))
        if other:
            return f"[MTE]: a pointer of another tag into a {other}", other, None
        return "unknown", None, None

    def of_pointer(self, pointer: int, is_free: bool) -> tuple[str, Optional[Chunk], None]:
        """The cause of a pointer that the heap refused."""
        start = pointer & PLAIN
        chunk = self.newest(it for it in self.chunks if it.start == start)
        if chunk and not chunk.freed:
            text = f"Corrupt Header: something was written in front of a {chunk}"
            return text, chunk, None
        if chunk:
            return f"{'Double Free' if is_free else 'Use After Free'} of a {chunk}", chunk, None
        inside = self.newest(it for it in self.chunks if it.start <= start < it.granules_end)
        if inside:
            offset = bytes_of(start - inside.start)
            return f"Invalid Pointer, {offset} into a {inside}", inside, None
        return "Invalid Pointer, which no heap call returned", None, None

    def trespass(self, address: int) -> Optional[str]:
        """What is wrong with an access to a byte, by the bytes of chunks alone."""
        if address not in HEAP or any(it.holds(address) for it in self.live.values()):
            return None
        around = self.newest(
            it for it in self.chunks if it.start <= address < it.granules_end
        )
        if around is None or not self.has_block(around):
            return "is of no chunk"
        return "is of a chunk that was freed" if around.freed else "is past the size of its chunk"

    def has_block(self, chunk: Chunk) -> bool:
        """Whether no newer chunk begins within 16 bytes of its start, so that its block is its."""
        return not any(
            it.start == chunk.start and it.made.number > chunk.made.number for it in self.chunks
        )


def beside(chunk: Chunk, address: int) -> str:
    """An access beside a chunk."""
    if address < chunk.start:
        return f"Buffer Underflow, {bytes_of(chunk.start - address)} left of a {chunk}"
    return f"Buffer Overflow, {bytes_of(address - chunk.end)} right of a {chunk}"


def of_stack(address: int, step: int, is_write: bool) -> str:
    """An access below the stack, on it or above it."""
    if STACK_START - NEAR <= address < STACK_START:
        return f"Stack Overflow, {bytes_of(STACK_START - address)} below the stack"
    if STACK_START <= address < STACK_END:
        return "[MTE]: Buffer Overflow of an object on the stack, or Use After Return"
    if STACK_END <= address < STACK_END + PAGE:
        if step <= FIRST_STEPS and not is_write:
            return ("an access above the stack, where a program for Linux finds its arguments: a "
                    "tenant has none (docs/TENANTS.md)")
        above = bytes_of(address - STACK_END)
        return f"Buffer Overflow of an object on the stack, {above} above the stack"
    return ""


def bytes_of(count: int) -> str:
    """A number of bytes."""
    return "1 byte" if count == 1 else f"{count} bytes"
