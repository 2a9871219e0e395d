"""Pointers by the rules of docs/CHECKING.md, along the instructions of a run.

A load, a store or a service that uses a pointer outside its own chunk, or after the chunk was
freed, is a finding.
"""

from collections import Counter
from collections.abc import Callable, Iterable, Iterator
from dataclasses import dataclass
from typing import Optional

from tests.reference import accesses, origins
from tests.reference.accesses import Access
from tests.reference.decode import SP, Instruction, logical_mask
from tests.reference.moments import ALL, PLAIN, Moment, Service
from tests.reference.numbers import holds
from tests.reference.origins import LOST, NUMBER, UNSAID, Origin, Sum, WordMemory

WRITE, READ, MALLOC, FREE, CALLOC, REALLOC, MEMALIGN, USABLE_SIZE = range(1, 9)
STACK = range(0x3FFFC000, 0x40000000)
HEAP = range(0x10000000, 0x3F000000)


@dataclass
class Chunk:
    """A chunk by the heap call that made it, with those that gave it another size in its place;
    `freed` is the call that freed it."""

    number: int
    pointer: int
    size: int
    freed: Optional[int] = None
    resized: tuple[int, ...] = ()

    @property
    def start(self) -> int:
        """Its address without the tag."""
        return self.pointer & PLAIN

    @property
    def end(self) -> int:
        """The first byte after it."""
        return self.start + self.size


@dataclass(frozen=True)
class Finding:
    """A wrong use: the step, its name (None where the page leaves open if it is one), the first
    wrong byte and the chunk."""

    step: int
    name: Optional[str]
    address: int
    chunk: Optional[Chunk]

    @property
    def origins(self) -> frozenset[tuple[str, int]]:
        """The heap calls that the chunk is told with."""
        if self.chunk is None:
            return frozenset()
        return frozenset(("chunk", it) for it in (self.chunk.number, *self.chunk.resized))


class Provenance:
    """The origins of the registers (31 is SP) and of the memory."""

    def __init__(self) -> None:
        self.registers: list[Origin] = [NUMBER] * 32
        self.memory = WordMemory()
        self.chunks: dict[int, Chunk] = {}
        self.calls = 0
        self.rules: Counter[str] = Counter()

    def read(self, register: int) -> Origin:
        """A register; 31 is zero."""
        return NUMBER if register == SP else self.registers[register]

    def live(self, address: int) -> Optional[Chunk]:
        """The live chunk that has a byte."""
        return next((it for it in self.chunks.values()
                     if it.freed is None and it.start <= address < it.end), None)

    # ---- judgement

    def judge(self, moment: Moment, origin: Origin, start: int, size: int,
              is_word_read: bool) -> Optional[Finding]:
        """An access to some bytes by a pointer."""
        first = start & PLAIN
        number = moment.step.number
        chunk = origin.chunk if isinstance(origin, Sum) else None
        if size == 0 or (chunk is None and first not in HEAP):
            return None
        if chunk is None:
            self.rules["an access that is judged by its address"] += 1
            is_fine = all(self.live(first + at) for at in (0, size - 1))
            return None if is_fine else Finding(number, None, first, None)
        return self.judge_chunk(number, self.chunks[chunk], range(first, first + size),
                                is_word_read)

    def judge_chunk(self, step: int, chunk: Chunk, places: range,
                    is_word_read: bool) -> Optional[Finding]:
        """An access by a pointer into a known chunk."""
        if chunk.freed is not None:
            self.rules["after free"] += 1
            return Finding(step, "AfterFree", places.start, chunk)
        if places.start < chunk.start:
            self.rules["underflow"] += 1
            return Finding(step, "Underflow", places.start, chunk)
        if places.stop <= chunk.end:
            self.rules["an access in its chunk"] += 1
            return None
        size = len(places)
        if is_word_read and size in (2, 4, 8) and places.start % size == 0 \
                and places.start < chunk.end:
            self.rules["a read of an aligned word over the end"] += 1
            return None
        self.rules["overflow" if places.start >= chunk.end else "an access over the end"] += 1
        return Finding(step, "Overflow", max(places.start, chunk.end), chunk)

    def findings(self, moment: Moment) -> Iterator[Finding]:
        """What is wrong with an instruction, before it changes anything."""
        it, step = moment.instruction, moment.step
        access, done = accesses.access_of(it), step.loaded or step.stored
        if access and done and access.base is not None and access.base != SP:
            origin = self.address(moment, it, access)
            for at in range(len(access.registers)):
                found = self.judge(moment, origin, done.address + at * access.size, access.size,
                                   access.is_load)
                if found:
                    yield found
        elif (places := accesses.cleared(moment)) and not accesses.is_by_stack(it):
            found = self.judge(moment, self.registers[it["rn"]], places.start, len(places), False)
            if found:
                yield found
        elif moment.service and moment.service.number in (WRITE, READ):
            found = self.judge(moment, self.registers[0], moment.service.x0,
                               moment.service.result or 0, False)
            if found:
                yield found

    def address(self, moment: Moment, it: Instruction, access: Access) -> Origin:
        """The origin of an address: of a base and an index."""
        assert access.base is not None
        base = self.registers[access.base]
        if access.index is None:
            return base
        index = self.read(access.index)
        if not origins.is_number(index) and (it["option"] in (2, 6) or it["s"]):
            return UNSAID
        return origins.added(base, index)

    # ---- what an instruction changes

    def follow(self, moment: Moment) -> list[Finding]:
        """The findings of an instruction; where its results are from is kept."""
        found = list(self.findings(moment))
        it, step = moment.instruction, moment.step
        access = accesses.access_of(it)
        if access and (step.loaded or step.stored):
            self.access(moment, it, access)
        elif it.row == "st_g":
            places = accesses.cleared(moment)
            if places:
                self.memory.forget(places.start, len(places))
        elif moment.service and moment.service.result is not None:
            self.serve(moment.service, moment.service.result)
        else:
            self.compute(moment, it)
        return found

    def access(self, moment: Moment, it: Instruction, access: Access) -> None:
        """Registers that are loaded or stored."""
        step = moment.step
        if step.stored:
            start = step.stored.address & PLAIN
            for at, register in enumerate(access.registers):
                self.memory.store(start + at * access.size, access.size, self.read(register))
        if step.loaded:
            start = step.loaded.address & PLAIN
            loaded = [self.loaded(start + at * access.size, access, value)
                      for at, value in enumerate(step.loaded.values)]
            for register, origin in zip(access.registers, loaded):
                if register != SP:
                    self.registers[register] = origin

    def loaded(self, start: int, access: Access, value: int) -> Origin:
        """A word with the address and the tag of a live chunk is a pointer into it again."""
        origin = self.memory.load(start, access.size)
        if not isinstance(origin, Sum) or origin.is_number:
            chunk = self.live(value & PLAIN) if access.size == 8 else None
            if chunk and start % 8 == 0 and chunk.pointer == value and origin != UNSAID:
                self.rules["a pointer again by its value"] += 1
                return origins.pointer(chunk.number)
            if chunk and value >> 56 == chunk.pointer >> 56:
                return UNSAID
        elif access.size == 8:
            self.rules["a pointer that is loaded"] += 1
        return origin

    def serve(self, service: Service, result: int) -> None:
        """Heap calls make and free chunks."""
        if service.number == READ:
            self.memory.forget(service.x0 & PLAIN, result)
        self.registers[0] = NUMBER
        if not MALLOC <= service.number <= USABLE_SIZE:
            return
        self.calls += 1
        old = self.live(service.x0 & PLAIN)
        if service.number == FREE and old:
            old.freed = self.calls
        elif service.number == REALLOC and old and result:
            self.resize(old, result, service.x1)
        elif service.number in (MALLOC, CALLOC, MEMALIGN) and result:
            size = {MALLOC: service.x0, CALLOC: service.x0 * service.x1}
            self.make(result, size.get(service.number, service.x1) or 1,
                      service.number == CALLOC)

    def make(self, result: int, size: int, is_cleared: bool = False) -> None:
        """A new chunk, whose bytes are 0 or what was there before."""
        chunk = Chunk(self.calls, result, size)
        self.chunks[self.calls] = chunk
        if is_cleared:
            self.memory.forget(chunk.start, size)
        else:
            self.memory.unsay(chunk.start, size)
        self.registers[0] = origins.pointer(self.calls)

    def resize(self, old: Chunk, result: int, size: int) -> None:
        """Where a chunk stays in its place, older pointers are pointers to it as it is now."""
        if old.start == result & PLAIN:
            self.rules["a realloc in its place"] += 1
            self.memory.unsay(old.end, max(size - old.size, 0))
            old.size, old.pointer, old.resized = size, result, (*old.resized, self.calls)
            self.registers[0] = origins.pointer(old.number)
            return
        self.rules["a realloc that moves"] += 1
        old.freed = self.calls
        kept = min(old.size, size)
        moved = WordMemory()
        moved.bytes = dict(self.memory.bytes)
        self.make(result, size)
        moved.copy(old.start, result & PLAIN, kept)
        self.memory = moved

    def compute(self, moment: Moment, it: Instruction) -> None:
        """The result of data processing."""
        rule = RULES.get(it.row)
        target = it.fields.get("rd")
        if target is None or (target == SP and it.row not in ("add_sub_imm", "add_sub_ext")):
            return
        read = [self.registers[it[name]] for name in ("rn", "rm", "ra")
                if it.fields.get(name, SP) != SP]
        if it.row == "bitfield" or (it.row == "move_wide" and it["opc"] == 3):
            read.append(self.registers[target])
        if all(origins.is_number(origin) for origin in read):
            found: Origin = NUMBER
        else:
            found = rule(self, moment, it) if rule else UNSAID
            self.rules[f"{it.row}: {type(found).__name__}"] += 1
            is_pointer = isinstance(found, Sum) and found.chunk is not None
            if moment.after[target] < 4096 and is_pointer:
                found = NUMBER
        self.registers[target] = found


# ---- the rules of rows with a pointer among their operands


def is_move(it: Instruction) -> bool:
    """Whether it is MOV of a whole register."""
    return it.bits == 64 and it["opc"] == 1 and it["rn"] == SP and it["imm6"] == 0 and not it["n"]


def sums(state: Provenance, moment: Moment, it: Instruction) -> Origin:
    """ADD and SUB, with a constant or a register that is not shifted."""
    if it.bits != 64:
        return UNSAID
    if it.row == "add_sub_imm":
        return state.registers[it["rn"]]
    y = state.read(it["rm"])
    is_plain = it["imm6"] == 0 if it.row == "add_sub_shift" else (
        it["option"] in (3, 7) and it["imm3"] == 0)
    if not is_plain and not origins.is_number(y):
        return UNSAID
    x = state.read(it["rn"]) if it.row == "add_sub_shift" else state.registers[it["rn"]]
    return origins.added(x, y, -1 if it["op"] else 1)


def masks(state: Provenance, moment: Moment, it: Instruction) -> Origin:
    """Masks that clear low bits or the tag, or set low bits; and moves."""
    if it.row == "log_shift":
        if is_move(it):
            return state.read(it["rm"])
        x, y = state.read(it["rn"]), state.read(it["rm"])
        if it.bits != 64 or it["imm6"] or not origins.is_number(y):
            return UNSAID
        mask = moment.value(it["rm"]) ^ (ALL if it["n"] else 0)
    else:
        x, mask = state.read(it["rn"]), logical_mask(it["n"], it["immr"], it["imms"], it.bits)
        if it.bits != 64:
            return UNSAID
    clears = it["opc"] in (0, 3) and mask | 0xFF << 56 | 0xFFF == ALL
    return x if clears or (it["opc"] == 1 and mask < 4096) else UNSAID


def selections(state: Provenance, moment: Moment, it: Instruction) -> Origin:
    """CSEL and CSINC."""
    is_first = holds(it["cond"], moment.flags)
    if it.bits != 64 or (it["op"] and not is_first):
        return UNSAID
    return state.read(it["rn"] if is_first else it["rm"])


def products(state: Provenance, moment: Moment, it: Instruction) -> Origin:
    """A product of a pointer loses its origin."""
    if origins.is_number(state.read(it["rn"])) and origins.is_number(state.read(it["rm"])):
        return UNSAID
    return LOST


def sums_with_tags(state: Provenance, moment: Moment, it: Instruction) -> Origin:
    """ADDG and SUBG."""
    return state.registers[it["rn"]]


Rule = Callable[[Provenance, Moment, Instruction], Origin]
RULES: dict[str, Rule] = {
    "add_sub_imm": sums, "add_sub_shift": sums, "add_sub_ext": sums, "log_imm": masks,
    "log_shift": masks, "cond_sel": selections, "mul_add": products, "add_g": sums_with_tags,
}


def first_findings(
    all_moments: Iterable[Moment],
) -> tuple[list[Finding], Optional[Finding], Provenance]:
    """What the page leaves open before the first certain finding, and that one."""
    state, possible = Provenance(), list[Finding]()
    for moment in all_moments:
        for finding in state.follow(moment):
            if finding.name is not None:
                return possible, finding, state
            possible.append(finding)
    return possible, None, state
