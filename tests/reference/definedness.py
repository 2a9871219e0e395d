"""Undefined values by the rules of docs/CHECKING.md, along the instructions of a run.

A use is reported where a branch, an address, a jump, output, an argument of a service or the exit
status depends on undefined bits.
"""

from collections.abc import Iterable, Iterator
from dataclasses import dataclass
from typing import Optional

from tests.reference import accesses, known
from tests.reference.accesses import Access
from tests.reference.bit_memory import BitMemory
from tests.reference.decode import SP, Instruction, sign_extended
from tests.reference.known import Known, Origins
from tests.reference.moments import ALL, PLAIN, STACK_END, Moment, Service
from tests.reference.numbers import is_equal_open, mask_of
from tests.reference.rules import RULES, TAG, Registers

STACK = range(STACK_END - 0x4000, STACK_END)
EXIT, WRITE, READ, MALLOC, FREE, CALLOC, REALLOC, MEMALIGN, USABLE_SIZE = range(9)
# How many arguments a service has.
ARGUMENTS = {WRITE: 2, READ: 2, MALLOC: 1, FREE: 1, CALLOC: 2, REALLOC: 2, MEMALIGN: 2,
             USABLE_SIZE: 1}


@dataclass(frozen=True)
class Use:
    """What depends on undefined bits, at which step: certainly, or as a checker may count it."""

    step: int
    name: str
    is_certain: bool
    origins: Origins
    address: int = 0


class Definedness(Registers):
    """The undefined bits of the registers, the flags and the memory."""

    def __init__(self) -> None:
        super().__init__()
        # The stack is undefined as soon as SP has moved over it.
        self.memory = BitMemory()
        self.sizes: dict[int, int] = {}
        self.makers: dict[int, Origins] = {}
        self.calls = 0

    # ---- uses

    def use(self, moment: Moment, name: str, it: Known, mask: int = ALL) -> Iterator[Use]:
        """A use of some bits of a value."""
        if it.may & mask:
            yield Use(moment.step.number, name, bool(it.must & mask), it.origins)

    def uses(self, moment: Moment) -> Iterator[Use]:
        """All uses of an instruction, before it."""
        it, number = moment.instruction, moment.step.number
        if it.row == "branch_cond":
            is_open = self.flags.is_open(it["cond"])
            if is_open or self.flags.may_be_open(it["cond"]):
                yield Use(number, "Branch", is_open, self.flags.origins)
        elif it.row == "cmp_branch":
            value = self.read(it["rt"], it.bits)
            if is_equal_open(value.upper, (0, 0)):
                yield Use(number, "Branch", is_equal_open(value.lower, (0, 0)), value.origins)
        elif it.row == "test_branch":
            yield from self.use(moment, "Branch", self.read(it["rt"]),
                                1 << (it["b5"] << 5 | it["b40"]))
        elif it.row == "branch_reg":
            yield from self.use(moment, "Jump", self.read(it["rn"]))
        elif it.row == "svc" and moment.service:
            yield from self.uses_of_service(moment, moment.service)
        else:
            yield from self.uses_of_access(moment, it)

    def uses_of_access(self, moment: Moment, it: Instruction) -> Iterator[Use]:
        """The base and the index."""
        access = accesses.access_of(it)
        if (access and access.base is not None) or it.row in accesses.TAGS:
            yield from self.use(moment, "Address", self.base(it["rn"]), PLAIN | TAG)
        if access and access.index is not None:
            yield from self.use(moment, "Address", self.read(access.index),
                                accesses.index_mask(it))

    def uses_of_service(self, moment: Moment, service: Service) -> Iterator[Use]:
        """Arguments, the exit status, and the bytes that are written out."""
        if service.number == EXIT:
            yield from self.use(moment, "ExitStatus", self.registers[0], 255)
        for register in range(ARGUMENTS.get(service.number, 0)):
            yield from self.use(moment, "Argument", self.registers[register])
        if service.number == WRITE and service.result is not None:
            for at in range(service.result):
                byte = self.memory.load((service.x0 & PLAIN) + at, 1, 0)
                if byte.may:
                    yield Use(moment.step.number, "Output", bool(byte.must), byte.origins,
                              (service.x0 & PLAIN) + at)
                    return

    # ---- what an instruction changes

    def follow(self, moment: Moment) -> list[Use]:
        """The uses of an instruction; what it makes undefined is kept."""
        found = list(self.uses(moment))
        it = moment.instruction
        access = accesses.access_of(it)
        if it.row in RULES:
            self.count(it)
            RULES[it.row](self, moment, it)
        elif access and (moment.step.loaded or moment.step.stored):
            self.access(moment, it, access)
        elif it.row == "st_g":
            self.store_tags(moment)
        elif it.row == "svc" and moment.service and moment.service.result is not None:
            self.serve(moment, moment.service, moment.service.result)
        if it.row not in ("svc", "st_g") and not access:
            self.move_stack(moment)
        return found

    def move_stack(self, moment: Moment) -> None:
        """The stack below SP is undefined, also after SP has moved there again."""
        old, new = moment.before[SP], moment.after[SP]
        if old != new:
            places = range(max(min(old, new), STACK.start), min(max(old, new), STACK.stop))
            self.memory.undefine(places, frozenset({("stack", moment.step.pc)}))

    def access(self, moment: Moment, it: Instruction, access: Access) -> None:
        """A load or a store, with the base that it moves."""
        step = moment.step
        read = [self.read(register) for register in access.registers]
        loaded: list[Known] = []
        if step.loaded:
            loaded = list(self.loaded(moment, access))
        is_first = access.write_back == "pre"
        if is_first:
            self.move_base(moment, it)
        if step.stored:
            start = step.stored.address & PLAIN
            for at, value in enumerate(read):
                self.rules["store"] += bool(value.must & mask_of(8 * access.size))
                self.memory.store(start + at * access.size, access.size, value)
        if access.write_back and not is_first:
            self.move_base(moment, it)
        for register, value in zip(access.registers, loaded):
            self.set(register, value)

    def loaded(self, moment: Moment, access: Access) -> Iterator[Known]:
        """What a load brings."""
        assert moment.step.loaded
        start = moment.step.loaded.address & PLAIN
        for at, value in enumerate(moment.step.loaded.values):
            found = self.memory.load(start + at * access.size, access.size,
                                     value & mask_of(8 * access.size))
            if access.extends:
                found = found.moved(lambda it: sign_extended(it, 8 * access.size)
                                    & mask_of(access.extends))
            self.rules["load with a sign" if access.extends else "load"] += bool(found.must)
            self.rules["load over two words"] += bool(found.must) and (
                (start + at * access.size) % 8 + access.size > 8)
            yield found

    def move_base(self, moment: Moment, it: Instruction) -> None:
        """The base that is moved by a constant."""
        old, new = self.base(it["rn"]), moment.after[it["rn"]]
        offset = Known((new - old.value) & ALL)
        self.registers[it["rn"]] = known.total(old, offset, Known(0), 64)
        self.move_stack(moment)

    def store_tags(self, moment: Moment) -> None:
        """STZG and STZ2G give bytes the value 0."""
        if accesses.moved_register(moment) is not None:
            self.move_base(moment, moment.instruction)
        self.memory.define(accesses.cleared(moment) or ())

    # ---- services

    def serve(self, moment: Moment, service: Service, result: int) -> None:
        """What a service writes is defined; a new chunk is not, but that of `calloc`."""
        x0, x1, start = service.x0 & PLAIN, service.x1, result & PLAIN
        self.registers[0] = Known(result)
        if service.number == READ:
            self.memory.define(range(x0, x0 + result))
        if not MALLOC <= service.number <= USABLE_SIZE:
            return
        self.calls += 1
        origins: Origins = frozenset({("chunk", self.calls)})
        if service.number == REALLOC and x0 in self.sizes and result:
            self.resize(x0, start, x1, origins)
        elif service.number in (MALLOC, CALLOC, MEMALIGN, REALLOC) and result:
            size = {MALLOC: service.x0, CALLOC: service.x0 * x1}.get(service.number, x1) or 1
            places = range(start, start + size)
            self.sizes[start], self.makers[start] = size, origins
            if service.number == CALLOC:
                self.memory.define(places)
            else:
                self.memory.undefine(places, origins)

    def resize(self, old: int, new: int, size: int, origins: Origins) -> None:
        """What a `realloc` adds is undefined; what was there is as it was."""
        kept = min(self.sizes[old], size)
        more = origins | self.makers[old]
        if old != new:
            self.memory.copy(old, new, kept, more)
        self.memory.undefine(range(new + kept, new + size), more)
        self.rules["bytes that realloc adds"] += size > kept
        self.sizes[new], self.makers[new] = size, more


def first_uses(
    all_moments: Iterable[Moment],
) -> tuple[list[Use], Optional[Use], Definedness]:
    """The uses that may be reported before the first that has to be, and that one."""
    state, possible = Definedness(), list[Use]()
    for moment in all_moments:
        for use in state.follow(moment):
            if use.is_certain:
                return possible, use, state
            possible.append(use)
    return possible, None, state
