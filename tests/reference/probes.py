"""The end of a drawn program: uses of what is defined, which are not to be reported, and at last
one of what is not."""

import random

from tests.reference.definedness import Definedness
from tests.reference.drawing import POOL, word
from tests.reference.moments import ALL
from tests.reference.programs import A, EXIT, LEFT, MALLOC, NEXT, WRITE, Program
from tests.support.instructions import NOTHING, SERVICE, copy, move

BIT, TARGET = 25, 24
KINDS = ("test", "compare", "compare with zero", "select", "index", "base", "jump", "argument",
         "output", "exit")


def defined_bits(program: Program, state: Definedness) -> None:
    """Branches by all bits of the pool that are certainly defined, and by conditions that are. The
    bits are 0 then, so that none of them decides for the others."""
    for condition in range(16):
        if not state.flags.may_be_open(condition):
            program.put(word("branch_cond", imm19=NEXT, cond=condition))
    for register in POOL:
        known = state.registers[register]
        program.put(move(LEFT, known.value),
                    word("log_shift", sf=1, opc=2, rm=LEFT, rn=register, rd=BIT),
                    move(LEFT, ALL & ~known.may),
                    word("log_shift", sf=1, rm=LEFT, rn=BIT, rd=BIT),
                    word("cmp_branch", sf=1, imm19=NEXT, rt=BIT))


def end(program: Program, state: Definedness, is_over: bool) -> None:
    """Adds both, where the run is not over before; the last use is of a condition or of a register,
    or there is none. Then it exits."""
    source = program.source
    if not is_over:
        defined_bits(program, state)
        last_use(program, state)
    program.put(move(0, source.randrange(256)), move(8, EXIT), SERVICE)


def last_use(program: Program, state: Definedness) -> None:
    """A use of an undefined condition, or of an undefined bit of a register."""
    source = program.source
    conditions = [it for it in range(16) if state.flags.is_open(it)]
    registers = [it for it in POOL if state.registers[it].must]
    if conditions and (source.random() < 0.4 or not registers):
        program.put(word("branch_cond", imm19=NEXT, cond=source.choice(conditions)))
    elif registers:
        use_of_bit(program, state, source.choice(registers), source)


def use_of_bit(program: Program, state: Definedness, register: int, source: random.Random) -> None:
    """A use of one undefined bit of a register, as each kind of use."""
    known = state.registers[register]
    bit = source.choice([it for it in range(64) if known.must >> it & 1])
    kind = source.choice(KINDS)
    if kind == "test":
        program.put(word("test_branch", b5=bit >> 5, op=source.randrange(2), b40=bit & 31,
                         imm14=NEXT, rt=register))
        return
    # The bit is in a register of its own, whose value is 0.
    program.put(word("bitfield", sf=1, opc=2, n=1, immr=bit, imms=bit, rn=register, rd=BIT))
    if known.value >> bit & 1:
        program.put(move(TARGET, 1), word("log_shift", sf=1, opc=2, rm=TARGET, rn=BIT, rd=BIT))
    program.put(final(kind, source))


def final(kind: str, source: random.Random) -> list[int]:
    """The instructions of a use of bit 0 of a register, whose value is 0."""
    back = [word("branch_cond", imm19=NEXT, cond=source.randrange(2))]
    if kind == "compare":
        return [word("add_sub_imm", sf=1, op=1, s=1, rn=BIT, rd=31), *back]
    if kind == "compare with zero":
        return [word("cmp_branch", sf=source.randrange(2), op=source.randrange(2), imm19=NEXT,
                     rt=BIT)]
    if kind == "select":
        return [word("add_sub_imm", sf=1, op=1, s=1, rn=BIT, rd=31), *move(TARGET, 5),
                word("cond_sel", sf=1, o2=1, cond=source.randrange(2), rm=TARGET, rn=TARGET,
                     rd=BIT), word("test_branch", b40=1, imm14=NEXT, rt=BIT)]
    if kind == "index":
        return [word("ld_st_reg", size=0, opc=1, rm=BIT, option=source.choice((2, 3, 6, 7)),
                     rn=A, rt=1)]
    if kind == "base":
        return [word("add_sub_shift", sf=1, rm=BIT, rn=A, rd=TARGET),
                word("ld_st_imm", size=0, opc=source.randrange(2), rn=TARGET, rt=1)]
    if kind == "jump":
        shift = word("bitfield", sf=1, opc=2, n=1, immr=62, imms=61, rn=BIT, rd=BIT)
        return [shift, word("adr", immhi=3, rd=TARGET),
                word("add_sub_shift", sf=1, rm=BIT, rn=TARGET, rd=TARGET),
                word("branch_reg", opc=source.randrange(3), rn=TARGET), NOTHING]
    return final_service(kind, source)


def final_service(kind: str, source: random.Random) -> list[int]:
    """A use by a service."""
    if kind == "output":
        return [word("ld_st_imm", size=0, opc=0, imm12=source.randrange(8), rn=A, rt=BIT),
                copy(0, A), *move(1, 8), *move(8, WRITE), SERVICE]
    if kind == "argument":
        return [copy(0, BIT), *move(8, source.choice((MALLOC, 4, 8))), SERVICE]
    return [copy(0, BIT), *move(8, EXIT), SERVICE]
