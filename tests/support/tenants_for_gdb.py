"""Tenants whose every step is known: what GDB is told of them follows from their instructions."""

from dataclasses import dataclass

from tests.support.instructions import CODE, NO_INSTRUCTION, SP, add, breakpoint_instruction, call
from tests.support.instructions import copy, jump_not_equal, load, load_byte, load_pair, move
from tests.support.instructions import program, set_flags, store, store_byte, store_pair, store_tag
from tests.support.instructions import subtract_with_flags

STACK_END = 0x40000000
EQUAL, NOT_EQUAL = 0, 1

# x0 to x30 and SP differ from one another; then N, Z, C and V are set alone, each in turn.
VALUES = {f"x{number}": 0xA000 + number << 48 | 0x1000 + number for number in range(31)}
VALUES["sp"] = STACK_END - 0x120
FLAG_WORDS = (0x80000000, 0x40000000, 0x20000000, 0x10000000)
SETTING = [word for number in range(31) for word in move(number, VALUES[f"x{number}"])]
REGISTERS = program(
    SETTING, add(SP, SP, -0x120),
    [set_flags(8, EQUAL), set_flags(4, EQUAL), set_flags(2, NOT_EQUAL), set_flags(1, EQUAL)],
    breakpoint_instruction(3),
)
REGISTER_STEPS = len(SETTING) + 1 + 4
VALUES["pc"] = CODE + 4 * REGISTER_STEPS

# The number of 8 bytes at WATCHED is written by two instructions and read by three; others access
# what stands beside it.
WATCHED = STACK_END - 64 + 8
ACCESSES = program(
    add(SP, SP, -64),
    move(1, 7),
    store(1, SP, 8),  # writes it
    load(2, SP, 8),  # reads it
    store(1, SP, 16),
    load_byte(3, SP, 15),  # reads its last byte
    store_byte(1, SP, 7),
    load(4, SP, 16),
    load_pair(5, 6, SP, 0),  # reads it
    add(1, 1, 1),
    store_pair(1, 1, SP, 8),  # writes it
    call(0, 0),
)
WRITES, READS = (2, 10), (3, 5, 8)  # the instructions from 0 on that access it

# A loop of three rounds, and an exit with 9.
ROUNDS = 3
LOOP = program(
    move(0, ROUNDS), add(1, 1, 1), subtract_with_flags(0, 0, 1), jump_not_equal(-2), call(0, 9)
)

# Three chunks, of which the second is freed; then a load through the freed pointer.
CHUNKS = program(
    call(3, 24), copy(19, 0), call(3, 40), copy(20, 0), call(5, 2, 8), copy(21, 0),
    copy(0, 20), move(8, 4), 0xD4000001, load(2, 20, 8),
)


@dataclass(frozen=True)
class End:
    """How a tenant ends in GDB: its signal's name and text, `si_code` and `si_addr`, and the steps
    that were done."""

    image: bytes
    signal: str
    text: str
    code: int
    address: int
    steps: int
    options: tuple[str, ...] = ()


def freed() -> list[int]:
    """A chunk of 24 bytes is freed; x9 still points to it."""
    return [*call(3, 24), copy(9, 0), *call(4)]


SEGMENT, BUS = "Segmentation fault", "Bus error"
CHUNK = 0x0100000012000010  # of the first malloc(24): its tag is drawn from the seed 1
ENDS = {
    "translation": End(program(move(1, 0x8000), load(2, 1)), "SIGSEGV", SEGMENT, 1, 0x8000, 1),
    "permission": End(program(move(1, CODE), store(2, 1)), "SIGSEGV", SEGMENT, 2, CODE, 1),
    "tag check": End(program(freed(), load(2, 9)), "SIGSEGV", SEGMENT, 9, CHUNK, 6),
    "asynchronous": End(program(freed(), load(2, 9), call(9)), "SIGSEGV", SEGMENT, 8, 0, 8,
                        ("--async",)),
    # The load is the last step of its slice, in front of a service or of a jump to itself.
    "asynchronous, before a service": End(program(freed(), load(2, 9), 0xD4000001), "SIGSEGV",
                                          SEGMENT, 8, 0, 7, ("--async", "--steps", "7")),
    "asynchronous, in a loop": End(program(freed(), load(2, 9), 0x14000000), "SIGSEGV", SEGMENT, 8,
                                   0, 20, ("--async", "--steps", "20")),
    "stack pointer": End(program(add(SP, SP, -8), load(0, SP)), "SIGBUS", BUS, 1, STACK_END - 8, 1),
    "granule": End(program(add(1, SP, -24), store_tag(1)), "SIGBUS", BUS, 1, STACK_END - 24, 1),
    "program counter": End(program(move(1, CODE + 2), 0xD61F0020), "SIGBUS", BUS, 1, CODE + 2, 3),
    "illegal": End(program(move(1, 1), NO_INSTRUCTION), "SIGILL", "Illegal instruction", 1,
                   CODE + 4, 1),
    "breakpoint": End(program(move(1, 1), breakpoint_instruction(4)), "SIGTRAP",
                      "Trace/breakpoint trap", 1, CODE + 4, 1),
    "abort": End(program(call(4, 8)), "SIGABRT", "Aborted", -6, 0, 2),
    "steps": End(program(0x14000000), "SIGXCPU", "CPU time limit exceeded", 0, 0, 9,
                 ("--steps", "9")),
}
