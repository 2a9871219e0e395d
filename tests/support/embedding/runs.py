"""What steps, runs and traces must answer: registers by what the instructions mean."""

from collections.abc import Iterator

from tests.support.embedding.lines import C, NO_FAULT, Line, hexed, line, program, words
from tests.support.embedding.memory import DATA, FAULT, NO_ROOM, OK, PERMISSION, TAG_CHECK
from tests.support.embedding.memory import TRANSLATION, tagged

SVC, BREAKPOINT, ILLEGAL, STOPPED = 2, 3, 4, 13
SP_ALIGNMENT, PC_ALIGNMENT = 5, 6
CODE = 0x10000
ADD, BRK_7, SVC_0, NO_WORD = 0x91000400, 0xD42000E0, 0xD4000001, 0xFFFFFFFF  # add x0, x0, #1
LOAD_AT_SP = 0xF94003E0  # ldr x0, [sp]
# cset x0, mi; cset x1, eq; cset x2, cs; cset x3, vs
FLAGS = (0x9A9F57E0, 0x9A9F17E1, 0x9A9F37E2, 0x9A9F77E3)
# loop: str x2, [x0], #8; add x2, x2, #1; subs x1, x1, #1; b.ne loop; svc #0
LOOP = (0xF8008402, 0x91000442, 0xF1000421, 0x54FFFFA1, SVC_0)
# ldp x3, x4, [x0]; ldrb w5, [x0, #3]; str w4, [x6]; stg x0, [x0]; brk #7
MIXED = (0xA9401003, 0x39400C05, 0xB90000C4, 0xD9200800, BRK_7)


class Registers:
    """The registers of a core, all different from one another at first."""

    def __init__(self) -> None:
        self.x = [0x1100 + number for number in range(31)]
        self.sp, self.pc, self.nzcv, self.seed, self.tag = 0x22220, CODE, 0, 0xABCD, 9

    def values(self) -> list[int]:
        """In the order of the lines."""
        return [*self.x, self.sp, self.pc, self.nzcv, self.seed, self.tag]

    def set(self) -> Line:
        """The line that sets them."""
        return line(f"set {words(self.values())}")

    def are(self) -> Line:
        """The line that they must be told by."""
        return line("registers", *self.values())


def memory(*instructions: int) -> Iterator[Line]:
    """A page of code and one of data, whose first two granules have the tag 5."""
    yield line("places 3 0", 0, 0)
    yield line(f"map {CODE // 4096} 5", OK)
    yield line(f"map {DATA // 4096} 11", OK)
    yield line(f"load {CODE} {hexed(program(*instructions))}", OK)
    yield line(f"store_tags {DATA} 2 5 0", OK, *NO_FAULT)


def registers() -> Iterator[Line]:
    """Each register is its own, and bits that do not count are written as 0."""
    yield from memory(ADD, BRK_7, SVC_0, NO_WORD)
    at = Registers()
    yield at.set()
    yield at.are()
    yield line("step", OK, 0, OK, 0, *NO_FAULT)
    at.x[0], at.pc = at.x[0] + 1, CODE + 4
    yield at.are()
    yield line("step", BREAKPOINT, 0, BREAKPOINT, 7, *NO_FAULT)
    yield at.are()
    at.pc, at.nzcv, at.tag = CODE, 0x9FFFFFFF, 0xFF35
    yield at.set()
    yield line("step", OK, 0, OK, 0, *NO_FAULT)
    at.x[0], at.pc, at.nzcv, at.tag = at.x[0] + 1, CODE + 4, 0x90000000, 5
    yield at.are()


def flags() -> Iterator[Line]:
    """Each flag alone, as instructions read it."""
    yield from memory(*FLAGS, BRK_7)
    for bit in range(4):
        at = Registers()
        at.nzcv = 1 << 31 - bit
        yield at.set()
        yield line("run 9", BREAKPOINT, 4, BREAKPOINT, 7, *NO_FAULT)
        at.x[:4], at.pc = [int(bit == it) for it in range(4)], CODE + 16
        yield at.are()


def stops() -> Iterator[Line]:
    """Each way in which a run ends, and the steps that are left."""
    yield from memory(ADD, ADD, BRK_7, SVC_0, NO_WORD, LOAD_AT_SP)
    at = Registers()
    yield at.set()
    yield line("run 0", OK, 0, OK, 0, *NO_FAULT)
    yield line("run 1", OK, 0, OK, 0, *NO_FAULT)
    yield line("run 0xffffffffffffffff", BREAKPOINT, (1 << 64) - 3, BREAKPOINT, 7, *NO_FAULT)
    for offset, code, number, fault in (
        (12, SVC, 0, NO_FAULT), (16, ILLEGAL, NO_WORD, NO_FAULT),
        (20, FAULT, 0, (0x22228, SP_ALIGNMENT, 0, 0, 0)),
        (2, FAULT, 0, (CODE + 2, PC_ALIGNMENT, 0, 0, 0)),
        (0x5000, FAULT, 0, (CODE + 0x5000, TRANSLATION, 0, 0, 0)),
        (0x10000, FAULT, 0, (DATA, PERMISSION, 0, 0, 0)),
    ):
        at.pc, at.sp = CODE + offset, 0x22228
        yield at.set()
        yield line("step", code, 0, code, number, *fault)
        yield line("run 5", code, 4, code, number, *fault)
        yield line("until 5 0", code, 4, code, number, *fault)
        yield at.are()


def until() -> Iterator[Line]:
    """A run to some addresses goes on from one of them."""
    yield from memory(*LOOP)
    at = Registers()
    at.x[0], at.x[1] = tagged(DATA, 5), 2
    yield at.set()
    both = f"2 {CODE} {CODE + 16}"
    yield line(f"until 100 {both}", STOPPED, 96, STOPPED, 0, *NO_FAULT)
    yield line(f"until 100 {both}", STOPPED, 96, STOPPED, 0, *NO_FAULT)
    yield line(f"until 100 {both}", SVC, 99, SVC, 0, *NO_FAULT)
    at.x[0] += 16
    at.x[1], at.x[2], at.pc, at.nzcv = 0, at.x[2] + 2, CODE + 16, 0x60000000
    yield at.are()
    # The third number would be stored in a granule of another tag.
    at.x[1], at.pc = 3, CODE
    at.x[0] = tagged(DATA, 5) + 16
    yield at.set()
    fault = (DATA + 32, TAG_CHECK, 1, 5, 0)
    yield line("run 100", FAULT, 91, FAULT, 0, *fault)
    yield line("step", FAULT, 0, FAULT, 0, *fault)


def traces() -> Iterator[Line]:
    """Each access with its address, size, value and tag; a full array stops the run."""
    yield from memory(*MIXED)
    bytes_there = bytes(range(0x10, 0x30))
    yield line(f"load {DATA} {hexed(bytes_there)}", OK)
    at = Registers()
    low, high = (int.from_bytes(bytes_there[it:it + 8], "little") for it in (0, 8))
    yield line(f"store_tags {DATA + 48} 1 7 0", OK, *NO_FAULT)
    at.x[0], at.x[6] = tagged(DATA, 5), tagged(DATA + 48, 7)
    rows = [
        (CODE, at.x[0], low, high, MIXED[0], 16, 0, 5),
        (CODE + 4, at.x[0] + 3, 0x13, 0, MIXED[1], 1, 0, 5),
        (CODE + 8, at.x[6], high & 0xFFFFFFFF, 0, MIXED[2], 4, 1, 7),
        (CODE + 12, at.x[0], low, high, MIXED[3], 16, 1, 5),
    ]
    yield at.set()
    yield line("trace 0 5", OK, 0, OK, 0, *NO_FAULT)
    yield line("trace 9 2", NO_ROOM, 7, NO_ROOM, 0, *NO_FAULT, "|", *rows[0], "|", *rows[1])
    yield line("trace 9 0", NO_ROOM, 9, NO_ROOM, 0, *NO_FAULT)
    yield line("trace 9 5", BREAKPOINT, 6, BREAKPOINT, 7, *NO_FAULT, "|", *rows[2], "|", *rows[3])
    at.x[3], at.x[4], at.x[5], at.pc = low, high, 0x13, CODE + 16
    yield at.are()
    at.pc = CODE
    yield at.set()
    yield line("trace_step 1", OK, 0, OK, 0, *NO_FAULT, "|", *rows[0], languages=C)
    yield line("trace_step 0", NO_ROOM, 0, NO_ROOM, 0, *NO_FAULT, languages=C)
    at.pc, at.x[0] = CODE, tagged(DATA, 6)
    yield at.set()
    yield line("trace 9 9", FAULT, 8, FAULT, 0, DATA, TAG_CHECK, 0, 6, 5)
    yield line("place 1", DATA // 4096, 1, 11, weighed_page(bytes_there, high), 5 + 10 + 28)
    # A page without EXEC: a fetch that fails is no access, and needs no room.
    at.pc = DATA
    yield at.set()
    yield line("trace 9 0", FAULT, 8, FAULT, 0, DATA, PERMISSION, 0, 0, 0)


def weighed_page(there: bytes, high: int) -> int:
    """The sum of the page of data: its bytes, and the number that was stored at 48."""
    page = there + bytes(48 - len(there)) + (high & 0xFFFFFFFF).to_bytes(4, "little")
    return sum(byte * at for at, byte in enumerate(page, 1))
