"""What traced runs and the text of words must answer."""

from collections.abc import Iterator, Sequence

from tests.support.embedding.lines import C, NO_FAULT, NOT_RUST, Line, hexed, line, words
from tests.support.embedding.memory import BAD_ARGUMENT, DATA, FAULT, NO_ROOM, OK, PERMISSION
from tests.support.embedding.memory import TAG_CHECK, tagged
from tests.support.embedding.runs import BREAKPOINT, BRK_7, CODE, ILLEGAL, LOOP, MIXED, NO_WORD
from tests.support.embedding.runs import STOPPED, SVC, SVC_0, Registers, memory

MOST = (1 << 64) - 1
READ, WRITE, READ_TAG, WRITE_TAG = 1, 2, 4, 8
# ldg x2, [x0]; stgp x3, x4, [x0, #16]; st2g x0, [x0]; brk #7
TAGS = (0xD9600002, 0x69009003, 0xD9A00800, BRK_7)
NOP = 0xD503201F


def traced(rooms: tuple[int, int], steps: int, kinds: int = 15,
           code: tuple[int, int] = (0, MOST), data: tuple[int, int] = (0, MOST),
           stops: tuple[int, ...] = ()) -> str:
    """The words of a traced run."""
    return f"traced {words([*rooms, steps, kinds, *code, *data, len(stops), *stops])}"


def ended(code: int, steps: int, instructions: int, accesses: int, number: int = 0,
          fault: tuple[int, ...] = NO_FAULT) -> tuple[object, ...]:
    """How a run ended."""
    return (code, steps, instructions, accesses, code, number, *fault)


Rows = Sequence[tuple[int, ...]]


def entered(code: Rows, data: Rows) -> list[object]:
    """Instructions and accesses."""
    return [*(it for row in code for it in ("|", *row, 0)),
            *(it for row in data for it in (">", *row))]


def mixed() -> Iterator[Line]:
    """Each instruction and access; filters; arrays that are full, and go on."""
    yield from memory(*MIXED)
    there = bytes(range(0x10, 0x30))
    yield line(f"load {DATA} {hexed(there)}", OK)
    yield line(f"store_tags {DATA + 48} 1 7 0", OK, *NO_FAULT)
    at = Registers()
    low, high = (int.from_bytes(there[it:it + 8], "little") for it in (0, 8))
    at.x[0], at.x[6] = tagged(DATA, 5), tagged(DATA + 48, 7)
    code = [(step, CODE + 4 * step, MIXED[step]) for step in range(5)]
    data = [(0, CODE, at.x[0], low, high, 16, READ), (1, CODE + 4, at.x[0] + 3, 0x13, 0, 1, READ),
            (2, CODE + 8, at.x[6], high & 0xFFFFFFFF, 0, 4, WRITE),
            (3, CODE + 12, at.x[0], 5, 0, 16, WRITE_TAG)]
    yield at.set()
    yield line(traced((9, 9), 0), *ended(OK, 0, 0, 0))
    yield line(traced((9, 9), 9), *ended(BREAKPOINT, 5, 5, 4, 7), *entered(code, data))
    at.x[3], at.x[4], at.x[5], at.pc = low, high, 0x13, CODE + 16
    yield at.are()
    at.pc = CODE
    asked: list[tuple[int, tuple[int, int], Rows]] = [
        (WRITE, (0, MOST), data[2:3]),
        (READ | WRITE_TAG, (0, MOST), [*data[:2], data[3]]),
        (15, (DATA + 48, DATA + 48), data[2:3]), (15, (DATA + 15, DATA + 20), [data[0], data[3]]),
        (15, (DATA + 3, DATA + 3), [data[0], data[1], data[3]]), (0, (0, MOST), []),
    ]
    for kinds, bounds, found in asked:
        yield at.set()
        yield line(traced((0, 9), 9, kinds, data=bounds),
                   *ended(BREAKPOINT, 5, 0, len(found), 7), *entered([], found))
    yield at.set()
    yield line(traced((9, 0), 9, code=(CODE + 4, CODE + 8)), *ended(BREAKPOINT, 5, 2, 0, 7),
               *entered(code[1:3], []))
    yield at.set()
    yield line(traced((0, 0), 9), *ended(BREAKPOINT, 5, 0, 0, 7))
    yield from rooms(at, code, data)


def rooms(at: Registers, code: Rows, data: Rows) -> Iterator[Line]:
    """Arrays with little room: the same call goes on, and counts its steps anew."""
    yield at.set()
    yield line(traced((2, 0), 9), *ended(NO_ROOM, 2, 2, 0), *entered(code[:2], []))
    again = [(step - 2, *rest) for step, *rest in code[2:4]]
    yield line(traced((2, 0), 9), *ended(NO_ROOM, 2, 2, 0), *entered(again, []))
    yield at.set()
    yield line(traced((9, 1), 9), *ended(NO_ROOM, 1, 1, 1), *entered(code[:1], data[:1]))
    yield line(traced((9, 1), 1), *ended(OK, 1, 1, 1),
               *entered([(0, *code[1][1:])], [(0, *data[1][1:])]))


def ends() -> Iterator[Line]:
    """Stops, faults, words that are none, and requests that are none."""
    yield from memory(*LOOP)
    at = Registers()
    at.x[0], at.x[1] = tagged(DATA, 5), 2
    yield at.set()
    code = [(step, CODE + 4 * step, LOOP[step]) for step in range(4)]
    store = (0, CODE, at.x[0], at.x[2], 0, 8, WRITE)
    yield line(traced((9, 9), 100, stops=(1, CODE)), *ended(STOPPED, 4, 4, 1),
               *entered(code, [store]))
    yield line(traced((0, 0), 100, stops=(CODE,)), *ended(SVC, 5, 0, 0))
    at.x[0], at.pc = tagged(DATA, 6), CODE
    yield at.set()
    yield line(traced((9, 9), 100), *ended(FAULT, 1, 1, 0, 0, (DATA, TAG_CHECK, 1, 6, 5)),
               *entered(code[:1], []))
    at.pc = DATA
    yield at.set()
    yield line(traced((9, 9), 100), *ended(FAULT, 1, 0, 0, 0, (DATA, PERMISSION, 0, 0, 0)))
    for it in (dict(kinds=16), dict(code=(5, 4)), dict(data=(1, 0))):
        yield line(traced((9, 9), 100, **it), *ended(BAD_ARGUMENT, 0, 0, 0))  # type: ignore
    yield at.are()
    yield from memory(NO_WORD)
    at.pc = CODE
    yield at.set()
    yield line(traced((9, 9), 100), *ended(ILLEGAL, 1, 1, 0, NO_WORD),
               *entered([(0, CODE, NO_WORD)], []))


def tags() -> Iterator[Line]:
    """A tag that is read, tags that are stored, and bytes with a tag."""
    yield from memory(*TAGS)
    at = Registers()
    at.x[0] = tagged(DATA, 5)
    yield at.set()
    data = [(0, CODE, at.x[0], 5, 0, 16, READ_TAG),
            (1, CODE + 4, at.x[0] + 16, at.x[3], at.x[4], 16, WRITE | WRITE_TAG),
            (2, CODE + 8, at.x[0], 5, 0, 32, WRITE_TAG)]
    yield line(traced((0, 9), 9), *ended(BREAKPOINT, 4, 0, 3, 7), *entered([], data))


def texts() -> Iterator[Line]:
    """The texts of words, where they fit and where not."""
    for word, pc, text in ((NOP, 0, b"nop\0"), (0x91000400, 0, b"add x0, x0, #0x1\0"),
                           (0x14000004, 0x10000, b"b 0x10010\0"), (SVC_0, 0, b"svc #0x0\0")):
        room = len(text) + 1
        yield line(f"disassemble {word} {pc} {room}", OK, hexed(text + b"\xee"), languages=NOT_RUST)
        kept = hexed(b"\xee" * (room - 2))
        yield line(f"disassemble {word} {pc} {room - 2}", NO_ROOM, kept, languages=NOT_RUST)
    yield line(f"disassemble {NO_WORD} 0 3", ILLEGAL, hexed(b"\xee" * 3), languages=NOT_RUST)
    yield line("disassemble 0 0 0", ILLEGAL, "-", languages=NOT_RUST)


def hostile() -> Iterator[Line]:
    """Null, huge, misaligned and overlapping arguments, and ranges that are empty."""
    yield line("places 1 0", 0, 0)
    bad = BAD_ARGUMENT
    yield line("hostile", bad, bad, "|", *[bad] * 7, "|", *[bad] * 16, "|", *[bad] * 15, "|", 1, 0,
               1, 0, 0, 0, 0, languages=C)
