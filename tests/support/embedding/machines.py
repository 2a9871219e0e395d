"""What a tenant's machine must answer that is changed between its slices."""

from collections.abc import Iterator, Sequence

from tests.support.embedding.lines import ALL, C, NO_FAULT, Line, hexed, line, words
from tests.support.embedding.memory import (
    BAD_ARGUMENT, FAULT, NO_ROOM, OK, PERMISSION, TRANSLATION,
)
from tests.support.embedding.tenants import CHUNK, EXIT, REFUSED, RUNNING, SVC
from tests.support.instructions import CODE, call, move, program

SLICE, GET, SET, LOAD, STORE, LOAD_TAG = range(1, 7)
SP, PC = 31, 32
STACK_END = 0x40000000
# A chunk whose address x9 has, a yield, and an exit with what is in the chunk: ldr x0, [x9].
IMAGE = program(*call(3, 24), 0xAA0003E9, *call(9), 0xF9400120, *move(8, 0), SVC)
TERMS = f"{IMAGE.hex()} - 1 64 16 0"
Act = tuple[int, int, int, int]
# What an act answers: its code, what was read, and the fault.
Answer = tuple[int, int, tuple[int, ...]]
LAST = CODE + 32


def done(value: int = 0) -> Answer:
    """The answer of an act that was done."""
    return OK, value, NO_FAULT


def failed(addr: int, kind: int, write: int, tag: int = 0) -> Answer:
    """The answer of an act that faulted."""
    return FAULT, 0, (addr, kind, write, tag, 0)


BAD: Answer = (BAD_ARGUMENT, 0, NO_FAULT)


def acted(acts: Sequence[tuple[Act, Answer]], steps: int, status: tuple[int, ...],
          regs: tuple[int, ...]) -> Iterator[Line]:
    """The lines of acts, by the call and by the one that tests pointers."""
    rows: list[object] = []
    for _, (code, value, fault) in acts:
        rows += ["|", code, value, *fault]
    calls = int(steps > 2)
    for name, languages in (("machine", ALL), ("machine_checked", C)):
        text = words([name, TERMS, len(acts), *(it for act, _ in acts for it in act)])
        yield line(text, OK, steps, 0, calls, calls, OK, 0, *status, *NO_FAULT, *regs,
                   hexed(bytes(16)), *rows, languages=languages)


def acts() -> Iterator[Line]:
    """Acts of each kind, with services between them."""
    first = (SLICE, 100, 0, 0), done(6)
    running = (RUNNING, 0, 0, 0)
    yield from acted([], 0, running, (0, 0, STACK_END, CODE))
    yield from acted([first], 6, running, (0, 0, STACK_END, CODE + 24))
    changed = [
        first, ((GET, 9, 0, 0), done(CHUNK)), ((GET, SP, 0, 0), done(STACK_END)),
        ((GET, PC, 0, 0), done(CODE + 24)), ((LOAD_TAG, 0, CHUNK, 0), done(1)),
        ((STORE, 0, CHUNK, 0x1234567890ABCDEF), done()),
        ((LOAD, 0, CHUNK, 0), done(0x1234567890ABCDEF)),
        # No tags are compared: neither of these has the chunk's.
        ((LOAD, 0, CHUNK & (1 << 56) - 1, 0), done(0x1234567890ABCDEF)),
        ((LOAD, 0, CHUNK | 0xE << 56, 0), done(0x1234567890ABCDEF)),
        ((STORE, 0, CHUNK + 3, 0x2A), done()), ((LOAD, 0, CHUNK, 0), done(0x2AABCDEF)),
        ((STORE, 0, CHUNK, 0x12C), done()), ((SLICE, 100, 0, 0), done(9)),
        ((SLICE, 100, 0, 0), done(9)),
    ]
    yield from acted(changed, 9, (EXIT, 0x2C, 0, 0), (0x12C, 0, STACK_END, LAST))
    moved = [
        first, ((SET, 0, 0, 7), done()), ((SET, 30, 0, (1 << 64) - 1), done()),
        ((SET, SP, 0, 0x1000), done()), ((SET, PC, 0, 0xFF << 56 | CODE + 28), done()),
        ((GET, PC, 0, 0), done(CODE + 28)), ((SLICE, 100, 0, 0), done(8)),
    ]
    yield from acted(moved, 8, (EXIT, 7, 0, 0), (7, (1 << 64) - 1, 0x1000, LAST))


def edges() -> Iterator[Line]:
    """Acts that are none, that fault, and numbers at their ends; those behind them are done."""
    most, low = (1 << 64) - 1, (1 << 32) - 1
    rest: list[tuple[Act, Answer]] = [
        ((SLICE, 0, 0, 0), done(0)), ((0, 0, 0, 0), BAD), ((7, 1, 1, 1), BAD),
        ((low, low, most, most), BAD), ((GET, 33, 0, 0), BAD), ((GET, low, 0, 0), BAD),
        ((SET, 33, 0, 5), BAD), ((SET, low, 0, 5), BAD),
        ((LOAD, 0, 0x8000, 0), failed(0x8000, TRANSLATION, 0)),
        ((LOAD, 0, most, 0), failed((1 << 56) - 1, TRANSLATION, 0, 15)),
        ((LOAD, 0, CODE + 4095, 0), failed(CODE + 4096, TRANSLATION, 0)),
        ((STORE, 0, CODE, 5), failed(CODE, PERMISSION, 1)),
        ((STORE, 0, STACK_END - 4, 5), failed(STACK_END, TRANSLATION, 1)),
        ((LOAD_TAG, 0, 0x8008, 0), failed(0x8000, TRANSLATION, 0)),
        ((LOAD_TAG, 0, CODE, 0), done(0)), ((SLICE, low, 0, 0), done(6)),
    ]
    yield from acted(rest, 6, (RUNNING, 0, 0, 0), (0, 0, STACK_END, CODE + 24))


def pages() -> Iterator[Line]:
    """Which pages are mapped: the image's and the stack's, and the heap's behind its first call."""
    stack = sum((0x3FFFC + it) * 16 + 11 for it in range(4))
    for name, languages in (("mapped", ALL), ("mapped_checked", C)):
        yield line(f"{name} {TERMS} 5 0", OK, 5, 16 * 16 + 5 + stack, languages=languages)
        yield line(f"{name} {TERMS} 64 0", OK, 5, 16 * 16 + 5 + stack, languages=languages)
        yield line(f"{name} {TERMS} 0 0", NO_ROOM, 5, 0, languages=languages)
        yield line(f"{name} - - 1 64 16 0 5 0", REFUSED, 0, 0, languages=languages)
        yield line(f"{name} {IMAGE.hex()} - 1 0 16 0 5 0", REFUSED, 0, 0, languages=languages)


def hostile() -> Iterator[Line]:
    """Pointers that are null, misaligned, huge or overlap: a bad argument each, nothing written."""
    yield line("machine_hostile", *(BAD_ARGUMENT,) * 13, "|", *(BAD_ARGUMENT,) * 9, "|", 0, 0, 1, 0,
               0xEE, 0, languages=C)
