"""What the calls of a heap must answer: Scudo's layout, and tags as IRG draws them."""

from collections.abc import Iterator

from tests.support.embedding.lines import ALL, C, NO_FAULT, Line, line, words
from tests.support.embedding.memory import (
    BAD_ARGUMENT, FAULT, NO_ROOM, OK, TAG_CHECK, TRANSLATION,
)

MALLOC, FREE, CALLOC, REALLOC, MEMALIGN, USABLE_SIZE, LOAD, STORE, LOAD_TAG = range(1, 10)
ABORT = 9
MISALIGNED, UNMAPPED, HEADER_CORRUPT, INVALID_STATE = 1, 2, 3, 4
CLASS_2 = 0x12000000  # blocks of 64 bytes, each with a header of 16 in front of its chunk
Made = tuple[tuple[int, int, int], tuple[int, ...]]  # a call, and its code, answer and fault


class Generator:
    """RGSR_EL1, as IRG draws from it (Arm ARM DDI 0487, RandomTag and ChooseNonExcludedTag)."""

    def __init__(self, seed: int, tag: int = 0) -> None:
        self.seed, self.tag = seed, tag

    def offset(self) -> int:
        """Four random bits."""
        found = 0
        for bit in range(4):
            top = (self.seed >> 5 ^ self.seed >> 3 ^ self.seed >> 2 ^ self.seed) % 2
            self.seed = top << 15 | self.seed >> 1
            found |= top << bit
        return found

    def draw(self, block: int) -> int:
        """The tag of the chunk in a block: of even blocks odd, of odd blocks even and not 0."""
        offset = self.offset()
        allowed = [it for it in range(1, 16) if it % 2 != block % 2]
        behind = [it for it in [*allowed, *(it + 16 for it in allowed)]
                  if it >= self.tag + (offset > 0)]
        self.tag = (behind + behind)[max(offset - 1, 0) % len(allowed)] % 16
        return self.tag


def chunk(tag: int, block: int = 0) -> int:
    """The pointer to the chunk of a block of class 2."""
    return CLASS_2 + 64 * block + 16 | tag << 56


def value(answer: int) -> tuple[int, ...]:
    """An answer of a call that is done."""
    return (OK, answer, *NO_FAULT)


def aborted(why: int) -> tuple[int, ...]:
    """The check that a pointer fails."""
    return (ABORT, why, *NO_FAULT)


def heap(setup: tuple[int, int, int, int, int], *made: Made) -> Line:
    """Calls of a heap: cookie, pages, mode, and the seed and the tag of its generator."""
    rows: list[object] = []
    for (op, first, second), (code, answer, *fault) in made:
        rows += ["|", op, code, first, second, answer, *fault]
    calls = words(it for call, _ in made for it in call)
    return line(f"heap {words(setup)} {len(made)} {calls}".rstrip(), OK, *rows)


def calls() -> Iterator[Line]:
    """Each operation, done and refused."""
    tags, setup = Generator(1), (1, 64, 0, 1, 0)
    it, other = chunk(tags.draw(0)), chunk(tags.draw(1), 1)
    yield heap(
        setup, ((CALLOC, 3, 8), value(it)), ((LOAD, it + 16, 0), value(0)),
        ((STORE, it, 42), value(0)), ((LOAD, it, 0), value(42)), ((LOAD_TAG, it, 0), value(1)),
        ((LOAD_TAG, CLASS_2, 0), value(0)), ((USABLE_SIZE, it, 0), value(24)),
        ((MALLOC, 24, 0), value(other)), ((FREE, 0, 0), value(0)), ((USABLE_SIZE, 0, 0), value(0)),
        # Of the same class: the chunk stays, with its bytes.
        ((REALLOC, it, 32), value(it)), ((USABLE_SIZE, it, 0), value(32)),
        ((LOAD, it, 0), value(42)), ((MALLOC, 0x200000, 0), value(0)),
        ((LOAD, it + 0x1000, 0), (FAULT, 0, CLASS_2 + 0x1010, TRANSLATION, 0, 1, 0)),
    )
    yield heap(
        setup, ((MALLOC, 24, 0), value(it)), ((FREE, it, 0), value(0)),
        ((LOAD, it, 0), (FAULT, 0, CLASS_2 + 16, TAG_CHECK, 0, 1, 3)),
        ((STORE, it, 5), (FAULT, 0, CLASS_2 + 16, TAG_CHECK, 1, 1, 3)),
        ((FREE, it, 0), aborted(INVALID_STATE)), ((FREE, it + 8, 0), aborted(MISALIGNED)),
        ((USABLE_SIZE, it + 8, 0), aborted(MISALIGNED)),
        ((REALLOC, it + 8, 5), aborted(MISALIGNED)),
        ((FREE, it + (1 << 24), 0), aborted(UNMAPPED)), ((STORE, CLASS_2, 5), value(0)),
        ((FREE, it, 0), aborted(HEADER_CORRUPT)), ((0, 0, 0), (BAD_ARGUMENT, 0, *NO_FAULT)),
        ((10, 1, 1), (BAD_ARGUMENT, 0, *NO_FAULT)),
    )


def setups() -> Iterator[Line]:
    """Each field of a setup does what it says."""
    for seed, tag in ((1, 0), (2, 0), (1, 5), (0xFFFF, 14), (0x1234, 7), (1, 0xFFF5)):
        first = chunk(Generator(seed, tag % 16).draw(0))
        yield heap((1, 64, 0, seed, tag), ((MALLOC, 24, 0), value(first)))
    it = chunk(1)
    yield heap((1, 64, 1, 1, 0), ((MALLOC, 24, 0), value(it)), ((FREE, it, 0), value(0)),
               ((LOAD, it, 0), value(0)))
    yield heap((1, 1, 0, 1, 0), ((MALLOC, 24, 0), value(it)), ((MALLOC, 60000, 0), value(0)))
    yield line("heap 1 4096 0 1 0 0", OK)
    for pages in (0, 4097, 0xFFFFFFFF):
        yield line(f"heap 1 {pages} 0 1 0 1 1 24 0", BAD_ARGUMENT, "|", 1, 0, 24, 0, 0, *NO_FAULT)


def replay(setup: tuple[int, int, int, int, int], *made: tuple[tuple[int, ...], tuple[int, ...]],
           bad: int = 0) -> Line:
    """Steps, each its operation, its arguments and the calls that they refer to, and its answer."""
    rows: list[object] = []
    for (op, first, second, *of), (code, answer, *fault) in made:
        rows += ["|", op, code, first, second, answer, *fault, *of]
    steps = words(it for step, _ in made for it in step)
    code = BAD_ARGUMENT if bad else OK
    return line(f"replay {words(setup)} {len(made)} {steps}".rstrip(), code, bad, *rows)


def replays() -> Iterator[Line]:
    """Calls that take answers of earlier ones, and steps that are none."""
    tags, setup = Generator(1), (1, 64, 0, 1, 0)
    it, other = chunk(tags.draw(0)), chunk(tags.draw(1), 1)
    none, nothing = (BAD_ARGUMENT, 0, *NO_FAULT), (0, 0, *NO_FAULT)
    yield replay(
        setup, ((MALLOC, 24, 0, 0, 0), value(it)), ((STORE, 16, 8, 1, 0), value(0)),
        ((LOAD, 16, 0, 1, 0), value(8)), ((STORE, 0, 34, 1, 3), value(0)),
        ((LOAD, 0, 0, 1, 0), value(42)), ((MALLOC, 16, 0, 3, 0), value(other)),
        ((FREE, 0, 0, 1, 0), value(0)), ((LOAD, 0, 0, 0, 0), (FAULT, 0, 0, TRANSLATION, 0, 0, 0)),
        ((STORE, 0, 0, 6, 8), none), ((FREE, 0, 0, 1, 0), aborted(INVALID_STATE)),
        ((LOAD, 1 << 63, 0, 6, 0), value(0)),
        ((USABLE_SIZE, (1 << 64) - 8, 0, 6, 0), aborted(MISALIGNED)),
        ((LOAD, 0, 0, 12, 0), none), ((USABLE_SIZE, 0, 0, 6, 0), value(24)),
    )
    yield replay(setup)
    malloc = ((MALLOC, 24, 0, 0, 0), nothing)
    for at, step in enumerate(((FREE, 0, 0, 1, 0), (FREE, 0, 0, 2, 0), (FREE, 0, 0, 0xFFFFFFFF, 0),
                               (MALLOC, 0, 0, 0, 1), (0, 0, 0, 0, 0), (10, 0, 0, 0, 0))):
        yield replay(setup, (step, nothing), bad=1)
        if at:
            yield replay(setup, malloc, ((FREE, 0, 0, 1, 0), nothing), malloc,
                         ((LOAD, 0, 0, 2, 0), nothing), (step, nothing), bad=4)
    yield line("replay 1 0 0 1 0 1 1 24 0 0 0", BAD_ARGUMENT, 0, "|", 1, 0, 24, 0, 0, *NO_FAULT,
               0, 0)
    yield line("replay 1 4097 0 1 0 0", BAD_ARGUMENT, 0)


def mapped() -> Iterator[Line]:
    """Which pages a heap has mapped: none, the first of a class, and those of a large chunk."""
    tagged, it = 11, chunk(Generator(1).draw(0))
    small = (CLASS_2 // 4096) * 16 + tagged
    for name, languages in (("heap_mapped", ALL), ("heap_mapped_checked", C)):
        for text, answer in (
            ("1 64 0 1 0 4 0", (OK, 0, 0, 0)),
            ("1 64 0 1 0 4 1 1 24 0 0 0", (OK, 1, 0, small, OK, it)),
            ("1 64 0 1 0 0 1 1 24 0 0 0", (NO_ROOM, 1, 0, 0, OK, it)),
            ("1 64 0 1 0 0 0", (OK, 0, 0, 0)),
            ("1 64 0 1 0 4 2 1 24 0 0 0 2 0 0 1 0", (OK, 1, 0, small, OK, it, OK, 0)),
            ("1 64 0 1 0 4 1 2 0 0 1 0", (BAD_ARGUMENT, 0, 1, 0, 0, 0)),
            ("1 4097 0 1 0 4 1 1 24 0 0 0", (BAD_ARGUMENT, 0, 0, 0, 0, 0)),
        ):
            yield line(f"{name} {text}", *answer, languages=languages)


def live() -> Iterator[Line]:
    """Which chunks are live: made and not freed, moved, resized, of no bytes, and one that a call
    takes from another."""
    tags, setup = Generator(1), "1 64 0 1 0"
    first, second = tags.draw(0), tags.draw(1)
    one, malloc = (CLASS_2 + 16, 24, 1, first, 0), "1 24 0 0 0"
    two = (CLASS_2 + 64 + 16, 20, 2, second, 0)
    rows: tuple[tuple[int, tuple[str, ...], tuple[int, ...]], ...] = (
        (4, (), (OK, 0)),
        (4, (malloc,), (OK, 1, *one)),
        (0, (malloc,), (NO_ROOM, 1)),
        (1, (malloc, "3 4 5 0 0"), (NO_ROOM, 2, *one)),
        (2, (malloc, "3 4 5 0 0"), (OK, 2, *one, *two)),
        (2, (malloc, "2 0 0 1 0"), (OK, 0)),
        (2, (malloc, "2 0 0 1 0", "2 0 0 1 0"), (OK, 0)),
        (2, (malloc, "2 8 0 1 0"), (OK, 1, *one)),
        (2, (malloc, "4 0 0 1 0"), (OK, 0)),
        (2, (malloc, "4 0 0xffffffffffffffff 1 0"), (OK, 1, *one)),
        (2, (malloc, "4 0 30 1 0"), (OK, 1, CLASS_2 + 16, 30, 2, first, 0)),
        (2, (malloc, "6 0 0 1 0", "1 0 0 2 0"),
         (OK, 2, *one, CLASS_2 + 64 + 16, 24, 3, second, 0)),
        (2, ("1 0xffffffffffffffff 0 0 0",), (OK, 0)),
    )
    for name, languages in (("live", ALL), ("live_checked", C)):
        for room, steps, answer in rows:
            text = f"{name} {setup} {room} {len(steps)} {' '.join(steps)}".rstrip()
            yield line(text, OK, *answer, languages=languages)


def headers() -> dict[int, Line]:
    """By the cookie, a line that loads the header of a chunk of 24 bytes."""
    return {
        cookie: Line(f"heap {cookie} 64 0 1 0 2 1 24 0 7 {CLASS_2} 0", "")
        for cookie in (1, 2, 0x10001)
    }
