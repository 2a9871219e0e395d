"""What tenants alone must answer: how each ends, what it wrote and called, why it is refused."""

import struct
from collections.abc import Iterator
from typing import Any

from tests.support.embedding.heaps import Generator, chunk
from tests.support.embedding.lines import NO_FAULT, Line, hexed, line, words
from tests.support.embedding.memory import NO_ROOM, OK, TAG_CHECK, TRANSLATION
from tests.support.instructions import CODE, Words, call, move, program

REFUSED = 12
RUNNING, EXIT, FAULT, ILLEGAL, BREAK, ASYNC, ABORT = 1, 2, 3, 4, 5, 6, 7
SVC = 0xD4000001
CHUNK = 0x0100000012000010  # of the first malloc(24), its tag drawn from the seed 1


class Alone:
    """A tenant alone, with terms that a test changes."""

    def __init__(self, *instructions: Words, given: bytes = b"", **terms: Any) -> None:
        self.image, self.given = program(*instructions), given
        self.terms = {"seed": 1, "pages": 64, "room": 16, "mode": 0, **terms}
        self.output, self.rows, self.slices = 16, 4, [100]

    def line(self, code: int, numbers: tuple[int, ...], status: tuple[int, ...],
             fault: tuple[int, ...] = NO_FAULT, output: bytes = b"",
             calls: tuple[tuple[int, ...], ...] = (), refusal: int = 0) -> Line:
        """The line and its answer: `numbers` are the steps, bytes, calls, and how many are kept."""
        text = words([hexed(self.image), hexed(self.given), *self.terms.values(), self.output,
                      self.rows, len(self.slices), *self.slices])
        rows: list[object] = []
        for row in (*calls, *[(0, 0, 0, 0)] * self.rows)[:self.rows]:
            rows += ["|", *row]
        held = hexed(output[:self.output].ljust(self.output, b"\0"))
        return line(f"alone {text}", code, *numbers, code, refusal, *status, *fault, held, *rows)


def ends() -> Iterator[Line]:
    """Each status, with its number, address, pointer and fault."""
    it = Alone(*call(0, 300))
    yield it.line(OK, (3, 0, 0, 0), (EXIT, 300 % 256, 0, 0))
    it.slices = [1, 1]
    yield it.line(OK, (2, 0, 0, 0), (RUNNING, 0, 0, 0))
    it.slices = []
    yield it.line(OK, (0, 0, 0, 0), (RUNNING, 0, 0, 0))
    # ldr x2, [x1]
    it = Alone(move(1, 0x8000), 0xF9400022)
    yield it.line(OK, (2, 0, 0, 0), (FAULT, 0, CODE + 4, 0), (0x8000, TRANSLATION, 0, 0, 0))
    it = Alone(move(1, 0), 0x00000000)
    yield it.line(OK, (2, 0, 0, 0), (ILLEGAL, 0, CODE + 4, 0))
    it = Alone(0xD503201F, 0xFFFFFFFF)
    yield it.line(OK, (2, 0, 0, 0), (ILLEGAL, 0xFFFFFFFF, CODE + 4, 0))
    it = Alone(0xD4200000 | 999 << 5)
    yield it.line(OK, (1, 0, 0, 0), (BREAK, 999, CODE, 0))
    it = Alone(*call(4, 8))
    yield it.line(OK, (3, 0, 0, 0), (ABORT, 1, CODE + 8, 8))


def heap_calls() -> Iterator[Line]:
    """Heap calls with their arguments and answers, and tags that differ in both modes."""
    # str x0, [x0, #8] after a free: the pointer's tag is 1, and the chunk's 3 by then.
    used = [*call(3, 24), 0xAA0003E9, *call(4), 0xF9000529]  # mov x9, x0; str x9, [x9, #8]
    kept = ((3, 24, 0, CHUNK), (4, CHUNK, 0, 0))
    it = Alone(*used)
    yield it.line(OK, (7, 0, 2, 2), (FAULT, 0, CODE + 24, 0),
                  (CHUNK + 8 & (1 << 56) - 1, TAG_CHECK, 1, 1, 3), calls=kept)
    it.rows = 1
    yield it.line(NO_ROOM, (7, 0, 2, 2), (FAULT, 0, CODE + 24, 0),
                  (CHUNK + 8 & (1 << 56) - 1, TAG_CHECK, 1, 1, 3), calls=kept)
    it = Alone(*used, *call(9), mode=1)
    yield it.line(OK, (9, 0, 2, 2), (ASYNC, 0, CODE + 32, 0), calls=kept)
    it = Alone(*call(5, 3, 8), 0xD1000400, *call(9))  # sub x0, x0, #1
    yield it.line(OK, (7, 0, 1, 1), (RUNNING, 0, 0, 0), calls=((5, 3, 8, CHUNK),))
    # Another seed draws another tag: its low 16 bits are the generator's.
    it = Alone(*call(3, 24), *call(9), seed=2)
    yield it.line(OK, (5, 0, 1, 1), (RUNNING, 0, 0, 0), calls=((3, 24, 0, CHUNK | 3 << 56),))
    # Only the last 64 calls are kept, in the order in which they were made.
    it = Alone(move(8, 3), move(0, 24), SVC, 0x17FFFFFE)  # b .-8
    it.slices, it.rows, it.terms["pages"] = [1 + 3 * 70], 64, 64
    yield it.line(OK, (211, 0, 70, 64), (RUNNING, 0, 0, 0), calls=sixty_four())


def sixty_four() -> tuple[tuple[int, ...], ...]:
    """The calls 7 to 70 of malloc(24), in blocks that follow one another."""
    tags = Generator(1)
    chunks = [chunk(tags.draw(block), block) for block in range(70)]
    return tuple((3, 24, 0, it) for it in chunks[6:])


def outputs() -> Iterator[Line]:
    """Output and input: how much there is, and how much the buffers hold."""
    # sub x0, sp, #16; mov x9, x0; read to there; write what was read.
    copy = [0xD10043E0, 0xAA0003E9, *move(1, 9), *move(8, 2), SVC, 0xAA0003E1, 0xAA0903E0,
            *move(8, 1), SVC, *call(9)]
    it = Alone(*copy, given=b"twelve bytes")
    yield it.line(OK, (11, 9, 0, 0), (RUNNING, 0, 0, 0), output=b"twelve by")
    it.output = 4
    yield it.line(NO_ROOM, (11, 9, 0, 0), (RUNNING, 0, 0, 0), output=b"twelve by")
    it.terms["room"] = 5
    yield it.line(NO_ROOM, (11, 5, 0, 0), (RUNNING, 0, 0, 0), output=b"twelv")
    it.output = 0
    yield it.line(NO_ROOM, (11, 5, 0, 0), (RUNNING, 0, 0, 0))
    it.terms["room"] = 0
    yield it.line(OK, (11, 0, 0, 0), (RUNNING, 0, 0, 0))


def changed(data: bytes, at: int, form: str, number: int) -> bytes:
    """The bytes with a number replaced."""
    new = struct.pack(f"<{form}", number)
    return data[:at] + new + data[at + len(new):]


def refused_images() -> dict[int, bytes]:
    """By its refusal, an image that is refused so."""
    good = program(call(0, 0))
    two = program(call(0, 0), data=[(0x10FF0, 16)])
    return {
        6: good[:63], 7: changed(good, 4, "B", 1), 8: changed(good, 18, "H", 62),
        9: changed(good, 16, "H", 3), 10: changed(good, 54, "H", 55), 11: changed(good, 64, "I", 3),
        12: changed(good, 64 + 16, "Q", 0), 13: two, 14: changed(good, 24, "Q", 0x20000),
    }


def refusals() -> Iterator[Line]:
    """Each refusal, in the order in which they are tested."""
    it = Alone(*call(0, 0))
    for change in ({"pages": 0}, {"pages": 4097}, {"pages": 0xFFFFFFFF}, {"room": 65537}):
        it.terms = {"seed": 1, "pages": 64, "room": 16, "mode": 0, **change}
        yield it.line(REFUSED, (0, 0, 0, 0), (0, 0, 0, 0), refusal=2)
    it.terms = {"seed": 1, "pages": 4, "room": 16, "mode": 0}
    yield it.line(REFUSED, (0, 0, 0, 0), (0, 0, 0, 0), refusal=3)
    it.terms["pages"] = 5
    yield it.line(OK, (3, 0, 0, 0), (EXIT, 0, 0, 0))
    for refusal, data in refused_images().items():
        it.image = data
        yield it.line(REFUSED, (0, 0, 0, 0), (0, 0, 0, 0), refusal=refusal)
    it.image = b""
    yield it.line(REFUSED, (0, 0, 0, 0), (0, 0, 0, 0), refusal=6)
