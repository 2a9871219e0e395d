"""Draws lines for drawn_maps.c: files that are opened, written, cut and mapped, and what is done to
maps."""

import pathlib
import random

DRIVER = pathlib.Path(__file__).with_name("drawn_maps.c")
PAGE, MOST, END = 4096, 5 * 4096, 6 * 4096
READ, WRITE, SHARED, PRIVATE, ANONYMOUS = 1, 2, 1, 2, 0x20
CREATE, TRUNCATE, READ_WRITE, WRITE_ONLY = 0o100, 0o1000, 2, 1


def drawn_map(source: random.Random) -> list[int]:
    """Slot of the file, protection, flags, size and offset of a map, most often a right one."""
    flags = source.choice((SHARED, SHARED, PRIVATE, PRIVATE | ANONYMOUS, SHARED | ANONYMOUS))
    at = source.randrange(3) * PAGE if not flags & ANONYMOUS else 0
    size = END - at if flags == SHARED else source.randint(1, 4 * PAGE)
    if source.random() < .12:
        flags = source.choice((flags, 0, flags & ~3))
        at += source.choice((0, 0, 1, 2048))
        size = source.choice((size, 0, 1 << 62, -1))
    return [source.randint(-1, 5), source.choice((0, READ, READ, 3, 3, 3)), flags, size, at]


def line(source: random.Random) -> list[object]:
    """An operation with its numbers."""
    choice, slot, place = source.choice, source.randrange(6), source.randrange(8)
    size = choice((0, 1, 100, PAGE, source.randint(1, 2 * PAGE)))
    at, byte = source.randint(0, MOST - size), source.randrange(256)
    pages, many = source.randrange(4) * PAGE, source.randint(1, 7) * PAGE
    numbers: dict[str, list[int]] = {
        "o": [slot, choice((0, 0, 1, 1, 2, 3)), choice((0, WRITE_ONLY, *(READ_WRITE,) * 4))
              | choice((0, CREATE, CREATE, CREATE | TRUNCATE))],
        "x": [source.randrange(3)], "w": [slot, at, size, byte], "r": [slot, at, size],
        "t": [slot, at], "k": [slot, choice((0, 1, 2)), at, size], "s": [slot], "d": [slot],
        "m": [place, *drawn_map(source)], "W": [place, source.randint(0, PAGE), size, byte],
        "R": [place, source.randint(0, PAGE), size],
        "u": [place, choice((0, 0, pages, pages + 1)),
              choice((many, many, 0, source.randint(1, END)))],
        "y": [place, choice((0, pages, 5)), choice((0, 100, PAGE)), choice((0, 1, 2, 4, 5, 6, 8))],
        "p": [place, 0, 0, choice((0, 1, 2, 3, 3, 64))],
        "a": [place, choice((0, pages)), choice((0, PAGE)), choice((0, 1, 3, 4, 4, 5, 100))],
    }
    act = choice("ooxwwwwrrrtksdmmmmmWWWWWRRRRRuuyypaa")
    return [act, *numbers[act], *[0] * (6 - len(numbers[act]))]


def lines(seed: int, count: int) -> bytes:
    """So many of them."""
    source = random.Random(f"maps {seed}")
    text = [" ".join(map(str, line(source))) for _ in range(count)]
    return "\n".join(text).encode() + b"\n"
