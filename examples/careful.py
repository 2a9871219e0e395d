#!/usr/bin/env python3
"""Runs random programs that keep to the bytes of their chunks by `mte_run --exact`, which must say
nothing of them, and each of them once more with one access beyond a chunk's bytes that no tag
finds, which it must find.

    careful.py [--written] PROGRAM [COUNT [SEED [JOBS]]]

PROGRAM is a built mte_run. With `--written` they write out only bytes that they have read, so that
nothing they do depends on bytes that were never written. COUNT programs (1000) are drawn by SEED
(1) and run JOBS (1) at a time. A program of which something else is said than should be is kept in
the folder `careless`, and the status is 1.
"""
import concurrent.futures
import os
import pathlib
import random
import subprocess
import sys
import tempfile
from typing import Optional, Union

sys.path.insert(0, str(pathlib.Path(__file__).resolve().parent))
import build_image  # noqa: E402
import command_line  # noqa: E402

Words = list[int]
Argument = Union[int, list[int], None]  # a number, or a register in a list

SVC = 0xD4000001
WRITE, READ, MALLOC, FREE, CALLOC, REALLOC, MEMALIGN, USABLE_SIZE, EXIT = 1, 2, 3, 4, 5, 6, 7, 8, 0
SLOTS = range(19, 28)  # the registers with the pointers of chunks
EXACT = 137


def number(register: int, value: int) -> Words:
    """MOVZ and MOVKs of a number of up to 32 bits."""
    words = [0xD2800000 | (value & 0xFFFF) << 5 | register]
    if value >> 16:
        words.append(0xF2A00000 | value >> 16 << 5 | register)
    return words


def copy(to: int, register: int) -> Words:
    return [0xAA0003E0 | register << 16 | to]


def add(to: int, register: int, value: int) -> Words:
    """The register and a number of up to 24 bits, which may be negative."""
    base, value = (0x91000000, value) if value >= 0 else (0xD1000000, -value)
    words = [base | (value & 0xFFF) << 10 | register << 5 | to]
    if value >> 12:
        words.append(base | 1 << 22 | value >> 12 << 10 | to << 5 | to)
    return words


def service(which: int, first: Argument = None, second: Argument = None) -> Words:
    """A service by its number; an argument is a number, or a register in a list."""
    words: Words = []
    for register, argument in ((0, first), (1, second)):
        if isinstance(argument, list):
            words += copy(register, argument[0])
        elif argument is not None:
            words += number(register, argument)
    return words + number(8, which) + [SVC]


def access(draw: random.Random, pointer: int, offset: int, size: int) -> Words:
    """Loads or stores 2 to the power of `size` bytes at an offset from a pointer, in one of the
    forms; nothing where a pair would begin in front of the pointer."""
    load, value = draw.randrange(2), draw.randrange(10, 16)
    form = draw.randrange(6)
    head = size << 30 | 0x38000000 | load << 22 | 9 << 5 | value
    width = 1 << size
    if load and size < 3 and draw.random() < 0.3:
        head ^= 3 << 22  # it extends the sign
    if form == 0 and offset % width == 0 and offset // width < 4096:
        return [head & ~(31 << 5) | 1 << 24 | offset // width << 10 | pointer << 5]
    if form == 1 and size >= 2 and offset + 2 * width <= 1 << 16:  # the second of a pair
        pair = (0xA9000000 if size == 3 else 0x29000000) | load << 22 | 16 << 10 | 9 << 5 | value
        return [] if offset < width else add(9, pointer, offset - width) + [pair]
    if form == 2:
        back = draw.randrange(-256, 256)
        return add(9, pointer, offset - back) + [head | (back & 0x1FF) << 12]
    if form == 3:
        return add(9, pointer, offset) + [head | draw.randrange(512) << 12 | 1 << 10]
    if form == 4:
        back = draw.randrange(-256, 256)
        return add(9, pointer, offset - back) + [head | (back & 0x1FF) << 12 | 3 << 10]
    return copy(9, pointer) + number(16, offset) + [head | 1 << 21 | 16 << 16 | 3 << 13 | 2 << 10]


def drawn_size(draw: random.Random) -> int:
    kind = draw.random()
    if kind < 0.05:
        return 0
    if kind < 0.8:
        return draw.randrange(1, 200)
    return draw.randrange(1, 5000) if kind < 0.97 else draw.randrange(60_000, 300_000)


class Program:
    """The words of a program, and the chunks that it has."""

    def __init__(self, draw: random.Random, is_written: bool) -> None:
        self.draw, self.is_written = draw, is_written
        self.words: Words = []
        self.chunks: dict[int, int] = {}

    def allocate(self, slot: int) -> None:
        size = drawn_size(self.draw)
        kind = self.draw.randrange(4)
        if kind == 0:
            part = self.draw.choice([1, 1, 2, 3, 7])
            self.words += service(CALLOC, part, size // part)
            size = size // part * part
        elif kind == 1:
            self.words += service(MEMALIGN, 1 << self.draw.randrange(4, 9), size)
        else:
            self.words += service(MALLOC, size)
        self.words += copy(slot, 0)
        self.chunks[slot] = size

    def free(self, slot: int) -> None:
        self.words += service(FREE, [slot])
        del self.chunks[slot]

    def resize(self, slot: int) -> None:
        size = max(1, drawn_size(self.draw))
        self.words += service(REALLOC, [slot], size) + copy(slot, 0)
        self.chunks[slot] = size

    def touch(self, slot: int) -> None:
        size = self.chunks[slot]
        widths = [n for n in range(4) if 1 << n <= size]
        if not widths:
            return
        width = self.draw.choice(widths)
        last = size - (1 << width)
        offset = self.draw.choice([0, last, self.draw.randrange(last + 1)])
        self.words += access(self.draw, slot, offset, width)

    def serve(self, slot: int) -> None:
        size = min(self.chunks[slot], 100)
        start = self.draw.randrange(self.chunks[slot] - size + 1)
        which = self.draw.choice([WRITE, READ])
        self.words += add(17, slot, start)
        if which == WRITE and self.is_written:
            self.words += service(READ, [17], size) + copy(18, 0) + service(WRITE, [17], [18])
        else:
            self.words += service(which, [17], size)

    def act(self) -> None:
        slot = self.draw.choice(SLOTS)
        if slot not in self.chunks:
            return self.allocate(slot)
        kind = self.draw.random()
        if kind < 0.1:
            return self.free(slot)
        if kind < 0.2:
            return self.resize(slot)
        if kind < 0.25:
            self.words += service(USABLE_SIZE, [slot])
            return None
        return self.serve(slot) if kind < 0.35 else self.touch(slot)

    def err(self) -> None:
        """One access beyond the bytes of a live chunk that no tag finds: past its size in its last
        granule, or to its header by a pointer of tag 0."""
        size = self.draw.choice([n for n in range(1, 300) if n % 16])
        self.words += service(MALLOC, size) + copy(28, 0)
        kind = self.draw.randrange(4)
        if kind == 0:  # one byte
            at = self.draw.randrange(size, (size + 15) // 16 * 16)
            self.words += access(self.draw, 28, at, 0)
        elif kind == 1:  # bytes on both sides of its end
            fitting = [n for n in (1, 2, 3) if size % 16 + (1 << n) - 1 <= 16 and 1 << n <= size]
            width = self.draw.choice(fitting or [0])
            start = size - (1 << width) + 1
            self.words += add(9, 28, start) + [width << 30 | 0x39000000 | 9 << 5 | 10]
        elif kind == 2:  # a service
            self.words += service(self.draw.choice([WRITE, READ]), [28], size + 1)
        else:  # its header
            back = add(9, 9, -self.draw.randrange(1, 17))
            self.words += [0x9240DC00 | 28 << 5 | 9, *back, 0x39400000 | 9 << 5 | 10]

    def exit(self) -> None:
        self.words += service(EXIT, 0)


def program(seed: int, is_wrong: bool, is_written: bool) -> bytes:
    """The image of the program with a seed."""
    draw = random.Random(seed)
    made = Program(draw, is_written)
    wrong_at = draw.randrange(60) if is_wrong else -1
    for count in range(60):
        if count == wrong_at:
            made.err()
        made.act()
    made.exit()
    return build_image.image(made.words)


def run_one(path: str, folder: str, seed: int, wanted: int, is_written: bool) -> Optional[str]:
    """What is wrong with what is told of a program with a seed, which should end so."""
    image = os.path.join(folder, f"{seed}.{wanted}")
    with open(image, "wb") as file:
        file.write(program(seed, wanted == EXACT, is_written))
    ran = subprocess.run([path, "--exact", "--input", sys.executable, image], timeout=600,
                         stdin=subprocess.DEVNULL, stdout=subprocess.DEVNULL,
                         stderr=subprocess.PIPE, check=False)
    if ran.returncode == wanted and (wanted != 0 or not ran.stderr):
        os.remove(image)
        return None
    os.makedirs("careless", exist_ok=True)
    os.rename(image, os.path.join("careless", f"{seed}.{wanted}"))
    said = f"{ran.returncode} in place of {wanted}: {ran.stderr[:200]!r}"
    return f"careless/{seed}.{wanted}: {said}"


def run(path: str, folder: str, seed: int, is_written: bool) -> list[str]:
    """What is wrong with what is told of both programs with a seed."""
    told = [run_one(path, folder, seed, wanted, is_written) for wanted in (0, EXACT)]
    return [line for line in told if line]


def main() -> None:
    words = command_line.read_words(__doc__, 1, 4, ["--written"])
    is_written = words[0] == "--written"
    words = [word for word in words if word != "--written"]
    count, first, jobs = [int(word) for word in words[1:]] + [1000, 1, 1][len(words) - 1:]
    path = os.path.abspath(words[0])
    failed = 0
    pool = concurrent.futures.ThreadPoolExecutor(jobs)
    with tempfile.TemporaryDirectory() as folder, pool:
        seeds = range(first, first + count)
        for bad in pool.map(lambda seed: run(path, folder, seed, is_written), seeds):
            failed += bool(bad)
            print("".join(f"{line}\n" for line in bad), end="", file=sys.stderr)
    print(f"{count} careful programs and {count} with one wrong access: {failed} not told as they "
          "should be")
    sys.exit(failed != 0)


if __name__ == "__main__":
    main()
