"""`mte_run --check=undefined` bit by bit: which bits of a result were never given, and which bytes
of a chunk."""

import json
import pathlib
import random
import re
from collections.abc import Sequence

import pytest

from tests.support.instructions import SERVICE, Words, call, copy, load, load_byte
from tests.support.instructions import move, program, store_byte
from tests.support.running import Ran, run

EXIT, WRITE, MALLOC, CALLOC, REALLOC = 0, 1, 3, 5, 6
ALL = (1 << 64) - 1
ADD, SUB, AND, ORR, MUL = 0x8B000000, 0xCB000000, 0x8A000000, 0xAA000000, 0x9B007C00
CLZ = 0xDAC01000
FINDING = "  whether it branches depends on them\n"


def checked(alone: pathlib.Path, folder: pathlib.Path, *parts: Words) -> Ran:
    """What is said of a tenant of instructions."""
    path = folder / "tenant.elf"
    path.write_bytes(program(*parts, call(EXIT, 0)))
    return run([alone, "--check=undefined", path])


def by(operation: int, target: int, left: int, right: int) -> int:
    """An instruction of two registers and a result."""
    return operation | right << 16 | left << 5 | target


def branch_by_bit(register: int, bit: int) -> int:
    """TBZ of a bit, to the next instruction."""
    return 0x36000020 | bit >> 5 << 31 | bit % 32 << 19 | register


def compare_with_zero(register: int) -> int:
    """CBZ, to the next instruction."""
    return 0xB4000020 | register


def operand(register: int, value: int, undefined: int) -> list[Words]:
    """A register with bits of a chunk that was not written: a mask defines the others as 0, and a
    sum of masks those of a value as 1."""
    defined = value & ~undefined
    return [load(register, 9), move(10, undefined), by(AND, register, register, 10),
            move(10, defined), by(ORR, register, register, 10)]


SOME = (0b0110, 0b0010)
ZERO, ONE = (0, 0), (1, 0)
# An operation, its operands as values and undefined bits, and the undefined bits of the result.
RESULTS = (
    ("sum", ADD, SOME, ONE, 0b0010), ("sum with carry", ADD, SOME, (0b0010, 0), 0b1110),
    ("difference", SUB, SOME, ONE, 0b0110), ("and", AND, SOME, (0b0100, 0), 0),
    ("or", ORR, SOME, (0b0010, 0), 0), ("or of others", ORR, SOME, ONE, 0b0010),
    ("product by zero", MUL, SOME, ZERO, 0), ("product", MUL, SOME, ONE, ALL - 1),
    ("zeros, 8", CLZ, (1 << 55, 1 << 54 | 1), ZERO, 0),
    ("zeros, 8 to 10", CLZ, (1 << 53, 3 << 54), ZERO, 3),
)


@pytest.mark.parametrize(("operation", "left", "right", "undefined"),
                         [it[1:] for it in RESULTS], ids=[it[0] for it in RESULTS])
def test_bits_of_results(alone: pathlib.Path, tmp_path: pathlib.Path, operation: int,
                         left: tuple[int, int], right: tuple[int, int], undefined: int) -> None:
    """A branch by an undefined bit is reported, and one by all the others is not. (Of a product
    three of 63 bits are tried.)"""
    made: list[Words] = [call(MALLOC, 24), copy(9, 0), *operand(1, *left), *operand(2, *right),
                         operation | 1 << 5 | 4 if operation == CLZ else by(operation, 4, 1, 2)]
    others: list[Words] = [move(10, ALL & ~undefined), by(AND, 5, 4, 10), compare_with_zero(5)]
    ran = checked(alone, tmp_path, *made, *others)
    assert ran.status == 0 and "Cause" not in ran.errors, ran.errors
    bits = [bit for bit in range(64) if undefined >> bit & 1]
    for bit in bits if len(bits) < 5 else (bits[0], bits[1], bits[-1]):
        ran = checked(alone, tmp_path, *made, branch_by_bit(4, bit))
        assert ran.status == 137 and FINDING in ran.errors, (bit, ran.errors)


# A chunk over two pages; the stores of zeros are aligned, as STRB, STRH, STR of 32 and 64 bits.
SIZE = 0x2100
STORES = {1: 0x39000000, 2: 0x79000000, 4: 0xB9000000, 8: 0xF9000000}


def stores(ranges: Sequence[tuple[int, int]]) -> list[Words]:
    """Zeros to ranges of bytes of the chunk: the places and how many bytes, a power of two."""
    made: list[Words] = []
    for at, size in ranges:
        made += [move(10, at), by(ADD, 11, 9, 10), STORES[size] | 11 << 5 | 31]
    return made


def test_bytes_of_a_chunk(alone: pathlib.Path, tmp_path: pathlib.Path) -> None:
    """Bytes that were written are defined, and no others: drawn stores, and drawn loads of eight
    bytes, also over the end of a page. Each byte is looked at."""
    drawn = random.Random(4)
    middles = (40, 0x1000 - 0x10, 0x1000 - 0x13, 0x20C0, *drawn.sample(range(40, SIZE - 40), 4))
    for middle in middles:
        ranges = [(middle + drawn.randrange(-24, 16), drawn.choice((1, 2, 4, 8)))
                  for _ in range(5)]
        written = {at + it for at, size in ranges for it in range(size)}
        place = middle + drawn.randrange(-16, 8)
        made: list[Words] = [call(MALLOC, SIZE), copy(9, 0), *stores(ranges), move(10, place),
                             by(ADD, 11, 9, 10), load(1, 11)]
        for byte in range(8):
            mask: list[Words] = [move(10, 0xFF << 8 * byte), by(AND, 5, 1, 10)]
            ran = checked(alone, tmp_path, *made, *mask, compare_with_zero(5))
            is_reported = FINDING in ran.errors
            assert is_reported == (place + byte not in written), (ranges, place, byte, ran.errors)


@pytest.mark.parametrize("size", [32, 2000])
def test_bytes_of_a_chunk_that_was_made_larger(alone: pathlib.Path, tmp_path: pathlib.Path,
                                               size: int) -> None:
    """In its place or in another, what was written is defined, and nothing else."""
    made: list[Words] = [call(MALLOC, 24), copy(9, 0), *stores([(0, 8), (16, 4)]), copy(0, 9),
                         move(1, size), move(8, REALLOC), SERVICE, copy(9, 0)]
    for place, is_reported in ((0, False), (8, True), (16, True), (24, True), (size - 8, True)):
        ran = checked(alone, tmp_path, *made, load(1, 9, place), compare_with_zero(1))
        assert (FINDING in ran.errors) == is_reported, (place, ran.errors)
    for place, is_reported in ((15, True), (16, False), (19, False), (20, True)):
        ran = checked(alone, tmp_path, *made, load_byte(1, 9, place), compare_with_zero(1))
        assert (FINDING in ran.errors) == is_reported, (place, ran.errors)


def test_the_first_byte_that_is_written_out(alone: pathlib.Path, tmp_path: pathlib.Path) -> None:
    """Output with a byte that was never given has the address of the first such byte."""
    for written in (0, 1, 7, 8, 15, 16):
        zeros = stores([(at, 1) for at in range(written)])
        text: list[Words] = [copy(0, 9), move(1, 16), move(8, WRITE), SERVICE]
        ran = checked(alone, tmp_path, call(MALLOC, 24), copy(9, 0), *zeros, *text)
        if written == 16:
            assert ran.status == 0 and "Cause" not in ran.errors, ran.errors
            continue
        chunk = re.search(r"of a 24-byte allocation at 0x([0-9a-f]+)", ran.errors)
        place = re.search(r"^0x([0-9a-f]+) is in ", ran.errors, re.M)
        assert "  what it writes out depends on them\n" in ran.errors and chunk and place
        assert int(place[1], 16) == (int(chunk[1], 16) & (1 << 56) - 1) + written


def test_the_first_byte_of_long_output(alone: pathlib.Path, tmp_path: pathlib.Path) -> None:
    """The same over up to ten pages, in which two bytes were never given, from any byte on."""
    source, path, told = random.Random(9), tmp_path / "tenant.elf", tmp_path / "told.json"
    ends = set()
    for _ in range(60):
        size = source.randrange(5_000, 40_000)
        pages = range(4_096, size, 4_096)
        holes = sorted({source.choice(pages) - source.choice((1, 17)), source.randrange(size)})
        start = source.choice((0, holes[0], source.randrange(size)))
        count = source.randrange(size - start + 1)
        made: list[Words] = [call(MALLOC, 16), copy(20, 0), call(CALLOC, 1, size), copy(9, 0),
                             load_byte(1, 20)]
        for hole in holes:
            made += [move(10, hole), by(ADD, 11, 9, 10), store_byte(1, 11)]
        path.write_bytes(program(*made, move(10, start), by(ADD, 0, 9, 10), move(1, count),
                                 move(8, WRITE), SERVICE, call(EXIT, 0)))
        ran = run([alone, "--check=undefined", "--services", "--json", told, path])
        chunk = re.search(r"calloc\(.*\) = 0x([0-9a-f]+)", ran.errors)
        status = json.loads(told.read_text(encoding="utf-8"))["status"]
        first = next((hole for hole in holes if start <= hole < start + count), None)
        ends.add((status["kind"], first in holes[:1]))
        assert chunk and (status["kind"] == "check") == (first is not None), (holes, start, count)
        if first is not None:
            assert int(status["address"], 16) == (int(chunk[1], 16) & (1 << 56) - 1) + first
    assert ends == {("check", True), ("check", False), ("exit", False)}
