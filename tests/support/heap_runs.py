"""The rows of heap tables, made by the library's list of heap calls and by tenants."""

from collections.abc import Iterator
from typing import NamedTuple

from tests.support.heap_tables import Row, Table
from tests.support.instructions import (
    SERVICE, add, call, copy, load, move, program, store, store_tag,
)

PLAIN, PAGE = (1 << 56) - 1, 4096
# The services of a tenant by their numbers, and the operations of a list of heap calls.
SERVICES = {"malloc": 3, "free": 4, "calloc": 5, "realloc": 6, "memalign": 7, "usable_size": 8,
            "pages_left": 11}
OPERATIONS = {"malloc": 1, "free": 2, "calloc": 3, "realloc": 4, "memalign": 5, "usable_size": 6,
              "read": 7, "peek": 7, "write": 8, "poke": 8, "tag": 9}
# Where a tenant has the number that it writes, and the tenant's other pages: four of stack.
SLOT, STACK_PAGES = 0x3FFFF000, 4
LOAD_TAG, TAG_OF_X1 = 0xD9600021, 0xD378FC20  # ldg x1, [x1]; lsr x0, x1, #56
Call = tuple[int, int, int]


class Run(NamedTuple):
    """A tenant: its image, its pages, its mode, what it writes and how it ends."""

    image: bytes
    pages: int
    asynchronous: bool
    output: bytes
    end: str


def calls_of(row: Row) -> list[Call]:
    """The heap calls of a row, but for what no list of heap calls has."""
    if row.name == "free_row":
        first, count = row.numbers
        return [(OPERATIONS["free"], first + 64 * at, 0) for at in range(count)]
    one, two = (*row.numbers, 0, 0)[:2]
    return [(OPERATIONS[row.name], one, two)] * row.times


def words_of(row: Row) -> list[int]:
    """The instructions of a row, made once; x0 is the answer."""
    numbers, name = row.numbers, row.name
    if name in SERVICES:
        return call(SERVICES[name], *numbers)
    if name == "free_row":
        first, count = numbers
        frees = [it for at in range(count) for it in call(SERVICES["free"], first + 64 * at)]
        return [*frees, *move(0, count)]
    if name == "store_tags":
        at, count, tag = numbers
        return [*move(1, at & PLAIN | tag << 56), *[store_tag(1), add(1, 1, 16)] * count,
                *move(0, 0)]
    if name == "flag":
        return move(0, 0)
    if name == "tag":
        return [*move(1, numbers[0] & PLAIN), LOAD_TAG, TAG_OF_X1]
    to_place = [*move(1, numbers[0]), *([LOAD_TAG] if name in ("peek", "poke") else [])]
    if name in ("read", "peek"):
        return [*to_place, load(0, 1)]
    return [*to_place, *move(2, numbers[1]), store(2, 1), *move(0, 0)]


def told(row: Row) -> list[int]:
    """The instructions of a row, and those that write its last answer."""
    return [*words_of(row) * row.times, store(0, 20), copy(0, 20), *move(1, 8), *move(8, 1),
            SERVICE]


def tenants_of(table: Table) -> Iterator[Run]:
    """A tenant that makes each row that is not refused and exits, and for each other row one that
    ends by it, after those before it."""
    done: list[int] = move(20, SLOT)
    output = b""
    for row in table.rows:
        if row.refusal:
            kind = "fault" if row.refusal in ("TagCheck", "Translation") else "abort"
            yield made(table, done + words_of(row), output, f"{kind} {row.refusal}")
        else:
            done, output = done + told(row), output + row.answer.to_bytes(8, "little")
    yield made(table, [*done, *call(0, 0)], output, "exit 0")


def made(table: Table, words: list[int], output: bytes, end: str) -> Run:
    """A tenant of instructions; its heap has the pages of the table."""
    pages = -(-4 * len(words) // PAGE) + STACK_PAGES + table.pages
    return Run(program(words), pages, table.asynchronous, output, end)
