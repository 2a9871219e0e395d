"""The table from addresses to the numbers of blocks: two arrays, and no comparison."""

from __future__ import annotations

from collections import defaultdict
from collections.abc import Iterable, Iterator, Mapping, Sequence
from dataclasses import dataclass

PLACES = 65_536  # of instructions, after which their numbers are looked up at the first again
ROW = 256  # places with one shift
LINE = 100  # columns

TABLE = """
/// What moves the places of {row} instructions, so that no two blocks share one.
static SHIFTS: [u16; {rows}] = [
{shifts}
];

/// The number of the block that is looked up at a place, and 0 where there is none.
static NUMBERS: [u16; {count}] = [
{numbers}
];

/// The number of the block at an address.
#[inline(always)]
fn number_of(pc: u64) -> u16 {{
    let place = (pc / {bytes}) as usize;
    let shift = usize::from(SHIFTS[place / {row} % {rows}]);
    NUMBERS[(place ^ shift) % {count}]
}}
"""


@dataclass(frozen=True)
class Table:
    """A number is at its place, moved by the shift of the place's row, in as many as there are."""

    shifts: list[int]
    numbers: list[int]


def find_shift(places: Sequence[int], numbers: Sequence[int]) -> int | None:
    """A shift that moves places of a row to where there are no numbers yet."""
    count = len(numbers)
    return next((shift for shift in range(count)
                 if not any(numbers[(it ^ shift) % count] for it in places)), None)


def table_of(found: Mapping[int, int], count: int) -> Table | None:
    """The table of so many places for the numbers at some, if there is one."""
    rows: dict[int, list[int]] = defaultdict(list)
    for place in found:
        rows[place // ROW].append(place)
    table = Table([0] * (PLACES // ROW), [0] * count)
    for row, places in sorted(rows.items(), key=lambda it: (-len(it[1]), it[0])):
        shift = find_shift(places, table.numbers)
        if shift is None:
            return None
        table.shifts[row] = shift
        for place in places:
            table.numbers[(place ^ shift) % count] = found[place]
    return table


def smallest_table(found: Mapping[int, int]) -> Table:
    """The smallest table for the numbers at some places."""
    count = ROW
    while len(found) > count or (table := table_of(found, count)) is None:
        count *= 2
    return table


def lines(numbers: Iterable[int]) -> Iterator[str]:
    """The lines of an array."""
    line = "   "
    for number in numbers:
        if len(line) + len(f" {number},") > LINE:
            yield line
            line = "   "
        line += f" {number},"
    yield line


def text_of(found: Mapping[int, int], bytes_each: int) -> str:
    """The source of the table for the numbers at some places."""
    table = smallest_table(found)
    return TABLE.format(row=ROW, rows=len(table.shifts), count=len(table.numbers),
                        bytes=bytes_each, shifts="\n".join(lines(table.shifts)),
                        numbers="\n".join(lines(table.numbers)))
