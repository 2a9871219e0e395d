"""What the calls of a tagged memory must answer, by the header's comments."""

from collections.abc import Iterator

import mark
from tests.support.embedding.lines import C, NO_FAULT, NOT_RUST, Line, hexed, line, weighed

OK, FAULT, NOT_MAPPED, ALREADY_MAPPED, NO_ROOM, BAD_ARGUMENT = 0, 1, 5, 6, 7, 8
TRANSLATION, PERMISSION, TAG_CHECK, ALIGNMENT = 1, 2, 3, 4
READ, WRITE, EXEC, TAGGED = 1, 2, 4, 8
TOP = 1 << 44  # the pages of 2^56 addresses
DATA = 0x20000
SIXTEEN = bytes(range(1, 17))


def tagged(address: int, tag: int) -> int:
    """An address with a tag in bits 59 to 56."""
    return address | tag << 56


def pages() -> Iterator[Line]:
    """Mapping and unmapping, at the edges of numbers and attributes."""
    yield line("version", 2)
    lines = mark.text_of({}).decode()
    yield line("build_info", lines.splitlines()[0], len(lines))
    yield line("places 4 0", 0, 0)
    yield line(f"map 16 {READ | EXEC}", OK)
    yield line(f"map 32 {READ | WRITE | TAGGED}", OK)
    yield line(f"map 32 {READ}", ALREADY_MAPPED)
    yield line("map 1 16", BAD_ARGUMENT)
    yield line("map 1 0xffffffff", BAD_ARGUMENT)
    yield line(f"map {TOP} 1", BAD_ARGUMENT)
    yield line("map 0xffffffffffffffff 1", BAD_ARGUMENT)
    yield line(f"map {TOP - 1} {READ}", OK)
    yield line("map 48 15", OK)
    yield line("map 49 1", NO_ROOM)
    yield line("unmap 48", OK)
    yield line("unmap 48", NOT_MAPPED)
    yield line("unmap 0xffffffffffffffff", NOT_MAPPED)
    yield line("place 0", 16, 1, READ | EXEC, 0, 0)
    yield line("place 2", TOP - 1, 1, READ, 0, 0)
    yield line("load 0x10000 0102030405", OK)
    yield line("place 0", 16, 1, READ | EXEC, weighed(bytes([1, 2, 3, 4, 5])), 0)
    yield line("load 0x10ffc 0102030405060708", NOT_MAPPED)
    yield line("load 0x10000 -", OK)
    yield line("load 0x999000 -", OK)
    # Behind the last address comes 0, whose page is not mapped.
    yield line("load 0xfffffffffffffc 01020304", OK)
    yield line("load 0xfffffffffffffc 0102030405", NOT_MAPPED)


def accesses() -> Iterator[Line]:
    """Reads and writes, over the pages of `pages`: attributes, bytes, faults."""
    yield line("write 0x10000 1 01", FAULT, 0x10000, PERMISSION, 1, 0, 0, 0)
    yield line(f"write {DATA} 1 {hexed(SIXTEEN)}", OK, *NO_FAULT, 0)
    yield line(f"read {DATA} 1 16", OK, *NO_FAULT, hexed(SIXTEEN), 0)
    yield line(f"read {DATA + 4} 1 3", OK, *NO_FAULT, "050607", 0)
    yield line("read 0x10000 1 5", OK, *NO_FAULT, "0102030405", 0)
    yield line("read 0x60000 1 2", FAULT, 0x60000, TRANSLATION, 0, 0, 0, "0000", 0)
    yield line("write 0x60000 1 01", FAULT, 0x60000, TRANSLATION, 1, 0, 0, 0)
    yield line("read 0x60000 1 0", OK, *NO_FAULT, "-", 0)
    yield line("write 0x60000 1 -", OK, *NO_FAULT, 0)
    # The first byte that fails is told, and nothing is written.
    yield line(f"write {DATA + 4090} 1 {'77' * 8}", FAULT, DATA + 4096, TRANSLATION, 1, 0, 0, 0)
    yield line("place 1", 32, 1, 11, weighed(SIXTEEN), 0)
    # The high bits of an address are its tag and bits that pass.
    yield line(f"read {DATA | 0xf0 << 56} 1 2", OK, *NO_FAULT, "0102", 0)


def tags() -> Iterator[Line]:
    """Tags in the synchronous mode, over the pages of `pages`."""
    whole = SIXTEEN + SIXTEEN
    yield line(f"store_tags {DATA} 2 5 0", OK, *NO_FAULT)
    yield line(f"store_tags {DATA + 8} 1 5 0", FAULT, DATA + 8, ALIGNMENT, 1, 0, 0)
    yield line(f"store_tags {DATA} 1 16 0", BAD_ARGUMENT, *NO_FAULT)
    yield line(f"store_tags {DATA} 1 255 0", BAD_ARGUMENT, *NO_FAULT)
    yield line(f"store_tags {DATA} 0 7 0", OK, *NO_FAULT)
    yield line("store_tags 0x10000 1 7 0", FAULT, 0x10000, PERMISSION, 1, 0, 0)
    for granules in (257, 0xFFFFFFFFFFFFFFFF):
        yield line(f"store_tags {DATA} {granules} 7 0", FAULT, DATA + 4096, TRANSLATION, 1, 0, 0)
    yield line("place 1", 32, 1, 11, weighed(SIXTEEN), weighed(bytes([5, 5])))
    yield line(f"load_tag {DATA + 31}", OK, 5, *NO_FAULT)
    yield line(f"load_tag {DATA + 32}", OK, 0, *NO_FAULT)
    yield line("load_tag 0x10000", OK, 0, *NO_FAULT)
    yield line("load_tag 0x60000", FAULT, 0xEE, 0x60000, TRANSLATION, 0, 0, 0)
    yield line(f"write {tagged(DATA, 5)} 1 {hexed(whole)}", OK, *NO_FAULT, 0)
    yield line(f"read {tagged(DATA + 8, 5)} 1 16", OK, *NO_FAULT, hexed(whole[8:24]), 0)
    yield line(f"read {tagged(DATA, 6)} 1 3", FAULT, DATA, TAG_CHECK, 0, 6, 5, "000000", 0)
    yield line(f"write {tagged(DATA + 16, 5)} 1 {'99' * 17}", FAULT, DATA + 32, TAG_CHECK, 1, 5, 0,
               0)
    yield line(f"read {tagged(DATA, 6)} 0 3", OK, *NO_FAULT, "010203", 0, languages=NOT_RUST)
    yield line(f"write {tagged(DATA + 32, 6)} 0 aa", OK, *NO_FAULT, 0, languages=NOT_RUST)
    yield line(f"store_tags {DATA + 32} 1 9 1", OK, *NO_FAULT, languages=NOT_RUST)
    yield line(f"read {DATA + 32} 0 1", OK, *NO_FAULT, "00", 0, languages=NOT_RUST)
    yield line(f"load_tag {DATA + 47}", OK, 9, *NO_FAULT, languages=NOT_RUST)


def asynchronous() -> Iterator[Line]:
    """The asynchronous mode: a tag that differs sets the flag, and fails no access."""
    yield line("places 2 1", 1, 0)
    yield line(f"map 32 {READ | WRITE | TAGGED}", OK)
    yield line(f"store_tags {DATA} 1 5 0", OK, *NO_FAULT)
    yield line(f"write {tagged(DATA, 5)} 1 01", OK, *NO_FAULT, 0)
    yield line(f"read {tagged(DATA, 4)} 1 1", OK, *NO_FAULT, "01", 1)
    yield line(f"read {tagged(DATA, 5)} 1 1", OK, *NO_FAULT, "01", 1)
    yield line("read 0x60000 1 1", FAULT, 0x60000, TRANSLATION, 0, 0, 0, "00", 1)
    yield line(f"map 33 {WRITE}", OK)
    yield line("read 0x21000 1 1", FAULT, 0x21000, PERMISSION, 0, 0, 0, "00", 1)
    yield line("load_tag 0x21000", FAULT, 0xEE, 0x21000, PERMISSION, 0, 0, 0)


def no_places() -> Iterator[Line]:
    """A memory of no places, which is lent by a pointer that is not null."""
    yield line("places 0 0", 0, 0)
    yield line("map 1 1", NO_ROOM)
    yield line("unmap 1", NOT_MAPPED)
    yield line("load 0 01", NOT_MAPPED)
    yield line("load 0 -", OK)
    yield line("read 0 1 1", FAULT, 0, TRANSLATION, 0, 0, 0, "00", 0)
    yield line("write 0 1 01", FAULT, 0, TRANSLATION, 1, 0, 0, 0)
    yield line("load_tag 0", FAULT, 0xEE, 0, TRANSLATION, 0, 0, 0)
    yield line("store_tags 0 1 1 0", FAULT, 0, TRANSLATION, 1, 0, 0)
    yield line("range 5 0 1", OK)
    yield line("range 5 1 1", NO_ROOM)
    yield line("peek 0 8", 0)
    yield line("place_of 0", 0, languages=C)


def ranges() -> Iterator[Line]:
    """The header's functions over places: ranges, places, numbers, attributes."""
    yield line("places 6 0", 0, 0)
    yield line("range 16 2 1", OK)
    yield line("range 15 2 1", ALREADY_MAPPED)
    yield line("range 17 1 1", ALREADY_MAPPED)
    yield line("unmap 15", NOT_MAPPED)
    yield line("range 18 5 1", NO_ROOM)
    yield line("range 18 0 1", OK)
    # The pages just in front of those that are mapped are free.
    yield line("range 14 2 1", OK)
    yield line("unmap 14", OK)
    yield line("unmap 15", OK)
    for first, length, attrs, answer in (
        (TOP - 1, 2, 1, BAD_ARGUMENT), (TOP, 1, 1, BAD_ARGUMENT), (TOP + 1, 0, 1, BAD_ARGUMENT),
        (0, (1 << 64) - 1, 1, BAD_ARGUMENT), (0, TOP, 1, ALREADY_MAPPED), (40, 1, 16, BAD_ARGUMENT),
        (TOP, 0, 1, OK), (40, 0, 16, BAD_ARGUMENT), (1 << 63, 1, 1, BAD_ARGUMENT),
    ):
        yield line(f"range {first} {length} {attrs}", answer)
    yield line(f"range {TOP - 2} 2 {READ}", OK)
    yield line("load 0x10ffe 0102030405060708", OK)
    yield line("peek 0x10ffe 8", 0x0807060504030201)
    yield line("peek 0x10ffe 3", 0x030201)
    yield line("peek 0x10ffe 100", 0x0807060504030201)
    yield line("peek 0x10ffe 0", 0)
    yield line("peek 0xf500000000011001 2", 0x0504)
    yield line("peek 0x11fff 2", 0)
    yield line("load 0xfffffffffffffe 0605", OK)
    yield line("peek 0xfffffffffffffe 8", 0x0506)
    yield line("place_of 0x10fff", 0, languages=C)
    yield line("place_of 0xab00000000011000", 1, languages=C)
    yield line("place_of 0xfffffffffff000", 3, languages=C)
    yield line("place_of 0x12000", 6, languages=C)
    # A place that is free again keeps its number, and is nobody's page.
    yield line(f"unmap {TOP - 1}", OK)
    yield line("peek 0xffffffffffffe000 2", 0)
    yield line("place_of 0xfffffffffff000", 6, languages=C)
    yield line(f"map {TOP - 1} 1", OK)
    yield line("withhold", 0x10, 0x10, 0x10, 0x10, 0, 0, languages=C)
    yield line("give_back", 1, 1, 1, 1, 0, 0, languages=C)
    yield line("map 99 15", OK, languages=C)
    yield line("withhold", 0x10, 0x10, 0x10, 0x10, 0xF4, 0, languages=C)
    yield line("read 0x63000 0 1", FAULT, 0x63000, PERMISSION, 0, 0, 0, "00", 0, languages=C)
    yield line("give_back", 1, 1, 1, 1, 15, 0, languages=C)
