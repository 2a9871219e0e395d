"""Worked images and programs: what is refused, what a tenant's pages are, over the library's plain
memory and over the frames of a host."""

import base64
import pathlib
import re
import struct
import zlib
from collections.abc import Sequence
from typing import NamedTuple

import pytest

from tests.support import small_programs
from tests.support.host_sessions import admission
from tests.support.instructions import (
    SERVICE, Words, add, call, copy, jump_not_equal, load, move, program, store, store_pair,
    store_tag,
)
from tests.support.running import run
from tests.test_python_package import told

PAGE = 4096
READ_EXECUTE, READ_WRITE = 5, 6
# A static volatile array of four numbers, of which the first is 0x0123456789abcdef; their sum is
# stored behind them and is the exit status. By gcc 12.2.0 for aarch64-linux-gnu, -O1, with .data at
# 0x12000 (0x20 bytes in the file, 0x12e0 in memory). Compressed, in base 85.
SMALL = zlib.decompress(base64.b85decode(
    b"c-"
    b"pIX^>JfjWMqH=CWh?{5FUhdfQn}zlmNvn7?^=1D+3Ey6)O<GfXgzX&^AyWjAlWSWdmXjm~sV16j}i){6Gjob3pll"
    b"PfJqR7>EY~2>UJo&77#n;P8`)#o;G2hr>?>9w265?p9=A>ISOl2B}eOV3?>7!}*gz#$gf%L&GJY*cFie_h(mkrn@"
    b"RLGC|E_M)MDYUU5coNl{5+5`$hzYDEcyUP@v~B7<I1aWMlm05?*YA&2h^wD4s>cNY{0LUq904GU*j_$#2P=Ro6&L"
    b"&aeF6`=Y(p!yF8;n$C1Hxhv9m%*YQ82|vG|0nJ"
))


class Segment(NamedTuple):
    """A program header: its kind, and what it says."""

    flags: int
    offset: int
    address: int
    in_file: int
    in_memory: int


def text_of(count: int) -> Segment:
    """The first segment of `count`: the words of HI."""
    return Segment(READ_EXECUTE, 64 + 56 * count, 0x10000, 36, 36)


def zeros(address: int, size: int) -> Segment:
    """A segment without bytes in the file."""
    return Segment(READ_WRITE, 0, address, 0, size)


def image(*segments: Segment) -> bytes:
    """A file of headers and the words of HI."""
    first = struct.pack("<16sHHIQQQIHHHHHH", b"\x7fELF\2\1\1", 2, 183, 1, 0x10000, 64, 0, 0, 64, 56,
                        len(segments), 0, 0, 0)
    headers = [struct.pack("<IIQQQQQQ", 1, it.flags, it.offset, it.address, it.address, it.in_file,
                           it.in_memory, 1) for it in segments]
    return first + b"".join(headers) + struct.pack("<9I", *small_programs.HI)


def with_bytes(file: bytes, at: int, data: bytes) -> bytes:
    """A file with other bytes at a place."""
    return file[:at] + data + file[at + len(data):]


HI = image(text_of(1))
OUTSIDE = Segment(READ_WRITE, (1 << 64) - 1, 0x20000, 1, 1)
# Files, and why they are refused; those that are not name nothing.
FILES = [
    *((HI[:at], "Short") for at in range(64)),
    *((HI[:at], "BadHeaders") for at in range(64, 120)),
    *((HI[:at], "SegmentRange") for at in range(120, 156)),
    (HI, ""),
    (with_bytes(HI, 16, b"\3"), "NotExec"),
    (with_bytes(HI, 32, b"\xff" * 8), "BadHeaders"),
    (image(text_of(2), zeros(0x10800, 1)), "Overlap"),
    (image(text_of(2), zeros(0x0FFFF000, 0x1001)), "SegmentRange"),
    (image(text_of(2), OUTSIDE), "SegmentRange"),
    (image(text_of(2), zeros(0x10800, 0)), ""),
    (image(text_of(2), zeros(0x0FFFF000, 0x1000)), ""),
    (image(text_of(2), OUTSIDE._replace(in_file=0)), ""),
]


def test_files(shared: pathlib.Path, host: pathlib.Path, tmp_path: pathlib.Path) -> None:
    """Files that end before their last byte, wrong file headers, second segments: the library and
    the host refuse the same, and permit the same."""
    assert len(HI) == 156
    assert told(shared, f"""
for file, why in {FILES!r}:
    said = refused(lambda: alone(file, pages=8), Refused) if why else alone(file, pages=8).output
    assert said == (why or b"Hi"), (file, why)
""") == ""
    lines, wanted = [], []
    for number, (file, why) in enumerate(FILES, 1):
        (tmp_path / str(number)).write_bytes(file)
        lines.append(f"{admission(number, number, pages=8)}\nstop {number}\n")
        if why:
            wanted += [f"refused {2 * number - 1} Image {why}", f"refused {2 * number} NotLive"]
    (tmp_path / "script").write_text("".join(lines))
    names = [str(number) for number in range(1, len(FILES) + 1)]
    ran = run([host, "--frames", "17", "script", *names], cwd=tmp_path)
    assert (ran.status, ran.errors) == (0, "")
    assert re.findall("^refused.*", ran.output, re.M) == wanted


def test_pages_of_two_segments(shared: pathlib.Path) -> None:
    """Text, data with eight bytes of the file (the first program header's type and flags), and
    zeros to the end of their pages."""
    file = image(text_of(2), Segment(READ_WRITE, 64, 0x11000, 8, 0x2000))
    assert told(shared, f"""
machine = Machine({file!r}, pages=8)
assert machine.regs.pc == 0x10000 and sum(it.length for it in machine.regions()) == 7 * 4096
assert [(it.address, it.length, int(it.attrs)) for it in machine.regions()[:2]] == [
    (0x10000, 0x1000, R | X), (0x11000, 0x2000, R | W | T)], machine.regions()
for at, wanted in ((0x10000, 0xd2a00020), (0x1001c, 0xd4000001), (0x10024, 0), (0x10020, 0x6948),
                   (0x10028, 0), (0x11000, 1), (0x11004, 5), (0x11008, 0), (0x12ffc, 0)):
    assert int.from_bytes(machine.read(at, 4), "little") == wanted, hex(at)
""") == ""


def test_a_compiled_program(shared: pathlib.Path, host: pathlib.Path,
                            tmp_path: pathlib.Path) -> None:
    """Text and data as objdump -s shows them, and zeros behind the data; it exits with its sum."""
    assert len(SMALL) == 680
    assert told(shared, f"""
machine = Machine({SMALL!r}, pages=8)
assert machine.regs.pc == 0x10000 and sum(it.length for it in machine.regions()) == 7 * 4096
for at, wanted in (
    (0x10000, 0xd0000001), (0x10018, 0x8b030000), (0x1002c, 0xf9095c20), (0x10038, 0xd4000001),
    (0x1003c, 0), (0x12000, 0x89abcdef), (0x12004, 0x01234567), (0x12008, 2), (0x12010, 3),
    (0x12018, 4), (0x12020, 0), (0x132d8, 0), (0x13ff8, 0),
):
    assert int.from_bytes(machine.read(at, 4), "little") == wanted, hex(at)
assert machine.slice(100).number == 0xf8
assert int.from_bytes(machine.read(0x132d8, 8), "little") == 0x0123456789abcdef + 9
""") == ""
    (tmp_path / "small").write_bytes(SMALL)
    (tmp_path / "script").write_text(f"{admission(1, pages=8)}\nslice 1 100\n")
    ran = run([host, "--frames", "17", "script", "small"], cwd=tmp_path)
    assert "status exit 248\n" in ran.output, ran.output + ran.errors


# ---- Pages over frames. The pages 512 and 1023 of a table and its last one, and more pages in a
# row than a lookaside buffer of 64 holds.
AREAS = ((0x200000, 70), (0x3FF000, 1), (0x3FFFC000, 4))
TAGGED = 15 << 56
FIRST_TAG, SUM = 0xD9600025, 0xAA0500C6  # ldg x5, [x1]; orr x6, x6, x5
COMPARE = 0xEB03003F  # cmp x1, x3


def for_each_granule(area: tuple[int, int], tag: int, *body: Words) -> list[int]:
    """A loop over the granules of pages, whose address is in x1."""
    start, pages = area
    words = [it for part in body for it in ([part] if isinstance(part, int) else part)]
    words += [add(1, 1, 16), COMPARE]
    return [*move(1, start | tag), *move(3, start + pages * PAGE | tag), *words,
            jump_not_equal(-len(words))]


def filled(value: int) -> list[Words]:
    """Stores a number and the tag 15 to each granule."""
    return [move(2, value), *(for_each_granule(it, TAGGED, store_tag(1), store_pair(2, 2, 1))
                              for it in AREAS)]


def summed(value: int, tag: int) -> list[Words]:
    """Exits with 0 where each granule has a number and a tag."""
    body: list[Words] = [move(5, 0), FIRST_TAG, move(7, tag), 0xCA0700A5, SUM,  # eor x5, x5, x7
                         load(5, 1), 0xCA0200A5, SUM, load(5, 1, 8), 0xCA0200A5, SUM]
    return [move(6, 0), move(2, value), *(for_each_granule(it, tag, *body) for it in AREAS)]


EXIT_BY_SUM: list[Words] = [0xF10000DF, 0x9A9F07E0, move(8, 0), SERVICE]  # cmp x6, #0; cset ne


def areas_of(*parts: Words) -> bytes:
    """An image with the areas that are not the stack."""
    return program(*parts, data=[(at, pages * PAGE) for at, pages in AREAS[:2]])


ZEROS = areas_of(*summed(0, 0), *EXIT_BY_SUM)
FILLS = areas_of(*filled((1 << 64) - 1), call(9), *summed((1 << 64) - 1, TAGGED), *EXIT_BY_SUM)
OTHER = areas_of(*summed(0, 0), call(9), *filled(0x1111), *summed(0x1111, TAGGED), *EXIT_BY_SUM)
PAGES = 70 + 1 + 4 + 1


def statuses(host: pathlib.Path, folder: pathlib.Path, frames: int, files: Sequence[bytes],
             script: str) -> list[str]:
    """How the tenants of a session end."""
    for number, file in enumerate(files, 1):
        (folder / str(number)).write_bytes(file)
    (folder / "script").write_text(script)
    names = [str(number) for number in range(1, len(files) + 1)]
    ran = run([host, "--frames", str(frames), "script", *names], cwd=folder)
    assert (ran.status, ran.errors) == (0, "")
    return re.findall("^(?:status|refused) (.*)", ran.output, re.M)


def test_frames_come_back_zero(host: pathlib.Path, tmp_path: pathlib.Path) -> None:
    """Bytes and tags that a tenant leaves in all its pages are not in those of the next, which gets
    the same frames; and a tenant alone begins with zeros."""
    script = "".join(f"{admission(it, it, PAGES)}\nslice {it} 1000000\n" +
                     f"slice {it} 1000000\nstop {it}\n" for it in (1, 2, 3))
    assert statuses(host, tmp_path, 2 * PAGES + 1, [ZEROS, FILLS, ZEROS], script) == [
        "exit 0", "exit 0", "exit 0"]


def test_tenants_keep_their_pages(host: pathlib.Path, tmp_path: pathlib.Path) -> None:
    """Two tenants with the same addresses, in turns: each has what it wrote, whatever the other
    writes there; one more is refused as long as both have all frames, and then has zeros."""
    script = (f"{admission(1, 1, PAGES)}\n{admission(2, 2, PAGES)}\n{admission(3, 3, PAGES)}\n"
              "slice 1 1000000\nslice 2 1000000\nslice 2 1000000\nslice 1 1000000\n"
              f"stop 1\n{admission(4, 3, PAGES)}\nslice 4 1000000\n")
    assert statuses(host, tmp_path, 4 * PAGES + 2, [FILLS, OTHER, ZEROS], script) == [
        "3 NoFrames", "exit 0", "exit 0", "exit 0"]


# A program of few instructions over a frame, and how it ends.
FAULTS: dict[str, tuple[list[Words], str]] = {
    "a write to text": ([move(1, 0x10000), store(1, 1)],
                        "fault Permission write addr 0x0000000000010000"),
    "instructions in data": ([move(1, 0x200000), 0xD61F0020],
                             "fault Permission read addr 0x0000000000200000"),
    "behind its segment": ([move(1, 0x200000 + 70 * PAGE), load(1, 1)],
                           "fault Translation read addr 0x0000000000246000"),
    "below its stack": ([move(1, 0x3FFFBFF8), load(1, 1)],
                        "fault Translation read addr 0x000000003fffbff8"),
    "a granule with another tag": (
        [move(1, TAGGED | 0x200000), store_tag(1), add(1, 1, 12), store(1, 1)],
        "fault TagCheck write addr 0x0000000000200010"),
}


@pytest.mark.parametrize("name", FAULTS)
def test_faults_over_frames(host: pathlib.Path, tmp_path: pathlib.Path, name: str) -> None:
    """Attributes of pages, pages that are not mapped, and tags."""
    words, wanted = FAULTS[name]
    script = f"{admission(1, 1, PAGES)}\nslice 1 100\n"
    found = statuses(host, tmp_path, 2 * PAGES + 1, [areas_of(*words)], script)
    assert len(found) == 1 and found[0].startswith(wanted), found


def test_memory_over_frames_is_the_plain_one(shared: pathlib.Path, host: pathlib.Path,
                                             tmp_path: pathlib.Path) -> None:
    """A tenant writes out its page of text and its data: the same bytes as over a plain memory."""
    file = program(call(1, 0x10000, PAGE), call(1, 0x3FFFC000, 4 * PAGE), call(0, 0))
    output = file[120:].ljust(PAGE, b"\0") + bytes(4 * PAGE)
    (tmp_path / "1").write_bytes(file)
    (tmp_path / "script").write_text(f"{admission(1, room=65536)}\nslice 1 100\n")
    ran = run([host, "--frames", "11", "script", "1"], cwd=tmp_path)
    assert f"output {len(output)} {output.hex()}\n" in ran.output
    assert told(shared, f"assert alone({file!r}).output == {output!r}\n") == ""


def test_words_at_the_same_addresses(host: pathlib.Path, tmp_path: pathlib.Path) -> None:
    """Tenants in turns with other words at the same addresses: each does what its own are."""
    files = [program(move(9, 0), move(10, 30), add(9, 9, it), 0xF100054A, jump_not_equal(-2),
                     copy(0, 9), move(8, 0), SERVICE) for it in (1, 2, 3)]
    script = "".join(f"{admission(it, it)}\n" for it in (1, 2, 3))
    script += "slice 1 4\nslice 2 6\nslice 3 5\n" * 30
    assert statuses(host, tmp_path, 33, files, script) == ["exit 30", "exit 60", "exit 90"]


# ---- What mte_run tells.


@pytest.mark.parametrize(("opcode", "wide", "said"), [
    (2, 0, "divides by 0"), (3, 1, ""), (8, 0, ""), (10, 1, "shift"), (11, 1, ""),
])
def test_operands_without_a_result(alone: pathlib.Path, tmp_path: pathlib.Path, opcode: int,
                                   wide: int, said: str) -> None:
    """UDIV, SDIV, LSL, ASR and ROR of 7 by 2^32, of 32 and of 64 bits."""
    word = 0x1AC00000 | wide << 31 | 2 << 16 | opcode << 10 | 1 << 5
    file = tmp_path / "tenant"
    file.write_bytes(program(move(1, 7), move(2, 1 << 32), word, call(0, 0)))
    ran = run([alone, "--check=arithmetic", file])
    assert (ran.status, "Undefined Arithmetic" in ran.errors) == ((137, True) if said
                                                                 else (0, False)), ran.errors
    assert said in ran.errors.lower()


def test_a_title_that_is_escaped(alone: pathlib.Path, tmp_path: pathlib.Path) -> None:
    """The name of an image, and what would be markup in a picture."""
    file, drawn = tmp_path / "a<b> & \1c", tmp_path / "heap.svg"
    file.write_bytes(program(call(3, 24), call(0, 0)))
    assert run([alone, "--map", drawn, file]).status == 0
    text = drawn.read_text(encoding="utf-8")
    assert "a&lt;b&gt; &amp; ?c" in text and "a<b>" not in text


# What a picture has of an access past a chunk of class 2, whose granules 1 and 2 have its tag, in
# its own row: tags, blocks, the chunk, the mark, and a label. A granule is 16 units wide.
OF_A_CHUNK = (
    ">0x12000000</text>", ">class 2</text>", ">0x12000000 to 0x12001000: 1 page, class 2</text>",
    '<use href="#t0" x="0"/><use href="#t1" x="16"/><use href="#t1" x="32"/>'
    '<use href="#t0" x="48"/>',
    'M0,-2v22M64,-2v22M128,-2v22"/>', '<rect class="live" y="1" height="16" x="24" width="32"/>',
    '<rect class="mark" x="48" y="-1" width="16" height="20"/>',
    '<path class="mark" d="M56,-2v-12"/><g transform="translate(0 -32)">'
    '<use href="#t1" x="48"/></g>',
    '<text class="says" x="70" y="-19">access at 0x12000038 with tag 0x1, memory has 0x0</text>',
    '<text class="label" y="28">#1 24 B</text>', ' d="M40,45Q48,34 56,45"/>',
)
# Of an access in the row after the one in which its chunk begins; rows without tags are left out.
OF_TWO_ROWS = (
    ' d="M1016,79Q552,68 88,147"/>', '<text class="label" y="28">#2 1000 B</text>',
    '<text class="says" x="102" y="-19">access at 0x20000450 with tag 0x1, memory has 0x0</text>',
)


@pytest.mark.parametrize(("words", "parts"), [
    ([call(3, 24), add(0, 0, 40), load(1, 0)], OF_A_CHUNK),
    ([call(3, 24), call(3, 1000), add(0, 0, 1088), load(1, 0)], OF_TWO_ROWS),
], ids=["chunk", "rows"])
def test_parts_of_a_picture(alone: pathlib.Path, tmp_path: pathlib.Path, words: list[Words],
                            parts: tuple[str, ...]) -> None:
    """A mark is in the row of its address alone, and an arrow leads there from the chunk."""
    file, drawn = tmp_path / "tenant", tmp_path / "heap.svg"
    file.write_bytes(program(*words))
    assert run([alone, "--map", drawn, file]).status == 129
    text = drawn.read_text(encoding="utf-8")
    assert [it for it in parts if it not in text] == []
    assert text.count('class="says"') == 1
