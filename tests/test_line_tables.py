"""Source lines of addresses, by line tables as compilers wrote them (DWARF 5, 6.2). The lines are
those that llvm-symbolizer 14 gives."""

import json
import pathlib
from typing import Optional

import pytest

from tests.support.running import run, succeed
from tests.support.tools import need

# `.debug_line` of clang 14, -gdwarf-5 -O1: three instructions from 0x400000.
CLANG = bytes.fromhex(
    "7a0000000500080050000000010101fb0e0d00010101010000000100000101011f020e0000001300000003011f02"
    "0f051e0208000000006bc17e9bb545309f5affd19422df346f0000000001e726d32a75662c388a4dd0fc70fa3a9d"
    "0400000902000040000000000014040105190a110400050e4d0505064a0204000101")
# Its `.debug_line_str`.
STRINGS = b"twice.h\0sum.c\0/src\0./lib\0"
# `.debug_line` of gcc 12.2, -gdwarf-4 -O1, which has no other section.
GCC = bytes.fromhex(
    "6500000004002c000000040101fb0e0d0001010101000000010000016c6962000073756d2e630000000074776963"
    "652e6800010000000513000902000040000000000014050513040205011005100106010401050506150402051906"
    "0f200401050116200201000101")
# Units that are not read: one of the 64-bit format, one of version 9, one whose header's length is
# not in it.
UNREAD = bytes.fromhex("ffffffff0200000000000000050002000000090006000000040063000000")
# One instruction before the table, three of it, and one past its end.
FIRST, COUNT = 0x3FFFFC, 5
Place = Optional[tuple[str, str, int]]


def listed(data: bytes) -> str:
    """Bytes as an assembler's list."""
    return ".byte " + ", ".join(map(str, data))


def place_of(alone: pathlib.Path, folder: pathlib.Path, tables: bytes, number: int) -> Place:
    """The file, its path and the line of an instruction, by its number."""
    need("clang", "ld.lld")
    words = ["brk #0" if at == number else "nop" for at in range(COUNT)]
    size = f".size _start, {4 * COUNT}"
    source = [".globl _start", ".type _start, %function", "_start:", *words, size,
              '.section .debug_line,"",@progbits', listed(tables),
              '.section .debug_line_str,"MS",@progbits,1', listed(STRINGS), ""]
    (folder / "lines.s").write_text("\n".join(source), encoding="ascii")
    succeed(["clang", "--target=aarch64-linux-gnu", "-fuse-ld=lld", "-nostdlib", "-static",
             "-Wl,-O0", f"-Wl,-Ttext={FIRST:#x}", "-o", "lines.elf", "lines.s"], cwd=folder)
    ran = run([alone, "--json", "lines.json", "lines.elf"], cwd=folder)
    frame = json.loads((folder / "lines.json").read_text(encoding="utf-8"))["stack"][0]
    assert int(frame["address"], 16) == FIRST + 4 * number, ran.errors
    has_line = f"  #0 _start+{4 * number:#x} at {frame.get('file')}:{frame.get('line')}\n"
    assert (has_line in ran.errors) == ("line" in frame), ran.errors
    return (frame["file"], frame["path"], frame["line"]) if "line" in frame else None


TWICE = ("twice.h", "twice.h", 2)
LAST_OF_CLANG, LAST_OF_GCC = ("sum.c", "sum.c", 5), ("sum.c", "sum.c", 6)


@pytest.mark.parametrize(("tables", "places"), [
    (CLANG, [None, TWICE, LAST_OF_CLANG, LAST_OF_CLANG, None]),
    (GCC, [None, TWICE, LAST_OF_GCC, LAST_OF_GCC, None]),
    (UNREAD + CLANG, [None, TWICE, LAST_OF_CLANG, LAST_OF_CLANG, None]),
], ids=["version 5", "version 4", "after units that are not read"])
def test_lines_of_instructions(alone: pathlib.Path, tmp_path: pathlib.Path, tables: bytes,
                               places: list[Place]) -> None:
    """Of an inlined function, of the last instruction, and none before the table or past it."""
    found = [place_of(alone, tmp_path, tables, number) for number in range(COUNT)]
    assert found == places
