#!/usr/bin/env python3
"""The words of a linked program that the host's table of instructions lacks, by function.

    words.py ELF...

Writes a line for each function with such words, `FUNCTION+0xOFFSET: WORD KIND (N in all)`: the
first of its words, what that is, and how many there are. What the image's mapping symbols call data
doesn't count, nor do zeros between functions. Exit status 1 where a program has one, 2 where a file
is no AArch64 ELF64. The table is isa/a64.rows.
"""
import bisect
import functools
import pathlib
import struct
import sys

HERE = pathlib.Path(__file__).resolve().parent
sys.path[:0] = [str(HERE.parents[1] / "tools"), str(HERE.parent)]
import command_line  # noqa: E402
from a64 import table  # noqa: E402

# ELF64: a section's flag and type, a symbol's type, and the number of AArch64.
EXECINSTR, SYMTAB, FUNCTION, AARCH64 = 4, 2, 2, 183
# Bits that tell what a word without a row is (Arm ARM DDI 0487, C4.1): mask, value, kind.
KINDS = [
    (0x0E000000, 0x0E000000, "floating point or SIMD"),
    (0x0E000000, 0x0C000000, "load or store of a floating-point register"),
    (0x3F000000, 0x08000000, "exclusive or ordered load or store"),
    (0x3B200C00, 0x38200000, "atomic read and write"),
    (0xFFC00000, 0xF9800000, "prefetch"),
    (0xFFFFF01F, 0xD503301F, "barrier"),
    (0xFFC00000, 0xD5000000, "system register or cache maintenance"),
    (0xFE000000, 0xD6000000, "branch with pointer authentication"),
]


class NoProgram(Exception):
    """A file that is no AArch64 ELF64."""


@functools.cache
def rows():
    return list(table.read_rows().values())


@functools.cache
def is_allowed(word):
    return any(row.fits(word) and not row.refusals(word) for row in rows())


def kind(word):
    """What a word is that has no row."""
    for mask, value, name in KINDS:
        if word & mask == value:
            return name
    return "no instruction of the table"


def sections(image):
    """Of each section: name (a number), type, flags, address, offset, size, link."""
    if image[:6] != b"\x7fELF\x02\x01" or struct.unpack_from("<H", image, 18)[0] != AARCH64:
        raise NoProgram
    offset, = struct.unpack_from("<Q", image, 40)
    size, count = struct.unpack_from("<HH", image, 58)
    return [struct.unpack_from("<IIQQQQI", image, offset + size * at) for at in range(count)]


def symbols(image, headers):
    """Name, type, address and size of each defined symbol."""
    for _, sort, _, _, offset, size, link in headers:
        if sort != SYMTAB:
            continue
        names = headers[link][4]
        for at in range(offset, offset + size, 24):
            name, info, _, section, address, length = struct.unpack_from("<IBBHQQ", image, at)
            if section:
                end = image.index(b"\0", names + name)
                yield image[names + name:end].decode(), info & 15, address, length


def instructions(image, headers, marks):
    """Address and word of each instruction; `marks` says where code begins and where data does."""
    for _, _, flags, address, offset, size, _ in headers:
        if not flags & EXECINSTR:
            continue
        is_code = True
        for at in range(0, size - 3, 4):
            is_code = marks.get(address + at, is_code)
            if is_code:
                yield address + at, struct.unpack_from("<I", image, offset + at)[0]


def function_at(functions, address):
    """The function that an address is in, and where that begins; `functions` are in order."""
    at = bisect.bisect_right(functions, (address, sys.maxsize)) - 1
    if at >= 0 and address < functions[at][0] + max(functions[at][1], 4):
        return functions[at][2], functions[at][0]
    return "no function", address


def describe(path):
    """The lines of a program."""
    image = pathlib.Path(path).read_bytes()
    headers = sections(image)
    listed = list(symbols(image, headers))
    marks = {place: name[1] == "x" for name, _, place, _ in listed if name[:2] in ("$x", "$d")}
    functions = sorted((at, size, name) for name, sort, at, size in listed if sort == FUNCTION)
    found = {}
    for address, word in instructions(image, headers, marks):
        if not is_allowed(word):
            name, start = function_at(functions, address)
            if not word and name == "no function":
                continue
            first = found.setdefault((name, start), [address - start, word, 0])
            first[2] += 1
    return [
        f"{name}+0x{offset:x}: {word:08x} {kind(word)} ({count} in all)"
        for (name, _), (offset, word, count) in found.items()
    ]


def main():
    paths = command_line.read_words(__doc__, 1)
    has_words = False
    for path in paths:
        try:
            lines = describe(path)
        except (OSError, NoProgram, struct.error) as error:
            print(f"words.py: {path}: no AArch64 ELF64 {error}", file=sys.stderr)
            sys.exit(2)
        for line in lines:
            print(f"{path}: {line}")
        has_words |= bool(lines)
    sys.exit(1 if has_words else 0)


if __name__ == "__main__":
    main()
