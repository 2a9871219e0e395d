#!/usr/bin/env python3
"""Builds an image from instruction words.

    build_image.py OUT WORD...      each WORD is 8 hexadecimal digits, as an assembler lists it

The image is an ELF64 executable for AArch64 with one segment, readable and executable, at 0x10000,
which is its entry: 120 bytes of headers, then the words, four bytes each, the lowest first.
"""
import struct
import sys
from collections.abc import Sequence

import command_line

ENTRY = 0x10000
READ_EXECUTE, READ_WRITE = 5, 6


def image(words: Sequence[int], data: Sequence[tuple[int, int]] = ()) -> bytes:
    """The image of these words; `data` are further segments of zeros, readable and writable, as
    (address, size)."""
    body = b"".join(struct.pack("<I", word) for word in words)
    segments = [(READ_EXECUTE, ENTRY, len(body), len(body))]
    segments += [(READ_WRITE, at, 0, size) for at, size in data]
    offset = 64 + 56 * len(segments)
    identification = b"\x7fELF" + bytes([2, 1, 1]) + bytes(9)
    file_header = identification + struct.pack(
        "<HHIQQQIHHHHHH", 2, 183, 1, ENTRY, 64, 0, 0, 64, 56, len(segments), 0, 0, 0
    )
    program_headers = b"".join(
        struct.pack("<IIQQQQQQ", 1, flags, offset, at, at, in_file, in_memory, 1)
        for flags, at, in_file, in_memory in segments
    )
    return file_header + program_headers + body


def main() -> None:
    path, *listed = command_line.read_words(__doc__, 2)
    try:
        words = [int(word, 16) for word in listed]
        body = image(words)
    except (ValueError, struct.error):
        sys.exit("build_image.py: a WORD isn't 8 hexadecimal digits")
    with open(path, "wb") as out:
        out.write(body)


if __name__ == "__main__":
    main()
