"""Images that make a host's search for names and lines as long as it can be."""

import struct

PAGE = 4096
START = 0x400000
HEADERS = PAGE
# mov x0, #0; str x0, [x0]: a null pointer, behind some calls.
FAULT = (0xD2800000, 0xF9000000)
SVC = 0xD4000001
END_SEQUENCE = b"\0\x01\x01"
SECTION_HEADER = "<IIQQQQIIQQ"
PROGBITS, SYMBOL_TABLE, STRINGS = 1, 2, 3


def file_of(code: bytes, sections: list[tuple[bytes, int, bytes, int]]) -> bytes:
    """An ELF64 image of code at 0x400000 with sections: name, type, contents and `sh_link`."""
    names = b"\0" + b"".join(name + b"\0" for name, _, _, _ in sections) + b".shstrtab\0"
    sections = [*sections, (b".shstrtab", STRINGS, names, 0)]
    contents, table = b"", bytes(64)
    at = HEADERS + len(code)
    for name, kind, section, link in sections:
        table += struct.pack(
            SECTION_HEADER, names.index(b"\0" + name + b"\0") + 1, kind, 0, 0, at + len(contents),
            len(section), link, 0, 1, 24 if kind == SYMBOL_TABLE else 0,
        )
        contents += section
    header = b"\x7fELF\x02\x01\x01" + bytes(9) + struct.pack(
        "<HHIQQQIHHHHHH", 2, 183, 1, START, 64, at + len(contents), 0, 64, 56, 1, 64,
        len(sections) + 1, len(sections),
    )
    segment = struct.pack("<IIQQQQQQ", 1, 5, HEADERS, START, START, len(code), len(code), PAGE)
    return (header + segment).ljust(HEADERS, b"\0") + code + contents + table


def words(*numbers: int) -> bytes:
    """Instruction words."""
    return struct.pack(f"<{len(numbers)}I", *numbers)


def counting(count: int) -> bytes:
    """A loop of some rounds, and a fault."""
    low, high = count & 0xFFFF, count >> 16
    return words(
        0xD2800001 | low << 5, 0xF2A00001 | high << 5,  # mov x1, #low; movk x1, #high, lsl 16
        0xF1000421, 0x54FFFFE1,  # subs x1, x1, #1; b.ne back
        *FAULT,
    )


def allocating(places: int) -> bytes:
    """As many calls of malloc(16), each at another address, and exit(0)."""
    # mov x0, #16; mov x8, #3; svc
    return words(*(0xD2800200, 0xD2800068, SVC) * places, 0xD2800000, 0xD2800008, SVC)


def symbol(name: int, info: int, value: int, size: int) -> bytes:
    """An entry of a symbol table."""
    return struct.pack("<IBBHQQ", name, info, 0, 1, value, size)


def with_symbols(count: int, rounds: int, is_nested: bool = False) -> bytes:
    """A loop with as many symbols of a function each, side by side or one within another."""
    code = counting(rounds)
    step = 1 if is_nested else 4
    table = bytearray(24)
    for number in range(count):
        size = 2 * (count - number) if is_nested else step
        table += symbol(1, 0x12, START + number * step, size)
    strings = b"\0function\0"
    return file_of(code, [
        (b".symtab", SYMBOL_TABLE, bytes(table), 2), (b".strtab", STRINGS, strings, 0),
    ])


def unit(program: bytes, directories: bytes, files: bytes) -> bytes:
    """A unit of version 5 with tables of directories and files. Special opcode 5 + n adds n to the
    address; 2 and 4 are DW_LNS_advance_pc and DW_LNS_set_file."""
    encoding = bytes((1, 1, 1, 0, 1, 5, 0, 1, 1, 1))
    header = encoding + directories + files
    rest = struct.pack("<HBBI", 5, 8, 0, len(header)) + header + program
    return struct.pack("<I", len(rest)) + rest


def uleb(number: int) -> bytes:
    """A number in LEB128."""
    made = bytearray()
    while number > 127:
        made.append(number & 127 | 128)
        number >>= 7
    return bytes((*made, number))


def file_table(count: int, reference: int) -> bytes:
    """Files or directories whose path is one text of `.debug_line_str`."""
    return b"\x01\x01\x1f" + uleb(count) + struct.pack("<I", reference) * count


def set_address(address: int) -> bytes:
    """DW_LNE_set_address."""
    return b"\0\x09\x02" + struct.pack("<Q", address)


def with_lines(rows: int, files: int, places: int) -> bytes:
    """As many live chunks of different places, and a line table of as many rows that cover none of
    them, in front of rows that do: each of these names another file."""
    program = bytearray(set_address(START + 0x1000000) + b"\x06" * rows + END_SEQUENCE)
    program += set_address(START)
    for place in range(places):
        program += b"\x04" + uleb(max(0, files - 1 - place)) + b"\x05\x02\x0c"
    table = unit(bytes(program) + b"\x05" + END_SEQUENCE, file_table(1, 0), file_table(files, 0))
    return file_of(allocating(places), [
        (b".debug_line", PROGBITS, table, 0),
        (b".debug_line_str", PROGBITS, b"a" * 4000 + b"\0", 0),
    ])
