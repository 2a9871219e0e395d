"""Arguments, environment and files in an image of tenant-cc: a segment of its own, which the start
code of the C library looks for (arch/tenant_given.h).

The image has a note with two numbers: the address of that segment, or 0, and the size of the file
without it. The segment takes the program header of PT_GNU_STACK, and its bytes are at the end of
the file, so that nothing else moves.
"""
import os
import pathlib
import struct
from dataclasses import dataclass, field
from typing import Optional

PAGE, END_OF_IMAGE, MOST_PAGES = 4096, 0x10000000, 4096
# ELF64: of the file's header the type and machine; kinds of program headers.
EXECUTABLE, AARCH64, LOAD, NOTE, GNU_STACK = 2, 183, 1, 4, 0x6474E551
READ_WRITE = 6
HEADER = struct.Struct("<IIQQQQQQ")
NAME = b"Tombolopan\0"
FOLDER, FILE, PROGRAM = 0o040755, 0o100644, 0o100755
FIRST_NODE, PACK = 3, 1
PACKED, PACK_END, MARK = struct.Struct("<IIQ"), struct.Struct("<8sQ"), b"TenFiles"
# A word of the segment that is an address of it, and the sizes of its structs.
GIVEN_SIZE, NODE_SIZE = 32, 56


class Refused(Exception):
    """Why nothing can be written into an image."""


@dataclass
class Given:
    """What a tenant finds: argv, NAME=VALUE words, files by absolute names, its folder."""

    words: list[bytes]
    environment: list[bytes] = field(default_factory=list)
    files: dict[str, pathlib.Path] = field(default_factory=dict)
    folders: set[str] = field(default_factory=set)
    folder: str = "/"
    flags: int = 0


@dataclass
class Image:
    """An image, and where it has what is changed."""

    data: bytearray
    note: int
    header: int
    end: int

    @property
    def base(self) -> int:
        """The size of the file without what was written."""
        given, size = struct.unpack_from("<QQ", self.data, self.note)
        return int(size) if given else len(self.data)


def absolute(name: str, folder: str = "/") -> str:
    """A name from a folder on, without `.`, `..` and a `/` at its end."""
    parts: list[str] = []
    for part in (name if name.startswith("/") else f"{folder}/{name}").split("/"):
        if part == "..":
            del parts[-1:]
        elif part not in ("", "."):
            parts.append(part)
    return "/" + "/".join(parts)


def headers_of(data: bytes) -> list[tuple[int, tuple[int, ...]]]:
    """The program headers, each with its place in the file."""
    if data[:6] != b"\x7fELF\x02\x01" or len(data) < 64:
        raise Refused("it is no ELF64 file")
    if struct.unpack_from("<HH", data, 16) != (EXECUTABLE, AARCH64):
        raise Refused("it is no executable for AArch64")
    start, = struct.unpack_from("<Q", data, 32)
    size, count = struct.unpack_from("<HH", data, 54)
    places = [start + size * at for at in range(count)]
    if size != HEADER.size or any(place + size > len(data) for place in places):
        raise Refused("its program headers are not in the file")
    return [(place, HEADER.unpack_from(data, place)) for place in places]


def note_of(data: bytes, headers: list[tuple[int, tuple[int, ...]]]) -> Optional[int]:
    """The place of the two numbers of the note, if the image has it."""
    for _, (kind, _, offset, _, _, size, _, _) in headers:
        if kind != NOTE:
            continue
        place, end = offset, min(offset + size, len(data))
        while place + 12 <= end:
            named, held, sort = struct.unpack_from("<III", data, place)
            body = place + 12 + (named + 3) // 4 * 4
            if (held, sort, data[place + 12:place + 12 + named]) == (16, 1, NAME):
                return body if body + 16 <= end else None
            place = body + (held + 3) // 4 * 4
    return None


def read_image(path: pathlib.Path) -> Image:
    """An image that was made for it."""
    data = bytearray(path.read_bytes())
    headers = headers_of(data)
    note = note_of(data, headers)
    if note is None:
        raise Refused("it has no note of the C library of tenants: link it by tenant-cc")
    given, _ = struct.unpack_from("<QQ", data, note)
    spare = [place for place, (kind, _, _, address, *_) in headers
             if (kind == LOAD and address == given if given else kind == GNU_STACK)]
    if not spare:
        raise Refused("it has no program header to spare (PT_GNU_STACK)")
    end = max((address + size for place, (kind, _, _, address, _, _, size, _) in headers
               if kind == LOAD and place != spare[0]), default=0)
    image = Image(data, note, spare[0], (end + PAGE - 1) // PAGE * PAGE)
    _, _, offset, _, _, size, _, _ = HEADER.unpack_from(data, spare[0])
    if given and (offset != image.base + -image.base % PAGE or offset + size != len(data)):
        raise Refused("it was changed after its arguments were written")
    return image


class Segment:
    """The bytes of the segment, as they are put together."""

    def __init__(self, address: int) -> None:
        self.address, self.data = address, bytearray()

    def put(self, data: bytes) -> int:
        """Appends bytes; their address."""
        self.data += data
        return self.address + len(self.data) - len(data)

    def put_text(self, text: bytes) -> int:
        """Appends a string."""
        return self.put(text + b"\0")

    def align(self) -> None:
        """Goes on at a multiple of 16."""
        self.data += bytes(-len(self.data) % 16)


def nodes_of(given: Given) -> list[tuple[str, int, bytes]]:
    """Name, mode and bytes of each file and folder: folders are in front of what they hold."""
    folders = {given.folder, *given.folders}
    for name in [*given.files, *folders]:
        above = name.rpartition("/")[0]
        while above:
            folders.add(above)
            above = above.rpartition("/")[0]
    both = sorted((folders | {"/", "/tmp"}) & set(given.files))
    folders -= {"/", "/tmp"}
    if both:
        raise Refused(f"{both[0]} is a file and a folder")
    nodes = [(name, FOLDER, b"") for name in folders]
    for name, path in given.files.items():
        mode = PROGRAM if path.stat().st_mode & 0o111 else FILE
        nodes.append((name, mode, path.read_bytes()))
    return sorted(nodes)


def segment_of(given: Given, address: int) -> bytes:
    """The segment as it is at an address: the struct, the words, the nodes, then what they name."""
    nodes = nodes_of(given)
    words = [*given.words, None, *given.environment, None]
    first_word = address + GIVEN_SIZE
    first_node = first_word + 8 * len(words)
    segment = Segment(first_node + NODE_SIZE * len(nodes))
    pointers = [0 if word is None else segment.put_text(word) for word in words]
    table = bytearray()
    for at, (name, mode, data) in enumerate(nodes):
        text = segment.put_text(name.encode(errors="surrogateescape"))
        segment.align()
        bytes_at = segment.put(data)
        behind = first_node + NODE_SIZE * (at + 1) if at + 1 < len(nodes) else 0
        table += struct.pack("<QQQQQIIII", behind, text, bytes_at, len(data), 0,
                             mode, FIRST_NODE + 1 + at, 0, 0)
    folder = segment.put_text(given.folder.encode(errors="surrogateescape"))
    head = struct.pack("<QQQQ", first_word, first_node if nodes else 0, folder, given.flags)
    return head + struct.pack(f"<{len(words)}Q", *pointers) + bytes(table) + bytes(segment.data)


def written(path: pathlib.Path, given: Given) -> bytes:
    """The image of a file with what a tenant finds, in place of what was written before."""
    image = read_image(path)
    size = image.base
    segment = segment_of(given, image.end)
    if image.end + len(segment) > END_OF_IMAGE or len(segment) > MOST_PAGES * PAGE:
        raise Refused(f"there is no room for {len(segment):,} bytes of arguments and files")
    data = image.data[:size] + bytes(-size % PAGE)
    HEADER.pack_into(data, image.header, LOAD, READ_WRITE, len(data), image.end, image.end,
                     len(segment), len(segment), PAGE)
    struct.pack_into("<QQ", data, image.note, image.end, size)
    return bytes(data) + segment


def unpacked(output: bytes) -> tuple[bytes, list[tuple[int, str, bytes]]]:
    """The output of a tenant whose written files are wanted, and of each its mode, name and bytes.
    The tenant may have written it all itself, so nothing of it is believed."""
    end = len(output) - PACK_END.size
    mark, size = PACK_END.unpack_from(output, end) if end >= 0 else (b"", 0)
    if mark != MARK or size > end:
        raise Refused("the tenant's output has no files at its end")
    at, found = end - size, []
    while at < end:
        if at + PACKED.size > end:
            raise Refused("the files behind the tenant's output are not whole")
        mode, length, count = PACKED.unpack_from(output, at)
        at += PACKED.size + length + count
        name = os.fsdecode(output[at - length - count:at - count])
        if at > end or name != absolute(name) or "\0" in name:
            raise Refused("the files behind the tenant's output have no sound names")
        found.append((mode, name, output[at - count:at]))
    return output[:end - size], found
