#!/usr/bin/env python3
"""Runs a program on many mutated images, inputs and options, and counts how each run ended. A run
that a signal ended, that took a minute of a processor, that wrote a byte to standard error which is
neither printable ASCII nor a newline, or a file that is no JSON or SVG, is kept in the folder
`mutated` and told.

    mutate.py [WHAT] PROGRAM COUNT SEED IMAGE...

WHAT is mutated: the whole `image` (default), its `debug` sections (line tables and their texts),
its `calls` (the entries of functions and what they stand on), its `symbols` (the table and its
names), each with the headers of those sections; or `frames`, for
which no IMAGE is named: a tenant that forges frame records on its stack, makes a heap call and ends
by a fault.
"""
import collections
import json
import os
import pathlib
import random
import struct
import subprocess
import sys
import xml.etree.ElementTree as xml
from collections.abc import Callable
from typing import Union

sys.path.insert(0, str(pathlib.Path(__file__).resolve().parents[1] / "examples"))
import build_image  # noqa: E402

OPTIONS = [
    "--pages", "--out", "--seed", "--async", "--steps", "--slices", "--last", "--trace",
    "--trace=2-9", "--trace-file", "--input", "--script", "--frames", "--map", "--map=text",
    "--json", "--seeds=3", "--core", "--exact", "--exact=writes", "--leaks", "--statistics",
    "--services", "--calls", "--help", "--version", "--sarif", "--html", "--whole-output",
    "--raw-output", "--check", "--continue", "--progress",
]
VALUES = ["0", "1", "5", "64", "4096", "4097", "65536", "-1", "18446744073709551615",
          "18446744073709551616", "00000000000000ff", "zz", "", "1,2,3", "7-", "/dev/null", "é"]
KINDS = ("image", "debug", "calls", "symbols", "frames")
# What may stand on standard error.
PLAIN = {10, *range(32, 127)}
SECONDS = 60  # of a processor, for a run

Part = tuple[int, int]  # where it begins, and how many bytes it has


def mutated(image: bytes, draw: random.Random) -> bytes:
    """The image with a few bytes, words or headers changed, cut or lengthened."""
    data = bytearray(image)
    for _ in range(draw.choice([0, 1, 1, 2, 3, 8, 40])):
        kind = draw.randrange(6)
        if not data:
            break
        near = min(len(data), 0xB0)
        at = draw.randrange(len(data)) if draw.random() < 0.5 else draw.randrange(near)
        if kind == 0:
            data[at] ^= 1 << draw.randrange(8)
        elif kind == 1:
            data[at] = draw.choice([0, 1, 0x7F, 0x80, 0xFF])
        elif kind == 2:
            data[at:at + 8] = draw.choice([0, 1, 2**63, 2**64 - 1, 4096]).to_bytes(8, "little")
        elif kind == 3:
            data[at:at + 4] = draw.getrandbits(32).to_bytes(4, "little")
        elif kind == 4:
            del data[at:]
        else:
            data[at:at] = draw.randbytes(draw.randrange(64))
    return bytes(data)


SECTIONS = {"debug": (".debug_line", ".debug_line_str", ".debug_str"),
            "calls": (".debug_info", ".debug_abbrev", ".debug_str_offsets", ".debug_addr",
                      ".debug_rnglists", ".debug_ranges"),
            "symbols": (".symtab", ".strtab")}


def sections(image: bytes, names: tuple[str, ...]) -> list[tuple[Part, Part]]:
    """Of an image's sections with these names the places of the header and of the bytes."""
    at, = struct.unpack_from("<Q", image, 0x28)
    size, count, texts = struct.unpack_from("<HHH", image, 0x3A)
    headers = [at + size * number for number in range(count)]
    start, = struct.unpack_from("<Q", image, headers[texts] + 0x18)
    found = []
    for header in headers:
        name, = struct.unpack_from("<I", image, header)
        text = image[start + name:image.index(0, start + name)].decode()
        if text in names:
            offset, length = struct.unpack_from("<QQ", image, header + 0x18)
            found.append(((header, size), (offset, length)))
    return found


def mutate_part(data: bytearray, at: int, end: int, draw: random.Random) -> None:
    """Changes a few bytes of a part, from one of its places on."""
    kind = draw.randrange(6)
    if kind == 0:
        data[at] ^= 1 << draw.randrange(8)
    elif kind == 1:
        data[at] = draw.choice([0, 1, 0x7F, 0x80, 0xFF])
    elif kind == 2:
        value = draw.choice([0, 1, 2**63, 2**64 - 1, len(data), end - at])
        data[at:at + 8] = value.to_bytes(8, "little")
    elif kind == 3:
        value = draw.choice([draw.getrandbits(32), 2**32 - 1, 0x80000000, end - at])
        data[at:at + 4] = value.to_bytes(4, "little")
    elif kind == 4:  # a long number of LEB128
        data[at:at + 8] = bytes([0x80 | draw.getrandbits(7) for _ in range(8)])
    else:  # what follows is moved on
        data[at:end] = (draw.randbytes(1) + data[at:end])[:end - at]


def mutated_within(image: bytes, places: list[tuple[Part, Part]], draw: random.Random) -> bytes:
    """The image with some bytes of sections changed; now and then of a header."""
    data = bytearray(image)
    for _ in range(draw.choice([1, 1, 2, 3, 8, 40])):
        header, part = draw.choice(places)
        start, size = header if draw.random() < 0.1 else part
        if size >= 8:
            near = size - 7 if draw.random() < 0.6 else min(size - 7, 64)
            mutate_part(data, start + draw.randrange(near), start + size, draw)
    return bytes(data)


STACK, STACK_END, READ_AT = 0x3FFFC000, 0x40000000, 0x3FFFC100
# Addresses that no record should have.
ODD = [0, 1, READ_AT, STACK, STACK_END, STACK_END - 8, STACK_END - 16, 0x10000, 2**63, 2**64 - 1,
       2**64 - 16]


def forger() -> bytes:
    """A tenant that reads its input onto its stack, takes x29 and x30 from it, calls malloc and
    loads from address 0."""
    size = STACK_END - READ_AT
    return build_image.image([
        0xD2800000 | (READ_AT & 0xFFFF) << 5, 0xF2A00000 | READ_AT >> 16 << 5,  # x0 = READ_AT
        0xAA0003F4,  # x20 = x0
        0xD2800001 | size << 5, 0xD2800048, 0xD4000001,  # the service 2 reads
        0xF940029D, 0xF940069E,  # x29, x30
        0xD2800300, 0xD2800068, 0xD4000001,  # malloc(24)
        0xD2800009, 0xF9400120,  # a load from 0
    ])


def forged_link(slots: list[int], index: int, draw: random.Random) -> int:
    """Where a frame record leads: mostly to the next one."""
    if draw.random() < 0.8 and index < len(slots):
        return slots[index] | (draw.randrange(16) << 56 if draw.random() < 0.3 else 0)
    return draw.choice([draw.choice(slots), draw.choice(slots) + draw.randrange(16),
                        draw.choice(ODD), draw.getrandbits(64)])


def forged_code(draw: random.Random) -> int:
    """The return address of a frame record: mostly one of code."""
    good = 0x10000 + 4 * draw.randrange(16)
    return good if draw.random() < 0.9 else draw.choice(
        [good + 1, draw.choice(ODD), draw.getrandbits(64)])


def forged_chain(draw: random.Random) -> bytes:
    """x29, x30 and frame records, some of which lead nowhere, back or out of the stack."""
    data = bytearray(draw.randbytes(16) + bytes(STACK_END - READ_AT - 16))
    count = draw.randrange(1, 40)
    slots = sorted(draw.sample(range(READ_AT + 16, STACK_END - 15, 8), count))
    for index, at in enumerate(slots):
        record = forged_link(slots, index + 1, draw), forged_code(draw)
        struct.pack_into("<QQ", data, at - READ_AT, *record)
    struct.pack_into("<QQ", data, 0, forged_link(slots, 0, draw), forged_code(draw))
    return bytes(data)


def arguments(path: str, draw: random.Random) -> list[str]:
    """Mostly sensible options, now and then others, and the image."""
    words = ["--steps", str(draw.choice([100, 5000, 200000]))]
    if draw.random() < 0.3:
        words += ["--async"]
    if draw.random() < 0.3:
        words += ["--pages", str(draw.choice([1, 5, 8, 64]))]
    if draw.random() < 0.1:
        words += [f"--trace={draw.randrange(50)}-{draw.randrange(99)}"]
    if draw.random() < 0.2:
        words += [draw.choice(OPTIONS) for _ in range(draw.randrange(3))]
        words += [draw.choice(VALUES) for _ in range(draw.randrange(3))]
    if draw.random() < 0.1:
        draw.shuffle(words)
    return words + [path]


def drawn(what: str, images: list[bytes], draw: random.Random) -> tuple[bytes, bytes]:
    """The image of a run, and its input."""
    if what == "frames":
        return images[0], forged_chain(draw)
    image = draw.choice(images)
    if what == "image":
        return mutated(image, draw), b""
    return mutated_within(image, sections(image, SECTIONS[what]), draw), b""


def run(words: list[str]) -> Union[int, str]:
    """How a program ended: its status, below 0 where a signal ended it, as one does where it takes
    too long."""
    ran = subprocess.run(["prlimit", f"--cpu={SECONDS}", *words], stdin=subprocess.DEVNULL,
                         stdout=subprocess.DEVNULL, stderr=subprocess.PIPE, check=False)
    return ran.returncode if set(ran.stderr) <= PLAIN else "raw bytes"


def read_data(page: str) -> object:
    """The data of a page, which end where its element does."""
    data = page.split("id='data'>\n")[1].split("\n</script>")[0]
    if "<" in data or page.count("</script>") != 2:
        raise ValueError("the data have a tag")
    return json.loads(data)


def read_files(path: pathlib.Path) -> Union[None, str]:
    """Reads what a run wrote, and says what is no document."""
    told = None
    readers: list[tuple[str, Callable[[str], object]]] = [
        ("json", json.loads), ("sarif", json.loads), ("svg", xml.fromstring),
        ("html", read_data)]
    for suffix, read in readers:
        file = path.with_name(f"{path.name}.{suffix}")
        if file.exists():
            text = file.read_text(encoding="utf-8")
            file.unlink()
            try:
                read(text)
            except (ValueError, xml.ParseError):
                told = f"no {suffix}"
    return told


def is_bad(ended: Union[int, str]) -> bool:
    """Whether a signal or the bound of time ended a run."""
    return not isinstance(ended, int) or ended < 0


def keep(path: pathlib.Path, number: int) -> None:
    """Keeps the files of a run."""
    for suffix in ("", ".input"):
        place = path.with_name(f"{path.name}{suffix}")
        place.rename(path.with_name(f"bad.{path.name}.{number}{suffix}"))


def main() -> None:
    words = sys.argv[1:]
    what = words.pop(0) if words and words[0] in KINDS else "image"
    if len(words) < 3 or (what != "frames" and len(words) < 4):
        sys.exit(__doc__)
    program, count, seed = words[0], int(words[1]), int(words[2])
    images = [pathlib.Path(name).read_bytes() for name in words[3:]] or [forger()]
    draw = random.Random(seed)
    ends: collections.Counter[Union[int, str]] = collections.Counter()
    path = pathlib.Path("mutated") / f"{what}{seed}"
    os.makedirs(path.parent, exist_ok=True)
    for number in range(count):
        image, data = drawn(what, images, draw)
        path.write_bytes(image)
        path.with_name(f"{path.name}.input").write_bytes(data)
        files = [word for suffix, option in (("json", "--json"), ("sarif", "--sarif"),
                                             ("svg", "--map"), ("html", "--html"))
                 if draw.random() < 0.4
                 for word in (option, f"{path}.{suffix}")]
        options = ["--input", f"{path}.input", "--leaks", str(path)]
        words = arguments(str(path), draw) if what == "image" else options
        ended = run([program, *files, *words])
        ended = read_files(path) or ended
        ends[ended] += 1
        if is_bad(ended):
            keep(path, number)
            print("ended by", ended, words, file=sys.stderr)
    told = sorted(ends.items(), key=lambda item: str(item[0]))
    print(", ".join(f"{end}: {times}" for end, times in told))
    sys.exit(any(map(is_bad, ends)))


if __name__ == "__main__":
    main()
