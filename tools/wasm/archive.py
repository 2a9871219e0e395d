"""What a page has inside: bytes under names in one archive, packed, as letters; and a run."""

import base64
import gzip
import hashlib
import json
import struct
from collections.abc import Sequence
from typing import Union

Options = dict[str, Union[str, bool]]
FORMAT = 1


def join(head: dict[str, object], parts: Sequence[tuple[str, bytes]]) -> bytes:
    """The length of a head in four bytes, the head in JSON, and the parts."""
    sizes = [[name, len(content)] for name, content in parts]
    text = json.dumps({**head, "parts": sizes}, separators=(",", ":")).encode()
    return struct.pack("<I", len(text)) + text + b"".join(content for _, content in parts)


def split(archive: bytes) -> tuple[dict[str, object], list[tuple[str, bytes]]]:
    """Head and parts of an archive."""
    length, = struct.unpack_from("<I", archive)
    head = json.loads(archive[4:4 + length])
    at, parts = 4 + length, []
    for name, size in head["parts"]:
        parts.append((name, archive[at:at + size]))
        at += size
    assert at == len(archive), "bytes are missing"
    return head, parts


def pack(content: bytes) -> bytes:
    """Content as gzip packs it, the same each time."""
    return gzip.compress(content, 9, mtime=0)


def letters(content: bytes) -> str:
    """Bytes as letters of URLs."""
    return base64.urlsafe_b64encode(content).decode().rstrip("=")


def from_letters(text: str) -> bytes:
    """Bytes that were written as letters."""
    return base64.urlsafe_b64decode(text + "=" * (-len(text) % 4))


def run_text(name: str, image: bytes, given: bytes, options: Options,
             sources: Sequence[tuple[str, bytes]]) -> str:
    """A run as a page and a link have it: a sum, a dot, and letters."""
    files = [{"name": file, "role": "source"} for file, _ in sources]
    head: dict[str, object] = {"format": FORMAT, "name": name, "options": options, "files": files}
    parts = [("image", image), ("input", given), *(("file", it) for _, it in sources)]
    packed = pack(join(head, parts))
    return f"{hashlib.sha256(packed).hexdigest()[:16]}.{letters(packed)}"
