"""The text that GNU objdump has for instruction words."""

import pathlib
import re
import struct
from collections.abc import Sequence

from tests.support.running import succeed

OBJDUMP = "aarch64-linux-gnu-objdump"
START = 0x400000


def lines_of_objdump(words: Sequence[int], folder: pathlib.Path, *options: str) -> list[str]:
    """What objdump prints of words. White space is normalised, and what it adds is dropped: its
    comments (from `//` on) and the names of symbols (`<..>`)."""
    binary = folder / "words"
    binary.write_bytes(struct.pack(f"<{len(words)}I", *words))
    ran = succeed([OBJDUMP, "-D", "-z", "-b", "binary", "-m", "aarch64",
                   f"--adjust-vma={START:#x}", *options, binary])
    lines = re.findall(r"^ *[0-9a-f]+:\t[0-9a-f]{8} \t(.*)$", ran.output, re.M)
    return [" ".join(re.sub(r"//.*|<[^>]*>", "", line).split()) for line in lines]
