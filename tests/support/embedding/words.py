"""Loads and stores of the profile, with how many bytes each accesses, and their words."""

import pathlib

from tests.support.once import make_once
from tests.support.running import succeed

SIZES = [
    ("ldr x2, [x1]", 8), ("str x2, [x1, #8]!", 8), ("ldr x2, [x1], #8", 8),
    ("ldur x2, [x1, #-3]", 8), ("str x2, [x1, x3, lsl #3]", 8), ("ldr w2, [x1]", 4),
    ("str w2, [x1]", 4), ("stur w2, [x1, #1]", 4), ("ldrsw x2, [x1]", 4),
    ("ldrsw x2, [x1, w3, sxtw]", 4), ("ldrh w2, [x1]", 2), ("strh w2, [x1], #2", 2),
    ("ldrsh x2, [x1]", 2), ("ldrsh w2, [x1, x3]", 2), ("ldrb w2, [x1]", 1),
    ("strb w2, [x1, #1]!", 1), ("ldrsb x2, [x1]", 1), ("ldrsb w2, [x1, x3]", 1),
    ("stp x2, x4, [x1]", 16), ("ldp x2, x4, [x1], #16", 16), ("stp x2, x4, [x1, #-16]!", 16),
    ("ldp w2, w4, [x1]", 8), ("stp w2, w4, [x1, #8]!", 8), ("ldpsw x2, x4, [x1]", 8),
    ("stgp x2, x4, [x1]", 16), ("stgp x2, x4, [x1], #16", 16), ("ldr x2, .+32", 8),
    ("ldr w2, .+32", 4), ("ldrsw x2, .+32", 4), ("ldg x2, [x1]", 16), ("stg x1, [x1]", 16),
    ("stg x1, [x1], #16", 16), ("stzg x1, [x1]", 16), ("st2g x1, [x1]", 32),
    ("stz2g x1, [x1, #32]!", 32),
]


def assembled(shared: pathlib.Path, texts: list[str]) -> list[int]:
    """The words of instructions, by GNU's assembler."""
    def build(path: pathlib.Path) -> None:
        source, made = path.with_suffix(".s"), path.with_suffix(".o")
        lines = "".join(f"    {it}\n" for it in texts)
        source.write_text(f".arch armv8.5-a+memtag\n{lines}", encoding="utf-8")
        succeed(["aarch64-linux-gnu-as", "-o", made, source])
        succeed(["aarch64-linux-gnu-objcopy", "-O", "binary", "-j", ".text", made, path])

    data = make_once(shared / "embedding" / "sizes.bin", build).read_bytes()
    return [int.from_bytes(data[it : it + 4], "little") for it in range(0, len(data), 4)]
