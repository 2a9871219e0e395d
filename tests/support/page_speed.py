"""How many steps a second a plain run makes in a page, as a share of the native program's."""

import json
import pathlib
import time

from tests.support.places import ROOT
from tests.support.playground import AnyBrowser, letters
from tests.support.running import succeed
from tests.support.samples import tenant

# The functions of tools/speed/mix.c, as often as the input has bytes; it exits with 0.
MIX = ROOT / "tools" / "speed" / "mix.c"
LOOP = f"""#define _start run_once
#include "{MIX}"
#undef _start
#include "tenant.h"
int main(void)
{{
    static u8 text[4096];
    static long numbers[64];
    static u32 digest[8], constants[64];
    char byte;
    for (u64 round = 0; tenant_read(&byte, 1) == 1; round++) {{
        for (u64 i = 0; i < 64; i++)
            numbers[i] = (long)((i * 2654435761ul + round) % 1000);
        text[round % 4096] = (u8)('0' + round % 10);
        for (int i = 0; i < 16; i++)
            sha256(digest, constants, text + 64 * i);
        heap_sort(numbers, 64);
        *(volatile long *)numbers = search((char *)text, 4096, "12", 2) + crc(text, 1024);
    }}
    return 0;
}}
"""
SHORT, LONG, TURNS = 40, 440, 5
STEPS = "10000000000"
TIMED = """(async () => {
    const files = [['image.elf', fromLetters(IMAGE)], ['input', new Uint8Array(COUNT)]];
    const start = performance.now();
    const end = await startRun({words: WORDS, files, made: []}, () => {});
    return [end.failed || end.status, performance.now() - start];
})()"""


def words_of() -> list[str]:
    """The words of a run."""
    return ["--steps", STEPS, "--input", "input", "image.elf"]


def native_seconds(alone: pathlib.Path, folder: pathlib.Path, count: int) -> float:
    """How long the program takes."""
    (folder / "input").write_bytes(bytes(count))
    start = time.perf_counter()
    succeed([alone, *words_of()], cwd=folder)
    return time.perf_counter() - start


def page_seconds(page: AnyBrowser, image: bytes, count: int) -> float:
    """How long the page takes."""
    script = TIMED.replace("IMAGE", json.dumps(letters(image))).replace("COUNT", str(count))
    status, passed = page.value(script.replace("WORDS", json.dumps(words_of())))
    assert status == 0, status
    return float(passed) / 1000


def share_of_native(page: AnyBrowser, alone: pathlib.Path, folder: pathlib.Path) -> float:
    """The share, of the best of some turns: a long run less a short one."""
    source = folder / "loop.c"
    source.write_text(LOOP, encoding="utf-8")
    image = tenant(folder, source).read_bytes()
    (folder / "image.elf").write_bytes(image)
    seconds = [[(native_seconds(alone, folder, count), page_seconds(page, image, count))
                for count in (SHORT, LONG)] for _ in range(TURNS)]
    best = [[min(turn[length][side] for turn in seconds) for length in (0, 1)] for side in (0, 1)]
    native, in_page = (long - short for short, long in best)
    return native / in_page
