"""What LLVM's Scudo and the heap of this repository do in the same calls, as values by names."""
from __future__ import annotations

import math
import pathlib
import subprocess
import sys
import tempfile

HERE = pathlib.Path(__file__).resolve().parent
sys.path.insert(0, str(HERE.parent / "embed"))
import tombolopan as tb  # noqa: E402
from scudo_library import NoScudo, archives, link_words, with_options  # noqa: E402

PLAIN = (1 << 56) - 1
MISTAKES = ("misaligned", "unmapped", "corrupt", "freed", "within", "misaligned_freed",
            "freed_corrupt", "misaligned_corrupt", "realloc_freed", "realloc_misaligned",
            "realloc_corrupt", "usable_freed", "usable_misaligned", "usable_corrupt")
# What Scudo writes of a mistake, as the name that the profile has for it.
MESSAGES = {"misaligned pointer": tb.HeapAbort.MISALIGNED,
            "corrupted chunk header": tb.HeapAbort.HEADER_CORRUPT,
            "invalid chunk state": tb.HeapAbort.INVALID_STATE}
REALLOCATIONS = ((24, 40), (24, 16), (24, 48), (24, 49), (100, 112), (100, 113), (1000, 500),
                 (1000, 1008), (1000, 1009), (20000, 8000), (20000, 17000))
REUSES = ((24, 3), (72, 28), (136, 64), (600, 64))
QUARANTINE = "thread_local_quarantine_size_kb=64:quarantine_size_kb=256:" \
             "quarantine_max_chunk_size=2048"
Facts = dict[str, str]


# LLVM's Scudo.

def build_probe(folder: pathlib.Path) -> pathlib.Path:
    """The program over LLVM's Scudo."""
    program = folder / "scudo_probe"
    try:
        subprocess.run(["clang", "-O1", "-fno-builtin", "-o", program, HERE / "scudo_probe.c",
                        *link_words(archives())], check=True)
    except (NoScudo, OSError, subprocess.CalledProcessError) as error:
        sys.exit(f"beside_scudo.py: {error}")
    return program


def run_probe(
    program: pathlib.Path, options: str = "", words_of: tuple[str, ...] = ()
) -> tuple[Facts, list[tuple[int, int]]]:
    """What the program tells with some options of Scudo's; and words of headers with the addresses
    of their chunks."""
    ran = subprocess.run([program, *words_of], stdout=subprocess.PIPE, text=True, check=True,
                         env=with_options(options))
    facts: Facts = {}
    words = []
    for line in ran.stdout.splitlines():
        name, _, values = line.partition(" ")
        if name == "word":
            at, word = values.split()
            words.append((int(at, 16), int(word, 16)))
        else:
            facts[name] = values
    return facts, words


def mistake_of(program: pathlib.Path, name: str) -> str:
    """How Scudo ends a program that makes a mistake."""
    ran = subprocess.run([program, name], stdout=subprocess.DEVNULL, stderr=subprocess.PIPE,
                         text=True, check=False, env=with_options(""))
    found = [ours for text, ours in MESSAGES.items() if f"Scudo ERROR: {text}" in ran.stderr]
    return found[0] if found else f"signal {-ran.returncode}" if ran.returncode else "nothing"


def bsd(cookie: int, at: int, word: int) -> int:
    """The BSD checksum from a cookie over an address and the word of a header."""
    found = cookie
    for byte in at.to_bytes(8, "little") + (word & (1 << 48) - 1).to_bytes(8, "little"):
        found = ((found >> 1 | (found & 1) << 15) + byte) & 0xFFFF
    return found


def checksum_fact(words: list[tuple[int, int]]) -> str:
    """Whether the top 16 bits of all headers are the BSD checksum of the rest for one cookie, which
    is not known: all 65,536 are tried."""
    fits = any(all(bsd(it, *held) == held[1] >> 48 for held in words) for it in range(1 << 16))
    return "the BSD sum" if fits else "another"


def facts_of_scudo() -> Facts:
    """All of LLVM's Scudo."""
    with tempfile.TemporaryDirectory(prefix="scudo-") as folder:
        program = build_probe(pathlib.Path(folder))
        facts, words = run_probe(program)
        facts["checksum"] = checksum_fact(words)
        zeroing, _ = run_probe(program, "zero_contents=1", ("few",))
        facts["left_of_freed_zeroing"] = zeroing["left_of_freed"]
        held, _ = run_probe(program, QUARANTINE, ("few",))
        facts["reuse_quarantine"] = held["reuse_24_3"]
        for name in MISTAKES:
            facts[f"mistake_{name}"] = mistake_of(program, name)
    return facts


# The heap of this repository.

class Heap:
    """A heap whose calls are entered one by one: each makes all calls so far anew, on a heap that
    is the same each time."""

    def __init__(self, pages: int = 64) -> None:
        self.made: list[tuple[int, int, int]] = []
        self.pages = pages

    def all(self, calls: list[tuple[int, int, int]]) -> list[tb.HeapAnswer]:
        """What some more calls answer."""
        self.made += calls
        return tb.heap_calls(self.made, pages=self.pages)[-len(calls):]

    def call(self, op: int, first: int, second: int = 0) -> tb.HeapAnswer:
        """What one more call answers."""
        return self.all([(op, first, second)])[0]

    def pointer(self, op: int, first: int, second: int = 0) -> int:
        """The plain address that a call answers."""
        return self.call(op, first, second).answer & PLAIN

    def word(self, user: int) -> int:
        """The header of a chunk."""
        return self.call(tb.LOAD, user - 16).answer


def our_block_size(size: int) -> int:
    """The size of the blocks that requests of a size get."""
    chunks = tb.heap_calls([(tb.MALLOC, size, 0)] * 6, pages=8 + size * 8 // 4096)
    first, *rest = (it.answer & PLAIN for it in chunks)
    return math.gcd(*(it - first for it in rest))


def our_classes() -> str:
    """The sizes of blocks, each with the first request that gets it."""
    found, last = [], 0
    for size in [*range(1, 600), *range(600, 131072 - 32 + 1, 16)]:
        block = our_block_size(size)
        if block != last:
            found.append(f"{size}:{block}")
        last = block
    return " ".join(found)


def fields(word: int) -> str:
    """The fields of a header: class, state, origin, size, offset."""
    return " ".join(str(word >> bit & (1 << width) - 1)
                    for bit, width in ((0, 8), (8, 2), (10, 2), (12, 20), (32, 16)))


def our_headers() -> tuple[Facts, list[tuple[int, int]]]:
    """The headers of chunks, and their words with the plain addresses."""
    heap, facts = Heap(256), {}
    words = []
    calls = {"malloc_24": (tb.MALLOC, 24, 0), "malloc_1000": (tb.MALLOC, 1000, 0),
             "calloc_10_100": (tb.CALLOC, 10, 100), "memalign_64_100": (tb.MEMALIGN, 64, 100),
             "memalign_4096_24": (tb.MEMALIGN, 4096, 24), "malloc_200000": (tb.MALLOC, 200000, 0),
             "malloc_300001": (tb.MALLOC, 300001, 0)}
    for name, call in calls.items():
        user = heap.pointer(*call)
        words.append((user, heap.word(user)))
        facts[f"header_{name}"] = fields(words[-1][1])
    heap = Heap()
    chunk = heap.call(tb.MALLOC, 24).answer
    heap.call(tb.FREE, chunk)
    facts["header_freed_24"] = fields(heap.word(chunk & PLAIN))
    return facts, words


def our_reuse(size: int, count: int) -> str:
    """In which order freed chunks come back."""
    heap = Heap(256)
    old = [it.answer for it in heap.all([(tb.MALLOC, size, 0)] * count)]
    heap.all([(tb.FREE, it, 0) for it in old])
    plain = [it & PLAIN for it in old]
    again = heap.all([(tb.MALLOC, size, 0)] * count)
    return " ".join(str(plain.index(it.answer & PLAIN)) for it in again)


def our_contents() -> Facts:
    """What a chunk has where a freed one was, and what becomes of freed chunks' pages."""
    heap = Heap(256)
    chunk = heap.call(tb.MALLOC, 24).answer
    heap.all([(tb.STORE, chunk + 8 * n, 0x5A5A5A5A5A5A5A5A) for n in range(3)])
    heap.call(tb.FREE, chunk)
    again = heap.call(tb.MALLOC, 24).answer
    left = any(it.answer for it in heap.all([(tb.LOAD, again + 8 * n, 0) for n in range(3)]))
    where = "reused" if again & PLAIN == chunk & PLAIN else "elsewhere"
    chunk, large = heap.call(tb.MALLOC, 4000).answer, heap.call(tb.MALLOC, 400000).answer
    heap.all([(tb.FREE, chunk, 0), (tb.FREE, large, 0)])
    kept, gone = (heap.call(tb.LOAD, it).fault for it in (chunk, large))
    return {"left_of_freed": f"{where} {'some' if left else 'none'}", "left_in_calloc": "0",
            "freed_pages_of_blocks": "released" if kept and kept.kind == "Translation" else "kept",
            "freed_pages_of_large":
                "unmapped" if gone and gone.kind == "Translation" else "mapped"}


def our_placing() -> Facts:
    """Fresh blocks, alignments, sizes, usable sizes and reallocations."""
    heap = Heap(256)
    fresh = [it.answer & PLAIN for it in heap.all([(tb.MALLOC, 3000, 0)] * 13)]
    facts = {"fresh": " ".join(str((b - a) // 3072) for a, b in zip(fresh, fresh[1:]))}
    aligned = {it: heap.pointer(tb.MEMALIGN, it, 40)
               for it in (0, 1, 2, 8, 16, 24, 32, 64, 1024, 4096, 8192)}
    facts["alignments"] = " ".join(
        f"{it}:{'null' if not at else 'less' if at % max(it, 16) else 'aligned'}"
        for it, at in aligned.items())
    usable = [f"{it}:{heap.call(tb.USABLE_SIZE, heap.call(tb.MALLOC, it).answer).answer}"
              for it in (1, 16, 17, 24, 100, 1000, 131056)]
    facts["usable"] = " ".join([*usable, f"null:{heap.call(tb.USABLE_SIZE, 0).answer}"])
    moves = []
    for old, new in REALLOCATIONS:
        chunk = heap.call(tb.MALLOC, old).answer
        stays = heap.call(tb.REALLOC, chunk, new).answer & PLAIN == chunk & PLAIN
        moves.append(f"{old}>{new}:{'stays' if stays else 'moves'}")
    nothing = heap.call(tb.REALLOC, heap.call(tb.MALLOC, 24).answer, 0).answer
    facts["realloc"] = " ".join([*moves, f"24>0:{'chunk' if nothing else 'null'}"])
    return facts


def our_limits() -> Facts:
    """Which sizes get a chunk, and the first one that has pages of its own."""
    sizes = (0, 1, 131056, 1048576, 1048577, 16777216, (1 << 64) - 1)
    found = [Heap(512).pointer(tb.MALLOC, it) for it in sizes]
    facts = {"sizes": " ".join(f"{it}:{'chunk' if at else 'null'}" for it, at in zip(sizes, found))}
    overflow = Heap().pointer(tb.CALLOC, 1 << 33, 1 << 33)
    facts["calloc_overflow"] = "chunk" if overflow else "null"
    size, user, heap = 131000, 1, Heap(256)
    while True:
        heap = Heap(256)
        user = heap.pointer(tb.MALLOC, size)
        if heap.word(user) & 255 == 0:
            break
        size += 1
    facts["first_without_class"] = str(size)
    return facts


def our_mistake(name: str) -> str:
    """How the heap refuses a mistake."""
    heap = Heap()
    chunk = heap.call(tb.MALLOC, 24).answer
    if "freed" in name:
        heap.call(tb.FREE, chunk)
    if "corrupt" in name:
        at = (chunk & PLAIN) - 16
        heap.call(tb.STORE, at, heap.word(chunk & PLAIN) ^ 0x40)
    other = chunk
    if "misaligned" in name:
        other = chunk + 8
    elif "within" in name:
        other = chunk + 16
    elif "unmapped" in name:
        other = 0x10000
    op = (tb.REALLOC if "realloc" in name else tb.USABLE_SIZE if "usable" in name else tb.FREE)
    answer = heap.call(op, other, 10)
    return tb.heap_abort_name(answer.answer) if answer.code == "heap abort" else "nothing"


def facts_of_ours() -> Facts:
    """All of the heap of this repository."""
    facts, words = our_headers()
    facts["checksum"] = checksum_fact(words)
    facts |= {f"reuse_{size}_{count}": our_reuse(size, count) for size, count in REUSES}
    facts |= {"classes": our_classes(), **our_contents(), **our_placing(), **our_limits()}
    return facts | {f"mistake_{name}": our_mistake(name) for name in MISTAKES}
