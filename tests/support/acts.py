"""The tenants of tests/images: what each of their acts is, and how it has to end.

The table is written by what the sources do, not by what the program says of them: the acts' letters
and the numbers of the heap calls are those in the comments of the sources.
"""

import pathlib
from dataclasses import dataclass

from tests.support.places import IMAGES

BUILDS = ("clang-O0", "clang-O2", "gcc-O0", "gcc-O2")
# Those by which what the options tell is compared.
OPTION_BUILDS = ("clang-O0", "gcc-O2")

FAULT, ASYNC, ABORT, ILLEGAL, BREAKPOINT, LIMIT, NOT_ENDED, REFUSED, EXACT = range(129, 138)


@dataclass(frozen=True)
class Act:
    """An act of a tenant: its input, how it ends, and what has to be told of it."""

    source: str
    input: str
    status: int
    # What the first line has behind `mte_run: `.
    first: str = ""
    # The text behind `Cause: ` up to the chunk's pointer; none where no cause is told.
    cause: str = ""
    # The call that made the chunk of the cause, and the one that freed it.
    made: str = ""
    freed: str = ""
    options: tuple[str, ...] = ()

    @property
    def name(self) -> str:
        """Its input, and its options."""
        return " ".join((self.input, *self.options)).replace("--", "")

    @property
    def builds(self) -> tuple[str, ...]:
        """The builds of its tenant: gcc has no tags for objects on the stack."""
        return BUILDS if self.source != "objects" else BUILDS[:2]


TAGS = "fault TagCheck: a "
HOLE = "fault Translation: a "
OVER, UNDER, FREED = "Buffer Overflow, ", "Buffer Underflow, ", "Use After Free, "
TABLE, THIRD = "3, calloc(3, 16)", "4, malloc(100)"

CHUNKS = (
    Act("chunks", "a", FAULT, TAGS + "write of 1 byte",
        "[MTE]: " + OVER + "0 bytes right of a 48-byte allocation", TABLE),
    Act("chunks", "b", FAULT, TAGS + "write of 1 byte",
        "[MTE]: " + OVER + "8 bytes right of a 30-byte allocation", "6, realloc("),
    Act("chunks", "c", FAULT, TAGS + "write of 1 byte",
        "[MTE]: " + OVER + "500 bytes right of a 100-byte allocation", THIRD),
    Act("chunks", "d", FAULT, TAGS + "read of 1 byte",
        "[MTE]: " + UNDER + "1 byte left of a 100-byte allocation", THIRD),
    Act("chunks", "e", FAULT, TAGS + "read of 1 byte",
        "[MTE]: " + UNDER + "16 bytes left of a 1000-byte allocation", "8, realloc("),
    Act("chunks", "f", FAULT, TAGS + "read of 1 byte",
        "[MTE]: " + FREED + "17 bytes into a 48-byte allocation", TABLE, "16, free("),
    Act("chunks", "s", FAULT, TAGS + "read of 1 byte",
        "[MTE]: Use After Free by a stale pointer, 5 bytes into a 48-byte allocation", TABLE,
        "16, free("),
    *(Act("chunks", "s", FAULT, TAGS + "read of 1 byte",
          "[MTE]: Use After Free by a stale pointer, 5 bytes into a 48-byte allocation", TABLE,
          "16, free(", options=("--seed", seed))
      for seed in ("00000000000000ff", "0000000000000010", "ffffffffffffffff", "0" * 16)),
    Act("chunks", "L", FAULT, HOLE + "write of 1 byte",
        "[MTE]: " + OVER + "700 bytes right of a 200000-byte allocation", "14, malloc(200000)"),
    Act("chunks", "M", FAULT, HOLE + "read of 1 byte",
        "[MTE]: " + FREED + "9 bytes into a 200000-byte allocation", "14, malloc(200000)",
        "16, free("),
    Act("chunks", "n", FAULT, HOLE + "write of 1 byte", "Null Pointer"),
    Act("chunks", "o", FAULT, HOLE + "write of 1 byte", "Null Pointer"),
    Act("chunks", "t", FAULT, TAGS + "read of 1 byte",
        "[MTE]: a pointer of another tag into a 100-byte allocation", THIRD),
    Act("chunks", "v", FAULT, TAGS + "read of 1 byte",
        "the tags were changed of a 100-byte allocation", THIRD),
    Act("chunks", "g", ABORT, "abort InvalidState: ", "Double Free of a 48-byte allocation",
        "17, calloc(4, 12)", "18, free("),
    Act("chunks", "r", ABORT, "abort InvalidState: ", "Use After Free of a 48-byte allocation",
        TABLE, "16, free("),
    Act("chunks", "u", ABORT, "abort InvalidState: ", "Use After Free of a 48-byte allocation",
        TABLE, "16, free("),
    Act("chunks", "i", ABORT, "abort HeaderCorrupt: ",
        "Invalid Pointer, 32 bytes into a 100-byte allocation", THIRD),
    Act("chunks", "j", ABORT, "abort Misaligned: ",
        "Invalid Pointer, 3 bytes into a 100-byte allocation", THIRD),
    Act("chunks", "k", ABORT, "abort Unmapped: ", "Invalid Pointer, which no heap call returned"),
    Act("chunks", "h", ABORT, "abort HeaderCorrupt: ",
        "Corrupt Header: something was written in front of a 100-byte allocation", THIRD),
    Act("chunks", "K", ABORT, "abort AlreadyFree: ", "Double Free of a 100-byte allocation", THIRD,
        "14, free("),
    Act("chunks", "N", ABORT, "abort NotABlock: ",
        "Invalid Pointer, 32 bytes into a 100-byte allocation", THIRD),
    Act("chunks", "l", 0),
    Act("chunks", "m", 0),
    Act("chunks", "p", EXACT, "exact: a read of 1 byte",
        "[exact]: " + OVER + "0 bytes right of a 30-byte allocation", "6, realloc(",
        options=("--exact",)),
    Act("chunks", "q", EXACT, "exact: a write of 1 byte",
        "[exact]: " + OVER + "0 bytes right of a 30-byte allocation", "6, realloc(",
        options=("--exact=writes",)),
    Act("chunks", "w", EXACT, "exact: a read of 31 bytes",
        "[exact]: " + OVER + "0 bytes right of a 30-byte allocation", "6, realloc(",
        options=("--exact",)),
    Act("chunks", "A", EXACT, "exact: a read of 1 byte",
        "[exact]: " + OVER + "0 bytes right of a 25-byte allocation", "11, calloc(5, 5)",
        options=("--exact",)),
    Act("chunks", "B", EXACT, "exact: a write of 1 byte",
        "[exact]: " + OVER + "1 byte right of a 60-byte allocation", "9, memalign(256, 60)",
        options=("--exact",)),
    Act("chunks", "x", EXACT, "exact: a read of 1 byte",
        "[exact]: " + UNDER + "2 bytes left of a 100-byte allocation", THIRD,
        options=("--exact",)),
    Act("chunks", "y", EXACT, "exact: a read of 1 byte",
        "[exact]: " + FREED + "20 bytes into a 48-byte allocation", TABLE, "16, free(",
        options=("--exact",)),
    Act("chunks", "z", EXACT, "exact: a write of 1 byte",
        "[exact]: " + OVER + "4 bytes right of a 30-byte allocation", "6, realloc(",
        options=("--exact",)),
    Act("chunks", "p", EXACT, "exact: a read of 1 byte",
        "[exact]: " + OVER + "0 bytes right of a 30-byte allocation", "6, realloc(",
        options=("--async", "--exact")),
    Act("chunks", "f", ASYNC, "an access before 0x", options=("--async",)),
    # What no tag finds, and the reads that --exact=writes lets pass.
    Act("chunks", "q", 0),
    Act("chunks", "x", 0),
    Act("chunks", "y", 0),
    Act("chunks", "w", 31),
    Act("chunks", "p", 0, options=("--exact=writes",)),
    Act("chunks", "l", 0, options=("--exact",)),
    Act("chunks", "m", 0, options=("--exact",)),
)

STACK = (
    Act("stack", "a", FAULT, HOLE + "read of 4 bytes at 0x0000000040000000",
        "an access above the stack, where a program for Linux finds its arguments"),
    Act("stack", "b", FAULT, HOLE + "write of 4 bytes at 0x0000000040000010",
        "Buffer Overflow of an object on the stack, 16 bytes above the stack"),
    Act("stack", "c", FAULT, HOLE + "read of 4 bytes", "Null Pointer"),
    Act("stack", "d", FAULT, HOLE + "write of ", "Stack Overflow, "),
    Act("stack", "f", FAULT, HOLE + "write of 1 byte at 0x0000000040000000",
        "Buffer Overflow of an object on the stack, 0 bytes above the stack"),
    Act("stack", "l", FAULT, HOLE + "read of 4 bytes", "Null Pointer"),
    Act("stack", "r", FAULT, HOLE + "read of 4 bytes at 0x0000000040000",
        "Buffer Overflow of an object on the stack, "),
    Act("stack", "s", FAULT, HOLE + "read of 4 bytes", "Null Pointer"),
)

READ_ONLY, WILD = "Read-only Memory: ", "Wild Jump: the address is no code"
PLACES = (
    Act("places", "c", FAULT, "fault Permission: a write of 1 byte", READ_ONLY),
    Act("places", "o", FAULT, "fault Permission: a write of 1 byte", READ_ONLY),
    Act("places", "d", FAULT, "fault Permission: a read", WILD),
    Act("places", "j", FAULT, "fault Translation: a read at 0x0000000005550000", WILD),
    Act("places", "p", FAULT, "fault PcAlignment: a read", WILD),
    Act("places", "w", 0),
)

# The mnemonic that a disassembler has for the word of an act, and its family.
FAMILIES = {
    "a": ("ldadd", "an exclusive or atomic access"),
    "b": ("dmb", "a barrier"),
    "c": ("crc32b", "a checksum (CRC32)"),
    "d": ("dc", "a system instruction, as of caches"),
    "e": ("ldxr", "an exclusive or atomic access"),
    "f": ("fadd", "floating point or SIMD"),
    "g": ("hvc", "a call of a hypervisor, a monitor or a debugger"),
    "h": ("eret", "a return from an exception"),
    "i": ("svc", "an SVC of another number than 0"),
    "m": ("mrs", "an access to a system register"),
    "n": ("abs", "floating point or SIMD"),
    "o": ("ldar", "an exclusive or atomic access"),
    "p": ("prfm", "a prefetch"),
    "q": ("ldr", "floating point or SIMD"),
    "r": ("pacia", "pointer authentication that is no hint"),
    "s": ("ptrue", "SVE or SME"),
    "t": ("retaa", "pointer authentication that is no hint"),
    "u": ("udf", "UDF, as zeros and other data are"),
}
# What a breakpoint's number stands for; none where nothing is known of it.
TRAPS = {
    "B": ("0", "a breakpoint that a debugger or __builtin_debugtrap set"),
    "C": ("6", "abort, or an assert that failed, of examples/libc"),
    "D": ("77", ""),
    "E": ("21778", "an index out of bounds (UBSan)"),
    "F": ("22014", "a check of UBSan"),
}
WORDS = (
    *(Act("words", letter, ILLEGAL, "illegal word 0x") for letter in FAMILIES),
    Act("words", "A", BREAKPOINT, "breakpoint 1"),
    *(Act("words", letter, BREAKPOINT, f"breakpoint {trap[0]} at ")
      for letter, trap in TRAPS.items()),
    Act("words", "S", FAULT, "fault SpAlignment: a read of 8 bytes", "unknown"),
    Act("words", "T", FAULT, "fault Alignment: a write", "unknown"),
)

NAMES = tuple(
    Act("names", letter, FAULT, HOLE + "read of ", "Null Pointer") for letter in "abnt0123"
)

MANY = (
    Act("many", "h", FAULT, TAGS + "read of 1 byte",
        "[MTE]: " + FREED + "4 bytes into a 50-byte allocation", "2, malloc(50)", "5, free("),
    Act("many", "u", FAULT, TAGS + "read of 1 byte",
        "[MTE]: " + UNDER + "2 bytes left of a 80-byte allocation", "1, malloc(80)"),
    Act("many", "x", FAULT, TAGS + "read of 1 byte",
        "[MTE]: " + OVER + "252 bytes right of a 200-byte allocation", "6, malloc(200)"),
    # Under this seed the first and the third of three chunks have one tag.
    Act("many", "x", 0, options=("--seed", "0e3cb6225c186a21")),
)
# More heap calls than are kept.
FORGOTTEN = Act("many", "k", FAULT, TAGS + "read of 1 byte", "unknown")

SERVICES = (
    Act("services", "a", FAULT, TAGS + "write of 1 byte",
        "[MTE]: " + OVER + "24 bytes right of a 40-byte allocation", "1, malloc(40)"),
    Act("services", "a", ASYNC, "an access before 0x", options=("--async",)),
    Act("services", "cten words of input", 0),
    Act("services", "e77", 77),
    Act("services", "e131", 131),
    Act("services", "o", 30),
    Act("services", "o", 15, options=("--out", "15")),
    Act("services", "o", 0, options=("--out", "0")),
    Act("services", "o", 25, options=("--out", "25")),
    Act("services", "o", 30, options=("--out", "65536")),
    Act("services", "s", 0),
    Act("services", "s", 0, options=("--pages", "2049")),
    Act("services", "s", 0, options=("--pages", "9")),
    Act("services", "s", NOT_ENDED, "still running after its slices",
        options=("--slices", "40,0,1048576")),
    Act("services", "s", NOT_ENDED, "still running after its slices",
        options=("--slices", "40,10")),
    Act("services", "w", LIMIT, "the limit of 1 steps is reached", options=("--steps", "1")),
    Act("services", "s", 0, options=("--pages", "4096", "--slices", "1000,700,5000")),
    Act("services", "w", LIMIT, "the limit of 2000 steps is reached", options=("--steps", "2000")),
    Act("services", "w", NOT_ENDED, "still running after its slices",
        options=("--slices", "300,0,400")),
)

# clang names the check, gcc does not.
SUMS = tuple(Act("sums", letter, BREAKPOINT, "breakpoint ") for letter in "adps")
CHECKS = {
    "a": "an addition overflows (UBSan)",
    "d": "a division by 0 or that overflows (UBSan)",
    "p": "an index out of bounds (UBSan)",
    "s": "a shift out of bounds (UBSan)",
}

OBJECTS = (
    Act("objects", "o", FAULT, TAGS + "write of 1 byte",
        "[MTE]: Buffer Overflow of an object on the stack, or Use After Return"),
    Act("objects", "x", 0),
)

PAIRS = (Act("pairs", "x", 0),)

ACTS = (
    *CHUNKS, *STACK, *PLACES, *WORDS, *NAMES, *MANY, *SERVICES, *SUMS, *OBJECTS, *PAIRS,
)
# One act of each tenant, for what takes long or much room.
PRIMARY = {
    "chunks": "f", "stack": "s", "places": "j", "words": "f", "names": "n", "many": "h",
    "services": "a", "sums": "a", "objects": "o", "pairs": "x",
}


def image(source: str, build: str) -> pathlib.Path:
    """The stored image of a tenant."""
    return IMAGES / f"{source}.{build}.elf"


def primary(source: str) -> Act:
    """The act of a tenant that stands for all."""
    return next(
        act for act in ACTS
        if (act.source, act.input) == (source, PRIMARY[source]) and not act.options
    )


# Each image by each of its builds.
EVERY_IMAGE = [
    (source, build) for source in sorted(PRIMARY) for build in BUILDS
    if build in primary(source).builds
]


def acts_of(source: str) -> list[Act]:
    """The acts of a tenant."""
    return [act for act in ACTS if act.source == source]
