"""`mte_run --check=arguments`: it tells calls of functions of C whose arguments these do not allow,
planted ones and, of hundreds that are drawn, the first one that a few lines of Python find."""

import itertools
import pathlib
import random
import re
from typing import NamedTuple

import pytest

from tests.support.running import run, succeed
from tests.support.tools import need
from tests.test_checks import BUILDS, check, image

NEGATIVE = "Negative Size: {} is called with {}"
OVERLAP = "Overlapping Ranges: {0} reads {1} from #0 and writes {2} from #{3}"
# What is wrong with the calls, by the numbers in the source.
BUGS = {
    1: NEGATIVE.format("malloc", -5), 2: NEGATIVE.format("malloc", -64),
    3: NEGATIVE.format("calloc", -5), 4: NEGATIVE.format("realloc", -1),
    5: NEGATIVE.format("memcpy", -5), 6: NEGATIVE.format("memmove", -1),
    7: NEGATIVE.format("memset", -16), 8: OVERLAP.format("memcpy", "16 bytes", "16 bytes", 1),
    9: OVERLAP.format("memcpy", "16 bytes", "16 bytes", -15),
    10: OVERLAP.format("memcpy", "9 bytes", "9 bytes", 8),
    11: OVERLAP.format("memcpy", "8 bytes", "8 bytes", 1),
    12: OVERLAP.format("strcpy", "20 bytes", "20 bytes", -1),
    13: OVERLAP.format("strcpy", "181 bytes", "181 bytes", 100),
    14: OVERLAP.format("stpcpy", "21 bytes", "21 bytes", 20),
    15: OVERLAP.format("strncpy", "5 bytes", "16 bytes", -8),
    16: OVERLAP.format("strcat", "16 bytes", "35 bytes", -4),
    17: OVERLAP.format("strncat", "4 bytes", "25 bytes", -2),
    18: NEGATIVE.format("aligned_alloc", -5),
}
IDIOMS = range(1, 8)

# What makes mte_run look at each attempt.
EACH_STEP = ("--trace=18446744073709551615-18446744073709551615",)
SIZE = 1024
# The functions whose ranges may not overlap; those with a size in x2; and those that make chunks,
# with the registers of their sizes.
MEMORY = ("memcpy", "mempcpy")
STRINGS = ("strcpy", "stpcpy", "strncpy", "strcat", "strncat")
SIZED = (*MEMORY, "memmove", "memset", "memcmp", "bcopy", "strncpy")
MAKERS = {"malloc": (0,), "calloc": (0, 1), "realloc": (1,), "reallocarray": (1, 2),
          "aligned_alloc": (1,), "memalign": (1,), "posix_memalign": (2,), "valloc": (0,),
          "_Znwm": (0,), "_ZnamRKSt9nothrow_t": (0,), "bzero": (1,)}
SHOWN = {"_Znwm": "operator new", "_ZnamRKSt9nothrow_t": "operator new[]",
         "memalign": "aligned_alloc", "valloc": "malloc"}
NAMES = (*dict.fromkeys((*MEMORY, *STRINGS, *SIZED, *MAKERS)), "memccpy", "my_memcpy")
# How a function is called: by its name, by its address, and as the last thing of another one.
WAYS = ("bl {name}", "adr x9, {name}\nblr x9", "adr x9, {name}\nbl last", "bl last_{name}")
START = """
.globl _start
_start:
    sub sp, sp, #16
    adrp x28, buffer
    add x28, x28, :lo12:buffer
"""
# The same in a chunk, with the bytes of the buffer.
CHUNK = f"""
    mov x0, #{SIZE}
    mov x8, #3
    svc #0
    mov x1, x28
    mov x28, x0
    mov x2, #{SIZE}
copied:
    ldrb w3, [x1], #1
    strb w3, [x0], #1
    subs x2, x2, #1
    b.ne copied
"""


class Call(NamedTuple):
    """A call: where its first two arguments point in the buffer, and the third."""

    name: str
    way: str
    first: int
    second: int
    third: int

    def numbers(self) -> tuple[int, int, int]:
        """Its arguments, where those that are no pointers are as they are."""
        return self.first, self.second, self.third

    def text(self) -> str:
        """Its instructions."""
        sizes = MAKERS.get(self.name, ())
        lines = [f"ldr x{it}, ={self.numbers()[it] % 2**64}" if it in sizes or it == 2
                 else f"add x{it}, x28, #{self.numbers()[it] % SIZE}" for it in range(3)]
        return "\n".join([*lines, self.way.format(name=self.name), ""])


def ranges(call: Call, held: bytes) -> tuple[range, range]:
    """The bytes that a function reads and writes, by the C standard and by what `mempcpy` and
    `stpcpy` have in common with `memcpy` and `strcpy`."""
    to, source, bound = call.numbers()
    if call.name in MEMORY:
        return range(source, source + bound), range(to, to + bound)
    length, before = held.index(0, source) - source, held.index(0, to) - to
    if call.name == "strncpy":
        return range(source, source + min(bound, length + 1)), range(to, to + bound)
    if call.name == "strncat":
        copied = min(bound, length)
        return range(source, source + min(bound, length + 1)), range(to, to + before + copied + 1)
    end = source + length + 1
    written = length + 1 + (before if call.name == "strcat" else 0)
    return range(source, end), range(to, to + written)


def wrong(call: Call, held: bytes, is_chunk: bool, is_alias: bool) -> str:
    """What is told of a call: nothing where it is allowed."""
    shown = SHOWN.get(call.name, call.name)
    if is_alias and shown == "memcpy":
        shown = "memmove"
    registers = MAKERS.get(call.name, (2,) if call.name in SIZED else ())
    for register in registers:
        if call.numbers()[register] < 0:
            return f"Negative Size: {shown} is called with {call.numbers()[register]}"
    is_near = is_chunk or abs(call.first - call.second) <= 64
    if call.name in STRINGS and is_near or shown in MEMORY and call.first != call.second:
        read, written = ranges(call, held)
        if set(read) & set(written):
            return (f"Overlapping Ranges: {shown} reads {amount(read)} from #{read.start}"
                    f" and writes {amount(written)} from #{written.start}")
    return ""


@pytest.mark.parametrize("build", sorted(BUILDS))
def test_wrong_arguments(alone: pathlib.Path, tmp_path: pathlib.Path, build: str) -> None:
    """Each planted call with its function, at the line that makes it, only where asked."""
    for bug, cause in BUGS.items():
        path = image(tmp_path, build, "argument_bugs.c", f"BUG={bug}")
        told = check(alone, path)
        found = re.search(r"^Cause: \[check\]: (.*)$", told.errors, re.M)
        assert told.status == 137 and found and same(found[1], cause), (bug, told.errors)
        caller = "pass_on" if bug == 11 else "call"
        assert re.search(rf"^  #\d+ {caller}.* at argument_bugs\.c:\d+", told.errors, re.M), bug
        others = check(alone, path, kinds="frees,leaks,undefined").errors
        assert "Negative" not in others and "Overlapping" not in others, (bug, others)


@pytest.mark.parametrize("build", sorted(BUILDS))
def test_right_arguments(alone: pathlib.Path, tmp_path: pathlib.Path, build: str) -> None:
    """What the functions allow is not told."""
    for idiom in IDIOMS:
        path = image(tmp_path, build, "argument_bugs.c", f"IDIOM={idiom}")
        told = check(alone, path, kinds="all")
        assert told.status == 0 and "check:" not in told.errors, (idiom, told.errors)


def amount(of: range) -> str:
    """How many bytes a range has, in words."""
    return f"{len(of)} byte{'' if len(of) == 1 else 's'}"


def drawn(draw: random.Random) -> Call:
    """A call of a function, of which some are wrong."""
    near = draw.choice((0, 1, 4, 30, 64, 65, 200))
    first = draw.randrange(SIZE // 2)
    second = min(SIZE // 2, max(0, first + draw.choice((-near, near))))
    third = draw.choice((0, 1, near, near + 1, draw.randrange(100)))
    name = draw.choice(NAMES)
    if draw.random() < 0.05:
        third = -draw.choice((1, 5, 2**40, 2**63))
    if name in MAKERS and draw.random() < 0.05:
        first, second = (draw.choice((1, -5, 2**62)) for _ in range(2))
    if name == "strncat":
        third = abs(third)
    return Call(name, draw.choice(WAYS), first, second, third)


def assembly(calls: list[Call], held: bytes, is_chunk: bool, is_alias: bool) -> str:
    """A program that makes the calls and exits."""
    names = [it for it in NAMES if not (is_alias and it == "memmove")]
    bodies = [f".globl {it}\n.type {it}, %function\n{it}: ret\n.size {it}, 4\n"
              f"last_{it}: b {it}\n" for it in names]
    alias = "last_memmove: b memmove\n.globl memmove\n.set memmove, memcpy\n" if is_alias else ""
    pooled = [it.text() + ("b 1f\n.ltorg\n1:\n" if at % 100 == 99 else "")
              for at, it in enumerate(calls)]
    end = "mov x0, #0\nmov x8, #0\nsvc #0\nlast: br x9\n"
    data = ".data\n.balign 4096\nbuffer: .byte " + ", ".join(map(str, held)) + "\n"
    return "".join([START, CHUNK if is_chunk else "", *pooled, end, ".ltorg\n", *bodies, alias,
                    data])


def contents(draw: random.Random) -> bytes:
    """Strings of several lengths; the last byte ends one."""
    strings = (b"x" * draw.choice((0, 1, 3, 20, 70)) + b"\0" for _ in itertools.count())
    held = b""
    while len(held) < SIZE:
        held += next(strings)
    return held[:SIZE - 1] + b"\0"


@pytest.mark.parametrize("seed", range(12))
def test_the_first_wrong_call_is_told(alone: pathlib.Path, tmp_path: pathlib.Path,
                                      seed: int) -> None:
    """Of hundreds, by its function, its ranges and its numbers; none where all are allowed."""
    need("clang", "ld.lld")
    draw = random.Random(seed)
    held, is_chunk, is_alias = contents(draw), seed % 2 == 1, seed % 3 == 2
    calls: list[Call] = []
    told = ""
    most = draw.randrange(100, 300)
    while len(calls) < 400 and not told:
        call = drawn(draw)
        said = wrong(call, held, is_chunk, is_alias)
        if said and len(calls) < most or not said and len(calls) >= most and seed % 4:
            continue
        calls.append(call)
        told = said
    source, path = tmp_path / "calls.s", tmp_path / "calls.elf"
    source.write_text(assembly(calls, held, is_chunk, is_alias), encoding="ascii")
    succeed(["clang", "--target=aarch64-linux-gnu", "-fuse-ld=lld", "-nostdlib", "-static",
             "-o", path, source])
    ran = run([alone, "--check=arguments", path])
    shown = run([alone, "--check=arguments", *EACH_STEP, "--trace-file", tmp_path / "lines", path])
    assert (shown.status, shown.errors) == (ran.status, ran.errors)
    found = re.search(r"^Cause: \[check\]: (.*)$", ran.errors, re.M)
    if not told:
        assert ran.status == 0 and not found, ran.errors
        return
    assert ran.status == 137 and found, (told, ran.errors)
    assert same(found[1], told), (found[1], told)


def same(found: str, wanted: str) -> bool:
    """Whether two texts are the same but for where the buffer begins."""
    places = [int(it, 16) for it in re.findall(r"0x\w+", found)]
    offsets = [int(it) for it in re.findall(r"#(-?\d+)", wanted)]
    starts = {place - offset for place, offset in zip(places, offsets)}
    plain = re.sub(r"0x\w+", "", found), re.sub(r"#-?\d+", "", wanted)
    return plain[0] == plain[1] and len(places) == len(offsets) and len(starts) <= 1
