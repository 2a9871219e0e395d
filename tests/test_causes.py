"""Causes that depend on which of several heap calls is meant."""

import json
import pathlib
import random
import re
import shutil
import struct

import pytest

from tests.support.instructions import move, program, store_byte
from tests.support.places import EXAMPLES
from tests.support.running import run, succeed
from tests.support.samples import COMPILERS, FLAGS, tenant
from tests.support.tools import need

NULL_AFTER_TWO = """#include "tenant.h"
int main(void)
{
    tenant_malloc(1ull << 40);
    char *page = tenant_calloc(1ull << 20, 1ull << 21);
    return *(volatile char *)page;
}
"""


@pytest.mark.parametrize("compiler", sorted(COMPILERS))
def test_the_newest_call_without_a_chunk(
    alone: pathlib.Path, tmp_path: pathlib.Path, compiler: str
) -> None:
    """Of two calls that returned no chunk the second led to the null pointer."""
    need(COMPILERS[compiler][0])
    source = tmp_path / "null_after_two.c"
    source.write_text(NULL_AFTER_TWO, encoding="utf-8")
    told = run([alone, tenant(tmp_path, source, compiler)]).errors
    assert "Cause: Null Pointer\n" in told
    assert "  the newest call without a chunk is call 2, calloc(1048576, 2097152) = 0x0" in told


ASKED = """#include "tenant.h"
int main(void)
{
    uint64_t call[3];
    tenant_read(call, sizeof call);
    char *found = call[0] == 0 ? tenant_malloc(call[1]) : call[0] == 1 ?
        tenant_calloc(call[1], call[2]) : call[0] == 2 ?
        tenant_realloc(tenant_malloc(24), call[1]) : tenant_memalign(call[2], call[1]);
    (void)*(volatile char *)found;
    return 0;
}
"""
CHUNK, FEW = 1 << 20, 40


def drawn_call(source: random.Random) -> tuple[int, int, int]:
    """A call, malloc, calloc, realloc or memalign: its number, a size near a limit, and the number
    of elements or the alignment."""
    near = source.choice((4095, FEW * 4096, CHUNK - 1, CHUNK, (1 << 64) - 2))
    call, size = source.randrange(4), near + source.randrange(2)
    if call == 1:
        parts = source.choice((1, 2, 3, 1 << 10))
        return call, -(-size // parts), parts
    return call, size, source.choice((1, 16, 4096, 24, 8192))


def test_the_reason_of_a_refusal(alone: pathlib.Path, tmp_path: pathlib.Path) -> None:
    """Calls up to each limit are refused for more bytes than a chunk has, for pages that are not
    there, for an alignment, and for nothing else."""
    image, given = compiled(tmp_path, "asked", ASKED), tmp_path / "call"
    seen: set[tuple[int, bool, bool, bool]] = set()
    for number in range(90):
        source = random.Random(f"refused {number}")
        pages, (call, size, other) = source.choice((FEW, 4096)), drawn_call(source)
        asked = size * other if call == 1 else size
        is_large, is_wrong = asked > CHUNK, call == 3 and other in (24, 8192)
        given.write_bytes(struct.pack("<3Q", call, size, other))
        told = run([alone, "--pages", str(pages), "--input", given, image]).errors
        why = re.search(r"newest call without a chunk is .*: (a chunk has|too few)", told)
        wanted = "a chunk has" if is_large else "too few"
        is_refused = is_large or is_wrong or asked >= pages * 4096
        assert (why and why[1]) == (wanted if is_refused else None), (call, size, other, pages)
        seen.add((call, is_large, is_wrong, is_refused))
    assert len(seen) == 14, seen


def test_the_arrow_of_an_overflow(alone: pathlib.Path, tmp_path: pathlib.Path) -> None:
    """It goes from the last granule of the chunk to the access: 24 bytes behind a header have the
    second and the third granule of their row, and the access is to the fourth."""
    need("clang", "ld.lld")
    image = tenant(tmp_path, EXAMPLES / "c" / "heap_overflow.c")
    picture = run([alone, "--map", "-", image]).output
    middles = [16 * column + 8 for column in (2, 3)]
    arrows = re.findall(r'class="arrow" transform[^>]* d="M(\d+),\d+Q\d+,\d+ (\d+),', picture)
    assert arrows == [(str(middles[0]), str(middles[1]))]


def compiled(folder: pathlib.Path, name: str, text: str) -> pathlib.Path:
    """The image of a tenant in C, by clang."""
    need("clang", "ld.lld")
    source = folder / f"{name}.c"
    source.write_text(text, encoding="utf-8")
    return tenant(folder, source)


AMONG_OTHERS = """#include "tenant.h"
int main(void)
{
    char *chunks[32];
    for (int i = 0; i < 32; i++)
        chunks[i] = tenant_malloc(24);
    volatile char *p = chunks[16];
    p[DISTANCE] = 1;
    return 0;
}
"""


@pytest.mark.parametrize("distance, cause", [
    (400, "Buffer Overflow, 376 bytes right of a 24-byte allocation"),
    (-400, "Buffer Underflow, 400 bytes left of a 24-byte allocation"),
    (24 + 24, "Buffer Overflow, 24 bytes right of a 24-byte allocation"),
])
def test_a_far_overflow_is_one_of_the_chunk_that_was_meant(
    alone: pathlib.Path, tmp_path: pathlib.Path, distance: int, cause: str
) -> None:
    """Whatever chunks with the same tag lie nearer: the pointer was in a register just before."""
    text = AMONG_OTHERS.replace("DISTANCE", str(distance))
    image, faults = compiled(tmp_path, "among_others", text), 0
    for seed in range(1, 17):
        told = run([alone, "--seed", f"{seed * 0x9E3779B97F4A7C15 % 2**64:x}", image]).errors
        if told.startswith("mte_run: fault TagCheck"):
            faults += 1
            assert f"Cause: [MTE]: {cause} at " in told, told
            assert "  allocated by call 17, malloc(24)" in told, told
    assert faults > 8


STALE_FREE = """#include "tenant.h"
int main(void)
{
    char *first = tenant_malloc(24);
    tenant_free(first);
    char *second = tenant_malloc(24);
    tenant_free(first);
    return *(volatile char *)second;
}
"""


def test_a_free_by_a_stale_pointer(alone: pathlib.Path, tmp_path: pathlib.Path) -> None:
    """The access by the second pointer is right; the free by the first was not."""
    told = run([alone, compiled(tmp_path, "stale_free", STALE_FREE)]).errors
    calls = re.findall(r"by call (\d+), (\w+)\((0x\w+|\d+)\) = (0x\w+)", told)
    cause = "Cause: [MTE]: Double Free by a stale pointer, met by an access, 0 bytes into a 24-byte"
    assert cause in told, told
    made, freed = calls
    assert made[:2] == ("3", "malloc") and freed[:2] == ("4", "free")
    assert int(made[3], 16) % 2**56 == int(freed[2], 16) % 2**56 and made[3] != freed[2]
    pointer = re.search(r"Cause: .*, freed by (0x\w{16})\n", told)
    assert pointer and int(pointer[1], 16) == int(freed[2], 16)


LARGE_ARRAY = """#include "tenant.h"
__attribute__((noinline)) static void fill(volatile char *held)
{
    held[0] = 1;
}
int main(void)
{
    volatile char held[BYTES];
    fill(held);
    return held[1];
}
"""


@pytest.mark.parametrize("size", [20_000, 100_000, 400_000, 6_000_000])
def test_a_large_array_on_the_stack(
    alone: pathlib.Path, tmp_path: pathlib.Path, size: int
) -> None:
    """A frame that is larger than the stack is a stack overflow, at any distance."""
    image = compiled(tmp_path, "large_array", LARGE_ARRAY.replace("BYTES", str(size)))
    assert "Cause: Stack Overflow, " in run([alone, image]).errors


STACK, NEAR = 0x3FFFC000, 65_536


def test_an_access_below_the_stack(alone: pathlib.Path, tmp_path: pathlib.Path) -> None:
    """Up to 64 KiB below the stack it is a stack overflow, with the distance, further it is not."""
    source, image = random.Random(1), tmp_path / "below.elf"
    for distance in (1, NEAR, NEAR + 1, *(source.randrange(2, 2 * NEAR) for _ in range(20))):
        image.write_bytes(program(move(1, STACK - distance), store_byte(2, 1)))
        bytes_below = f"{distance} byte{'s' * (distance != 1)} below the stack"
        wanted = f"Stack Overflow, {bytes_below}" if distance <= NEAR else "unknown"
        assert f"Cause: {wanted}\n" in run([alone, image]).errors, distance


OFF_BY_ONE = """#include "tenant.h"
int main(void)
{
    int *a = tenant_malloc(COUNT * sizeof *a);
    for (int i = 0; i <= COUNT; i++)
        a[i] = i;
    return 0;
}
"""


@pytest.mark.parametrize("count", range(1, 9))
def test_each_off_by_one_is_found_by_why(
    alone: pathlib.Path, tmp_path: pathlib.Path, count: int
) -> None:
    """Also where the element beyond the end is in the chunk's last granule; the clean end of a
    run without --exact says that it was not looked at."""
    image = compiled(tmp_path, "off_by_one", OFF_BY_ONE.replace("COUNT", str(count)))
    why = run([EXAMPLES / "why.sh", image], extra={"TOMBOLOPAN_BUILT": str(alone.parent)})
    assert why.status in (129, 137) and "off_by_one.c:6" in why.errors
    assert f"Buffer Overflow, 0 bytes right of a {4 * count}-byte allocation" in why.errors
    plain = run([alone, image])
    is_seen = count % 4 == 0
    assert plain.status == (129 if is_seen else 0)
    assert ("--exact alone" in plain.errors) == (not is_seen)


TWICE = """#include "tenant.h"
int main(void)
{
    char *text = tenant_malloc(5);
    text[5] = 'x';
    for (int i = 0; i < 100; i++)
        tenant_free(tenant_malloc(64));
    tenant_write("later", 5);
    tenant_free(text);
    return 0;
}
"""


def test_exact_shows_the_moment_of_the_access(alone: pathlib.Path, tmp_path: pathlib.Path) -> None:
    """What came later in the slice is neither in the output nor among the tags and the pages."""
    image = compiled(tmp_path, "twice", TWICE)
    ran = run([alone, "--exact", "--map", "text", image])
    assert (ran.status, ran.out) == (137, b"")
    assert "Cause: [exact]: Buffer Overflow, 0 bytes right of a 5-byte allocation" in ran.errors
    tag = re.search(r"allocated by call 1, malloc\(5\) = 0x(\w+)", ran.errors)
    tags = re.search(r"tags from 0x\w+, .*\[(\w)\]", ran.errors)
    assert tag and tags and int(tag[1], 16) >> 56 == int(tags[1], 16)


ZEROED = """#include "tenant.h"
int main(void)
{
    char *at = tenant_malloc(SIZE);
    __asm__ volatile(".arch_extension memtag\\n\\tINSTRUCTION" : "+r"(at) : : "memory");
    return 0;
}
"""


PAST, NONE = "is past the size of its chunk", "is of no chunk"


@pytest.mark.parametrize(("instruction", "size", "offset", "said"), [
    ("stzg %0, [%0]", 16, 0, ""), ("stzg %0, [%0]", 15, 15, PAST),
    ("stzg %0, [%0], #16", 16, 0, ""), ("stzg %0, [%0, #16]!", 16, 16, NONE),
    ("stzg %0, [%0, #16]", 32, 0, ""), ("stzg %0, [%0, #16]", 31, 31, PAST),
    ("stz2g %0, [%0]", 32, 0, ""), ("stz2g %0, [%0]", 16, 16, NONE),
    ("stg %0, [%0]", 15, 0, ""), ("st2g %0, [%0]", 31, 0, ""),
])
def test_exact_compares_the_granules_that_are_cleared(
    alone: pathlib.Path, tmp_path: pathlib.Path, instruction: str, size: int, offset: int,
    said: str
) -> None:
    """STZG clears sixteen bytes and STZ2G 32, a post-indexed one at its base; STG and ST2G none.
    The byte that is told is at an offset from the chunk's first, at 0x10 of its class."""
    source = ZEROED.replace("SIZE", str(size)).replace("INSTRUCTION", instruction)
    ran = run([alone, "--exact", compiled(tmp_path, "zeroed", source)])
    assert ran.status == (137 if said else 0)
    told = re.search(r"the byte at 0x\w*00(\w\w) (.*)", ran.errors)
    assert (told and (int(told[1], 16) - 16, told[2])) == ((offset, said) if said else None)


SMASHED = """#include "tenant.h"
__attribute__((noinline)) static void fill(volatile char *to, unsigned long count)
{
    for (unsigned long i = 0; i < count; i++)
        to[i] = 'A';
}
__attribute__((noinline)) static void work(unsigned long count)
{
    volatile char held[16];
    fill(held, count);
}
int main(void)
{
    work(48);
    return 0;
}
"""
WRITTEN = re.compile(
    r"  the return address at (0x[0-9a-f]{16}) was last written by (fill\+0x[0-9a-f]+) at "
    r"smashed.c:5, step (\d+)\n    #0 \2 at smashed.c:5\n    #1 work\+0x[0-9a-f]+ at "
    r"smashed.c:10\n")


@pytest.mark.parametrize("level", ["-O0", "-O2"])
def test_a_smashed_return_address_is_told_with_its_last_write(
    alone: pathlib.Path, tmp_path: pathlib.Path, level: str
) -> None:
    """Alone and in a session: the store, by its step in the trace, and who called its function."""
    need("clang", "ld.lld")
    image, told = smashed(tmp_path, level), tmp_path / "told.json"
    ran = run([alone, "--json", told, image])
    assert "\nCause: Wild Jump: the address is no code\n" in ran.errors
    written = WRITTEN.search(ran.errors)
    assert written, ran.errors
    place, step = int(written[1], 16), int(written[3])
    load = re.search(r"  x30 was loaded from \[(0x[0-9a-f]{16})\], step (\d+)\n", ran.errors)
    assert load and int(load[1], 16) == place
    stored = stores(run([alone, "--trace", image]).errors)
    newest = max(number for number, start in stored if place <= start < place + 8)
    assert newest == step < int(load[2])
    held = json.loads(told.read_text())["last_store"]
    assert (int(held["address"], 16), held["step"]) == (place, step)
    assert [frame["function"] for frame in held["stack"]][:2] == ["fill", "work"]
    script = tmp_path / "script"
    script.write_text("admit 7 image 1 input 0 seed 0000000000000001 frames 99 out 9\n"
                      "slice 7 9\nslice 7 999999\n")
    session = run([alone, "--script", script, "7", "--frames", "300", image]).errors
    assert written[0] in session


def smashed(folder: pathlib.Path, level: str) -> pathlib.Path:
    """The image of a tenant that writes over a return address, by clang at a level."""
    (folder / "smashed.c").write_text(SMASHED, encoding="utf-8")
    for name in ("start.c", "tenant.h"):
        shutil.copy(EXAMPLES / "c" / name, folder)
    words = [*COMPILERS["clang"], *FLAGS, level, "-fno-stack-protector", "-o", "smashed.elf"]
    succeed([*words, "./start.c", "./smashed.c"], cwd=folder)
    return folder / "smashed.elf"


def stores(trace: str) -> list[tuple[int, int]]:
    """The steps of a trace that stored a byte, and where."""
    found = re.findall(r"^ *(\d+)  0x.*; \[(0x[0-9a-f]+)\] = 0x[0-9a-f]+ of 1$", trace, re.M)
    return [(int(step), int(place, 16)) for step, place in found]


MANGLED = """namespace q {
__attribute__((noinline)) int push(int *p) { return p[8]; }
}
extern "C" int main() { return q::push((int *)16); }
"""


def test_names_of_another_language(alone: pathlib.Path, tmp_path: pathlib.Path) -> None:
    """They are as the source has them, in the text, in JSON and in SARIF."""
    need("clang++", "ld.lld")
    (tmp_path / "push.cpp").write_text(MANGLED, encoding="utf-8")
    for name in ("start.c", "tenant.h"):
        shutil.copy(EXAMPLES / "c" / name, tmp_path)
    target = ["--target=aarch64-linux-gnu", "-nostdlib"]
    words = [*target, "-O2", "-g", "-ffreestanding", "-mgeneral-regs-only", "-c"]
    for compiler, source in (("clang", "start.c"), ("clang++", "push.cpp")):
        succeed([compiler, *words, source], cwd=tmp_path)
    link = ["clang", *target, "-fuse-ld=lld", "-static", "-o", "push.elf", "start.o", "push.o"]
    succeed(link, cwd=tmp_path)
    told = run([alone, "--json", "j", "--sarif", "s", "push.elf"], cwd=tmp_path).errors
    assert "#0 q::push(int*)+0x0 at push.cpp:2\n" in told
    assert " (q::push(int*)+0x0): " in told.splitlines()[0]
    for name, key in (("j", "function"), ("s", "name")):
        said = (tmp_path / name).read_text(encoding="ascii")
        assert f'"{key}":"q::push(int*)"' in said and "_ZN" not in said
