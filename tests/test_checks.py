"""`mte_run --check`: it tells each bug of the heap with its chunk, and says nothing of what correct
programs do with pointers."""

import json
import pathlib
import random
import re
import shutil
import sys
import tomllib

import causes
import checking
import pytest

from tests.support.cache import tenant_library
from tests.support.instructions import call, program
from tests.support.once import make_once
from tests.support.places import EXAMPLES, ROOT
from tests.support.programs import WARNINGS, compiled
from tests.support.running import Ran, run, succeed
from tests.support.samples import FLAGS
from tests.support.tools import need

SOURCES = ROOT / "tests" / "sources"
BUILDS = {
    f"{name}{level}": (*words, level)
    for name, words in {
        "clang": ("clang", "--target=aarch64-linux-gnu", "-fuse-ld=lld"),
        "gcc": ("aarch64-linux-gnu-gcc", "-w"),
    }.items()
    for level in ("-O0", "-O2")
}
OVERFLOW = "Buffer Overflow, {} right of a {}-byte"
UNDERFLOW = "Buffer Underflow, {} left of a {}-byte"
FREED = "Use After Free, {} into a {}-byte"
STALE = "Use After Free by a stale pointer, {} into a {}-byte"
TWICE, INSIDE = "Double Free of a {1}-byte", "Invalid Pointer, {} into a {}-byte"
# What is wrong, how far from the chunk, and its bytes, by the numbers in the source.
BUGS = {
    1: (OVERFLOW, "0 bytes", 24), 2: (OVERFLOW, "0 bytes", 32), 3: (OVERFLOW, "0 bytes", 24),
    4: (OVERFLOW, "376 bytes", 24), 6: (UNDERFLOW, "1 byte", 24), 7: (UNDERFLOW, "1 byte", 24),
    8: (UNDERFLOW, "208 bytes", 24), 9: (OVERFLOW, "1 byte", 24), 10: (OVERFLOW, "0 bytes", 32),
    11: (OVERFLOW, "0 bytes", 64), 12: (TWICE, "", 24), 13: (TWICE, "", 24), 14: (TWICE, "", 24),
    15: (FREED, "3 bytes", 24), 16: (FREED, "0 bytes", 24), 17: (FREED, "0 bytes", 24),
    18: (FREED, "8 bytes", 16), 19: (FREED, "1000 bytes", 300000), 20: (FREED, "3 bytes", 24),
    21: (STALE, "3 bytes", 24), 22: (INSIDE, "4 bytes", 24), 23: (INSIDE, "16 bytes", 48),
    24: (OVERFLOW, "0 bytes", 20), 25: (OVERFLOW, "0 bytes", 16), 26: (OVERFLOW, "0 bytes", 8),
    27: (OVERFLOW, "0 bytes", 24), 28: (STALE, "3 bytes", 40), 29: (TWICE, "", 40),
    30: (OVERFLOW, "0 bytes", 24), 31: (OVERFLOW, "0 bytes", 22),
}
IDIOMS = range(1, 22)
CHUNK, STACK = "of a 24-byte allocation at ", "of the stack"
# What depends on what was never given, and of what that is a part.
UNDEFINED = {
    1: ("whether it branches", CHUNK), 2: ("whether it branches", STACK),
    3: ("the address that it accesses", CHUNK), 4: ("what it writes out", CHUNK),
    5: ("the exit status", CHUNK), 6: ("where it jumps to", CHUNK),
    7: ("whether it branches", CHUNK), 8: ("whether it branches", CHUNK),
    9: ("an argument of the service", CHUNK), 10: ("whether it branches", CHUNK),
    11: ("whether it branches", STACK), 12: ("whether it branches", CHUNK),
    13: ("whether it branches", CHUNK), 14: ("whether it branches", CHUNK),
    15: ("whether it branches", CHUNK), 16: ("whether it branches", CHUNK),
    17: ("whether it branches", CHUNK),
}
UNDEFINED_IDIOMS = range(1, 17)
OVER, UNDER = "Buffer Overflow, {} right of the {}", "Buffer Underflow, {} left of the {}"
RETURNED, LEFT = "Use After Return of the {1}", "Use After Scope of the {1}"
NO_CALL = "which no heap call returned: it is one to the {1}"
# What is wrong, how far from the variable, its bytes and its name, by the numbers in the source.
PLACES = {
    1: (OVER, "0 bytes", "16-byte variable `buffer`"),
    2: (OVER, "0 bytes", "16-byte variable `numbers`"),
    4: (OVER, "0 bytes", "16-byte variable `buffer`"),
    5: (OVER, "0 bytes", "16-byte variable `buffer`"),
    6: (OVER, "0 bytes", "24-byte variable `numbers`"),
    8: (OVER, "0 bytes", "16-byte variable `text_of_image`"),
    9: (OVER, "0 bytes", "16-byte variable `text_of_image`"),
    10: (OVER, "0 bytes", "32-byte variable"), 11: (RETURNED, "", "16-byte variable `local`"),
    12: (RETURNED, "", "16-byte variable `local`"),
    13: (OVER, "0 bytes", "16-byte variable `record`"),
    14: (OVER, "0 bytes", "32-byte variable `buffer`"),
    15: (NO_CALL, "", "4-byte variable `number`"),
    16: (NO_CALL, "", "16-byte variable `numbers_of_image`"),
    17: (NO_CALL, "", "48-byte variable `buffer`"), 18: (OVER, "0 bytes", "48-byte variable"),
    20: (OVER, "0 bytes", "16-byte variable `text_of_image`"),
}
# What only a build that is not optimized shows.
PLAIN_PLACES = {
    3: (UNDER, "1 byte", "40-byte variable `buffer`"),
    7: (OVER, "0 bytes", "16-byte variable `more_of_image`"),
    19: (OVER, "0 bytes", "8-byte variable `number`"),
    21: (OVER, "0 bytes", "400-byte variable `large`"),
    22: (LEFT, "", "16-byte variable `block`"), 23: (LEFT, "", "16-byte variable `turn`"),
}
# The variables of blocks in C++, by the numbers in the source.
SCOPES = {
    1: "4-byte variable `captured`", 2: "4-byte variable `lambda`", 3: "8-byte variable `counter`",
    4: "4-byte variable `element`",
}
PLACE_IDIOMS = range(1, 34)
ARITHMETIC = {
    1: "0x64 of 32 bits, divided by 0", 2: "0x1 of 64 bits, divided by 0",
    3: "0x1 of 32 bits, shifted by 40", 4: "0x1 of 64 bits, shifted by 64",
    5: "0x28 of 32 bits, shifted by 4294967295",
}


def started(shared: pathlib.Path, build: str) -> pathlib.Path:
    """The object of the file that tenants of a build begin in, which is compiled once."""
    def compile_start(path: pathlib.Path) -> None:
        for name in ("start.c", "tenant.h"):
            shutil.copy(EXAMPLES / "c" / name, path.parent)
        options = [*BUILDS[build], *FLAGS, "-fno-builtin", "-c"]
        succeed([*options, "-o", path.name, "./start.c"], cwd=path.parent)

    return make_once(shared / f"{build}-start" / "start.o", compile_start)


def image(shared: pathlib.Path, build: str, source: str, *defined: str) -> pathlib.Path:
    """A tenant of tests/sources, compiled so that no access is left out or taken for another."""
    words = BUILDS[build]
    need(words[0])

    def compile_image(path: pathlib.Path) -> None:
        for file in (SOURCES / source, EXAMPLES / "c" / "tenant.h",
                     EXAMPLES / "libc" / "include" / "tenant_check.h"):
            shutil.copy(file, path.parent)
        cpp = ["-fno-exceptions", "-fno-rtti", "-fsized-deallocation"]
        cpp = cpp if source.endswith(".cc") else []
        options = [*FLAGS, "-fno-builtin", *cpp, *(f"-D{it}" for it in defined)]
        start = started(shared, build)
        succeed([*words, *options, "-o", path.name, start, f"./{source}"], cwd=path.parent)

    name = "-".join([build, source.removesuffix(".c"), *defined])
    return make_once(shared / name / "tenant.elf", compile_image)


def check(
    alone: pathlib.Path, path: pathlib.Path, *words: str, given: bytes = b"y" * 100,
    kinds: str = "",
) -> Ran:
    """What `mte_run --check` says of a tenant that may read some bytes."""
    text = path.parent / "input"
    text.write_bytes(given)
    return run([alone, f"--check={kinds}" if kinds else "--check", "--input", text, *words, path])


@pytest.mark.parametrize("build", sorted(BUILDS))
def test_bugs_are_told(alone: pathlib.Path, tmp_path: pathlib.Path, build: str) -> None:
    """Each with its kind, its chunk and the distance."""
    for bug, (cause, distance, size) in BUGS.items():
        told = check(alone, image(tmp_path, build, "pointer_bugs.c", f"BUG={bug}"))
        wanted = f"Cause: [check]: {cause.format(distance, size)} allocation at "
        assert told.status == 137 and wanted in told.errors, (bug, told.errors)
        assert "  allocated by call " in told.errors and "_start" in told.errors


@pytest.mark.parametrize("build", sorted(BUILDS))
def test_a_product_that_wraps(alone: pathlib.Path, tmp_path: pathlib.Path, build: str) -> None:
    """The first write past its 4 bytes is told; compilers write several at once."""
    told = check(alone, image(tmp_path, build, "pointer_bugs.c", "BUG=5")).errors
    assert re.search(r"Cause: \[check\]: Buffer Overflow, \d+ bytes right of a 4-byte", told)


def test_the_first_wrong_byte(alone: pathlib.Path, tmp_path: pathlib.Path) -> None:
    """Of an access that begins in a chunk of 22 bytes the byte is told that is past its end."""
    told = check(alone, image(tmp_path, "clang-O0", "pointer_bugs.c", "BUG=31")).errors
    byte = re.search(r"the byte at 0x(\w+) is past", told)
    chunk = re.search(r"22-byte allocation at 0x(\w+)", told)
    assert byte and chunk and int(byte[1], 16) - int(chunk[1], 16) % 2**56 == 22, told


def test_chunks_are_given_up(alone: pathlib.Path, tmp_path: pathlib.Path) -> None:
    """More chunks are made and freed than are kept: one that is pointed to is known still."""
    told = check(alone, image(tmp_path, "clang-O0", "pointer_bugs.c", "BUG=33"))
    wanted = "is no longer of the pointer's chunk, which was freed"
    assert told.status == 137 and wanted in told.errors, told.errors


@pytest.mark.parametrize("build", sorted(BUILDS))
def test_idioms_are_not_told(alone: pathlib.Path, tmp_path: pathlib.Path, build: str) -> None:
    """What correct programs do with pointers; and the same pointer far behind its chunk is told as
    an overflow of that chunk, so that its origin was not lost."""
    for idiom in IDIOMS:
        clean = image(tmp_path, build, "pointer_idioms.c", f"IDIOM={idiom}")
        told = check(alone, clean)
        assert told.status == 0 and "check:" not in told.errors, (idiom, told.errors)
        wrong = image(tmp_path, build, "pointer_idioms.c", f"IDIOM={idiom}", "OVERFLOW")
        told = check(alone, wrong)
        wanted = "Cause: [check]: Buffer Overflow, 336 bytes right of a 64-byte allocation"
        assert told.status == 137 and wanted in told.errors, (idiom, told.errors)


@pytest.mark.parametrize("build", sorted(BUILDS))
def test_lost_chunks(alone: pathlib.Path, tmp_path: pathlib.Path, build: str) -> None:
    """One that nothing leads to, and one that it alone leads to. The status is the tenant's."""
    told = check(alone, image(tmp_path, build, "pointer_bugs.c", "BUG=32"))
    lost = "lost at the end: 1 chunk, 24 bytes; by these alone was led to 1 chunk, 24 bytes"
    assert told.status == 0 and f"mte_run: {lost}" in told.errors.splitlines()
    assert "\n  1 chunk, 24 bytes, the first by call 1, in " in told.errors


@pytest.mark.parametrize("compiler", ("clang", "gcc"))
@pytest.mark.parametrize("level", ("-O0", "-O2"))
def test_lost_chunks_of_a_stack(
    alone: pathlib.Path, tmp_path: pathlib.Path, compiler: str, level: str
) -> None:
    """Two chunks that lead to one another, over the C library, whose stack is a chunk: what the
    function has left that made them, below SP, leads to none, nor does it where SP is below it
    again."""
    need(BUILDS[compiler + level][0])
    library, source = tenant_library(), SOURCES / "lost_cycle.c"
    lost = "lost at the end: 1 chunk, 32 bytes; by these alone was led to 1 chunk, 32 bytes"
    for live in range(2):
        path = tmp_path / f"cycle{live}.elf"
        compiled(library, source, compiler, level, path, (*WARNINGS, f"-DLIVE={live}"))
        for told in (check(alone, path), run([alone, "--check=leaks", path])):
            assert told.status == 0 and f"mte_run: {lost}\n" in told.errors, (live, told.errors)
            wanted = r", the first by call \d+, in a cycle, in make"
            assert re.search(wanted, told.errors), told.errors


def led_to(edges: set[tuple[int, int]], start: int) -> set[int]:
    """What a chunk leads to, over others too."""
    found: set[int] = set()
    more = {start}
    while more:
        more = {to for source, to in edges if source in more} - found
        found |= more
    return found


@pytest.mark.parametrize("build", ("clang-O0", "clang-O2"))
def test_lost_chunks_that_lead_to_one_another(
    alone: pathlib.Path, tmp_path: pathlib.Path, build: str
) -> None:
    """Of drawn chunks those are lost that only what they lead to themselves leads to, the oldest of
    a cycle; the others that are not reached are counted."""
    path, draw = image(tmp_path, build, "lost_graph.c"), random.Random(build)
    for _ in range(60):
        count, kept = draw.randrange(1, 10), draw.choice((0, 1, 9))
        edges = {(draw.randrange(count), draw.randrange(count))
                 for _ in range(draw.randrange(2 * count))}
        given = bytes([count, kept, *(end for edge in sorted(edges) for end in edge)])
        reached = {kept} | led_to(edges, kept) if kept < count else set()
        ways = {it: led_to(edges, it) for it in set(range(count)) - reached}
        lost = [it for it in ways if all(
            other in ways[it] and other >= it for other, way in ways.items() if it in way)]
        cycles = sum(any(it in ways.get(to, ()) for to in ways[it] - {it}) for it in lost)
        told = check(alone, path, given=given, kinds="leaks").errors
        assert_lost(told, (lost, sorted(set(ways) - set(lost))), cycles)


def assert_lost(told: str, chunks: tuple[list[int], list[int]], cycles: int) -> None:
    """Whether these chunks are told, lost ones and those that they lead to, by their sizes."""
    amounts = [f"{len(it)} chunk{'s' * (len(it) != 1)}, {sum(64 << n for n in it)} bytes"
               for it in chunks]
    if not chunks[0]:
        assert "lost at the end" not in told, told
        return
    assert f"lost at the end: {amounts[0]}; by these alone was led to {amounts[1]}\n" in told
    place = re.search(rf"^  {amounts[0]}, the first by call \d+(.*), in make\+", told, re.M)
    some = "" if cycles == len(chunks[0]) else f" {cycles}"
    assert place and place[1] == (f",{some} in a cycle" if cycles else ""), (cycles, told)


@pytest.mark.parametrize("build", sorted(BUILDS))
def test_mismatched_frees(alone: pathlib.Path, tmp_path: pathlib.Path, build: str) -> None:
    """Each function that makes chunks beside each that frees, also where one ends by a jump to
    another; without the symbols nothing is said."""
    path = image(tmp_path, build, "mismatched_frees.c")
    makers = ["malloc", "operator new", "operator new[]"]
    freers = ["free", "operator delete", "operator delete[]"]
    for made, maker in enumerate(makers):
        for freed, freer in enumerate(freers):
            told = check(alone, path, given=f"{made}{freed}".encode())
            if made == freed:
                assert told.status == 0 and "Cause" not in told.errors, told.errors
                continue
            cause = "Cause: [check]: Mismatched Free of a 40-byte allocation at "
            line = next(it for it in told.errors.splitlines() if cause in it)
            assert told.status == 137 and line.endswith(f"made by {maker} and freed by {freer}")
            assert "  allocated by call 1, " in told.errors
            assert "  freed by call " in told.errors and "_start" in told.errors
    if not build.startswith("clang"):
        return
    stripped = tmp_path / "stripped.elf"
    succeed(["llvm-objcopy", "--strip-all", path, stripped])
    assert check(alone, stripped, given=b"10").status == 0


@pytest.mark.parametrize("build", sorted(BUILDS))
def test_mismatched_sizes(alone: pathlib.Path, tmp_path: pathlib.Path, build: str) -> None:
    """Operators of C++ that are told another size than the chunk was made with, by their names and
    as compilers call them; the right size is not told, nor is one of another function's chunk."""
    path = image(tmp_path, build, "mismatched_frees.c")
    for made, freed, kind in ((1, 3, ""), (1, 5, "Size"), (2, 4, ""), (2, 6, "Size"),
                              (0, 5, "Free"), (2, 3, "Free"), (1, 6, "Free")):
        told = check(alone, path, given=f"{made}{freed}".encode()).errors
        wanted = f"Cause: [check]: Mismatched {kind} of a 40-byte allocation at "
        assert (wanted in told) == ("Cause" in told) == (kind != ""), (made, freed, told)
        told_size = f"operator delete{'[]' if freed in (4, 6) else ''} as one of 16 bytes\n"
        assert (told_size in told) == (kind == "Size" or freed in (5, 6)), (made, freed, told)
    for case in (1, 2, 3, 4, 5, 6):
        path = image(tmp_path, build, "deleted_sizes.cc", f"CASE={case}")
        ran = check(alone, path, kinds="frees")
        assert ran.status == 0 and "Cause" not in ran.errors, (case, ran.errors)
    for case, made, freed in ((11, 40, 8), (12, 48, 8), (13, 8, 4)):
        path = image(tmp_path, build, "deleted_sizes.cc", f"CASE={case}")
        ran = check(alone, path, kinds="frees")
        wanted = f"Mismatched Size of a {made}-byte allocation at "
        assert ran.status == 137 and wanted in ran.errors, (case, ran.errors)
        assert f"by operator delete as one of {freed} bytes\n" in ran.errors, (case, ran.errors)


@pytest.mark.parametrize("build", sorted(BUILDS))
def test_undefined_values(alone: pathlib.Path, tmp_path: pathlib.Path, build: str) -> None:
    """What is told at the use: what depends on them, and the chunk or the frame."""
    for bug, (use, origin) in UNDEFINED.items():
        told = check(alone, image(tmp_path, build, "undefined_bugs.c", f"BUG={bug}"))
        assert told.status == 137 and f"  {use} depends on them" in told.errors, (bug, told.errors)
        assert f"Cause: [check]: Uninitialized Value {origin}" in told.errors, (bug, told.errors)
        source = "allocated by call " if origin == CHUNK else "SP was moved there by read_stack+"
        assert source in told.errors, (bug, told.errors)


@pytest.mark.parametrize("build", sorted(BUILDS))
def test_undefined_values_that_nothing_depends_on(
    alone: pathlib.Path, tmp_path: pathlib.Path, build: str
) -> None:
    """What correct programs do with values that were not given is not told."""
    for idiom in UNDEFINED_IDIOMS:
        told = check(alone, image(tmp_path, build, "undefined_idioms.c", f"IDIOM={idiom}"))
        assert told.status == 0 and "check:" not in told.errors, (idiom, told.errors)


@pytest.mark.parametrize("build", sorted(build for build in BUILDS if build.endswith("-O0")))
def test_variables(alone: pathlib.Path, tmp_path: pathlib.Path, build: str) -> None:
    """Accesses beyond variables and after their functions, and frees of them, by their names."""
    for bug, (cause, distance, variable) in {**PLACES, **PLAIN_PLACES}.items():
        path = image(tmp_path, build, "place_bugs.c", f"BUG={bug}")
        told = check(alone, path, kinds="places")
        assert told.status == 137 and cause.format(distance, variable) in told.errors, (
            bug, told.errors)
        is_of_image = bug in (7, 8, 9, 10, 16, 18, 20)
        assert is_of_image or "  a variable of " in told.errors, (bug, told.errors)
        assert is_of_image or "declared at place_bugs.c:" in told.errors, (bug, told.errors)


@pytest.mark.parametrize("build", sorted(build for build in BUILDS if build.endswith("-O0")))
def test_uses_after_scope(alone: pathlib.Path, tmp_path: pathlib.Path, build: str) -> None:
    """Of captured variables, of objects with destructors and of elements, in C++."""
    for bug, variable in SCOPES.items():
        told = check(alone, image(tmp_path, build, "scope_bugs.cc", f"BUG={bug}"), kinds="places")
        wanted = f"Cause: [check]: {LEFT.format('', f'{variable} at ')}"
        assert told.status == 137 and wanted in told.errors, (bug, told.errors)
        assert "declared at scope_bugs.cc:" in told.errors, (bug, told.errors)


@pytest.mark.parametrize("build", sorted(BUILDS))
def test_variables_that_are_not_told(
    alone: pathlib.Path, tmp_path: pathlib.Path, build: str
) -> None:
    """What correct programs do with pointers to variables is not told; with no DWARF neither, and
    without symbols no variable is."""
    for idiom in PLACE_IDIOMS:
        told = check(alone, image(tmp_path, build, "place_idioms.c", f"IDIOM={idiom}"),
                     kinds="places")
        assert told.status == 0 and "check:" not in told.errors, (idiom, told.errors)
    told = check(alone, image(tmp_path, build, "place_idioms.cc"), kinds="places")
    assert told.status == 0 and "check:" not in told.errors, told.errors
    if not build.startswith("clang"):
        return
    for bug, words in ((1, ["--strip-debug"]), (8, ["--strip-all"])):
        stripped = tmp_path / "stripped.elf"
        path = image(tmp_path, build, "place_bugs.c", f"BUG={bug}")
        succeed(["llvm-objcopy", *words, path, stripped])
        assert "variable" not in check(alone, stripped, kinds="places").errors


def test_names_of_variables(alone: pathlib.Path, tmp_path: pathlib.Path) -> None:
    """A symbol with a letter that no terminal shows is a question mark. An image that has no
    symbols, no sections and no DWARF has no variables."""
    path, renamed = image(tmp_path, "clang-O0", "place_bugs.c", "BUG=8"), tmp_path / "renamed.elf"
    for name, shown in (("another", "another"), ("a\nb", "?")):
        words = ["--strip-debug", "--redefine-sym", f"text_of_image={name}"]
        succeed(["llvm-objcopy", *words, path, renamed])
        assert f" right of the 16-byte variable `{shown}` at " in check(
            alone, renamed, kinds="places").errors
    bare = tmp_path / "bare.elf"
    bare.write_bytes(program(*call(0, 0)))
    ran = check(alone, bare, kinds="places")
    assert ran.status == 0 and "Cause" not in ran.errors, ran.errors


@pytest.mark.parametrize("build", [it for it in sorted(BUILDS) if it.endswith("-O0")])
def test_an_overflow_after_a_jump(
    alone: pathlib.Path, tmp_path: pathlib.Path, build: str
) -> None:
    """By an index from a pointer that was made in front of the jump over frames."""
    for past in (1, 40):
        path = image(tmp_path, build, "place_idioms.c", "IDIOM=27", f"PAST={past}")
        told = check(alone, path, kinds="places")
        wanted = OVER.format(f"{past - 1} bytes", "5000-byte variable `above`")
        assert told.status == 137 and f"Cause: [check]: {wanted} at " in told.errors, told.errors


@pytest.mark.parametrize("build", sorted(BUILDS))
def test_arithmetic(alone: pathlib.Path, tmp_path: pathlib.Path, build: str) -> None:
    """Divisions by 0 and shifts past the width, with their operands, only where asked."""
    for bug, operands in ARITHMETIC.items():
        path = image(tmp_path, build, "arithmetic_bugs.c", f"BUG={bug}")
        told = check(alone, path, kinds="arithmetic")
        assert told.status == 137 and f"Undefined Arithmetic: {operands}\n" in told.errors, (
            bug, told.errors)
        assert "Cause" not in check(alone, path).errors, bug
    clean = image(tmp_path, build, "arithmetic_bugs.c", "BUG=6")
    assert "Cause" not in check(alone, clean, kinds="arithmetic").errors


def test_kinds(alone: pathlib.Path, tmp_path: pathlib.Path) -> None:
    """Each kind tells its own bugs alone; a word that is none is refused."""
    cases = {
        "provenance": image(tmp_path, "clang-O0", "pointer_bugs.c", "BUG=28"),
        "frees": image(tmp_path, "clang-O0", "pointer_bugs.c", "BUG=23"),
        "arguments": image(tmp_path, "clang-O0", "argument_bugs.c", "BUG=8"),
        "leaks": image(tmp_path, "clang-O0", "pointer_bugs.c", "BUG=32"),
        "undefined": image(tmp_path, "clang-O0", "undefined_bugs.c", "BUG=2"),
    }
    for kind, path in cases.items():
        for wanted in cases:
            errors = run([alone, f"--check={wanted}", path]).errors
            said = "Cause: [check]" in errors or "lost at the end" in errors
            assert said == (kind == wanted), (kind, wanted, errors)
        two = "leaks,frees" if kind == "undefined" else f"undefined,{kind}"
        errors = run([alone, f"--check={two}", path]).errors
        said = "Cause: [check]" in errors or "lost at the end" in errors
        assert said == (kind != "undefined"), (kind, two, errors)
    data = tomllib.loads((ROOT / causes.DATA).read_text(encoding="utf-8"))
    kinds = ", ".join([*data["listed"], "all"])
    for wrong in ("leak", "leaks,", "Frees", "", "leaks, frees"):
        told = run([alone, f"--check={wrong}", cases["leaks"]])
        assert told.status == 2 and f", with commas between them: {kinds}\n" in told.errors


def test_statuses(alone: pathlib.Path, tmp_path: pathlib.Path) -> None:
    """Those of options, and options that have nothing to be for."""
    far = image(tmp_path, "clang-O0", "pointer_bugs.c", "BUG=4")
    lost = image(tmp_path, "clang-O0", "pointer_bugs.c", "BUG=32")
    told = check(alone, far, "--check-status", "7", "--lost-status", "9")
    assert told.status == 7 and told.errors.endswith("mte_run: ended by check, status 7\n")
    told = check(alone, lost, "--check-status", "7", "--lost-status", "9")
    last = "mte_run: exited with 0 and has lost chunks, status 9\n"
    assert told.status == 9 and told.errors.endswith(last)
    assert check(alone, lost, "--check-status", "7").status == 0
    document = tmp_path / "told.json"
    check(alone, lost, "--lost-status", "9", "--json", str(document))
    assert json.loads(document.read_text(encoding="utf-8"))["exit_status"] == 9
    unchecked = "--suppressions, --continue and --check-status are for --check"
    for words, reason in (
        (("--check-status", "7"), unchecked), (("--suppressions", "none"), unchecked),
        (("--continue",), unchecked),
        (("--check=frees", "--lost-status", "9"), "--lost-status is for --check with leaks"),
        (("--check", "--lost-status", "256"), "256"),
    ):
        told = run([alone, *words, lost])
        assert told.status == 2 and reason in told.errors, told.errors


def test_suppressions(alone: pathlib.Path, tmp_path: pathlib.Path) -> None:
    """By kind, function and file: the tenant runs on, and other findings are told."""
    lines = tmp_path / "suppressions"
    undefined = image(tmp_path, "clang-O0", "undefined_bugs.c", "BUG=1")
    far = image(tmp_path, "clang-O0", "pointer_bugs.c", "BUG=4")
    lost = image(tmp_path, "clang-O0", "pointer_bugs.c", "BUG=32")
    cases = (
        (undefined, "undefined bug undefined_bugs.c", True),
        (undefined, "# a comment\n\n* b* *\n", True),
        (undefined, "undefined other *", False), (undefined, "frees bug *", False),
        (undefined, "undefined bug other.c", False), (undefined, "undefined main *", True),
        (far, "provenance bug *", True), (far, "undefined bug *", False),
        (lost, "leaks bug pointer_*", True), (lost, "provenance * *", False),
    )
    for path, text, is_hidden in cases:
        lines.write_text(text, encoding="utf-8")
        told = check(alone, path, "--suppressions", str(lines))
        said = "lost at the end" if path == lost else "Cause: [check]"
        assert (said in told.errors) != is_hidden, (path, text, told.errors)
        if is_hidden:
            assert told.status != 137, told.errors
    for text, wrong in (
        ("* * *\nleaks main\n", "line 2: there should be a kind, a function and a file"),
        ("leak main main.c", "line 1: the first word should be provenance, frees,"),
    ):
        lines.write_text(text, encoding="utf-8")
        told = check(alone, far, "--suppressions", str(lines))
        assert told.status == 3 and f"{lines} {wrong}" in told.errors, told.errors
    told = check(alone, far, "--suppressions", str(tmp_path / "none"))
    assert told.status == 5 and "no such file" in told.errors


def test_the_page(alone: pathlib.Path) -> None:
    """The table of docs/project/CHECKED.md is what the script finds that writes it, but for what
    other tools report by chance of a machine."""
    assert alone.is_file()
    succeed([sys.executable, ROOT / "tools" / "checking.py", "--check"], seconds=900)


@pytest.mark.parametrize("held, new, is_wrong", [
    ("yes | - | yes | yes | (yes)", "yes | - | yes | yes | -", False),
    ("yes | - | yes | - | -", "yes | - | yes | yes | (yes)", False),
    ("yes | - | yes | yes | yes", "yes | - | yes | ? | ?", False),
    ("yes | - | yes | yes | yes", "yes | - | yes | yes | -", True),
    ("yes | - | yes | yes | yes", "yes | - | yes | - | yes", True),
    ("yes | - | yes | - | -", "yes | - | - | - | -", True),
    ("yes | - | yes | - | -", "yes | yes | yes | - | -", True),
])
def test_which_cells_have_to_hold(held: str, new: str, is_wrong: bool) -> None:
    """Each of mte_run, and what other tools report wherever they are."""
    tables = [["| Bug |", f"| a bug | {cells} |", "| found |"] for cells in (held, new)]
    assert bool(checking.differences(*tables)) == is_wrong


def test_json(alone: pathlib.Path, tmp_path: pathlib.Path) -> None:
    """The kind and the name of what is wrong."""
    path = image(tmp_path, "gcc-O0", "pointer_bugs.c", "BUG=14")
    document = tmp_path / "told.json"
    assert check(alone, path, "--json", str(document)).status == 137
    told = json.loads(document.read_text(encoding="utf-8"))
    assert told["status"]["kind"] == "check" and told["status"]["name"] == "DoubleFree"
    assert told["chunks"][0]["allocated"]["number"] == 1
