"""Runs of `mte_run` of which only accesses are noted, or whose instructions are followed by what
they do with registers, compared with runs that are shown each attempt: the same words, JSON, output
and status, byte for byte.

An option that writes a line for a step which is never reached makes `mte_run` look at each attempt.
TOMBOLOPAN_DRAWN is how many programs of each kind are drawn, from seed 0 on.
"""

import json
import os
import pathlib
import random

import pytest

from tests.reference import place_rules, pointers, programs, variables
from tests.reference.drawing import word
from tests.reference.provenance import first_findings
from tests.reference.runs import Runner
from tests.support.cache import tenant_library
from tests.support.instructions import (
    CODE, SERVICE, SP, ZERO, Words, add, call, copy, jump_not_equal, load, load_pair, move,
    program, store, store_pair, subtract_with_flags,
)
from tests.support.places import EXAMPLES
from tests.support.programs import compiled
from tests.support.running import Word, run, succeed
from tests.support.samples import FLAGS
from tests.support.tools import need
from tests.test_arguments import BUGS as ARGUMENTS
from tests.test_checks import (
    ARITHMETIC, BUGS, BUILDS, IDIOMS, PLACE_IDIOMS, PLACES, PLAIN_PLACES, SCOPES, UNDEFINED,
    UNDEFINED_IDIOMS, image,
)

DRAWN = int(os.environ.get("TOMBOLOPAN_DRAWN", "200")) // 4
# Programs of one or two pages over the C library, and the tests of the library itself.
PROGRAMS = [it for folder in ("programs", ".")
            for it in sorted((EXAMPLES / "libc" / "tests" / folder).glob("*.c"))]
# So many drawn programs that each build has all sources.
MANY = 1_000
NEVER = "18446744073709551615"
EXIT, MALLOC, FREE = 0, 3, 4
KEPT, HEAP_BYTES = 19, 24
# The bug of pointer_bugs.c whose chunks are lost.
LOST = 32
# One of each kind of what may be noted, with what is written of it.
ASKED: list[list[str]] = [
    ["--exact"], ["--exact=writes"], ["--statistics"], ["--exact", "--statistics", "--leaks"],
    ["--exact", "--last", "40", "--map", "text"], ["--statistics", "--steps", "1500"],
]
# The kinds of checks that follow instructions, each alone and all of them.
KINDS = ("provenance", "frees", "arguments", "leaks", "undefined", "arithmetic")
ALL_KINDS = "--check=" + ",".join(KINDS)
CHECKED: list[list[str]] = [
    ["--check"], [ALL_KINDS], *([f"--check={kind}"] for kind in KINDS),
    [ALL_KINDS, "--calls", "6", "--leaks"], [ALL_KINDS, "--exact"],
    [ALL_KINDS, "--last", "40", "--steps", "1500"], [ALL_KINDS, "--statistics"],
    ["--check=undefined,arithmetic", "--map", "text"], ["--check=all,places"],
]
PLACED: list[list[str]] = [
    ["--check=places"], ["--check=all,places"], ["--check=places", "--last", "40", "--leaks"],
    ["--check=all,places,arithmetic", "--exact"], ["--check=places,frees", "--steps", "1500"],
]
SLICES: list[list[str]] = [
    [], ["--slices", "1,7,1000,1,1048576"], ["--async", "--slices", "999,1,1000000"],
]


def differs(alone: pathlib.Path, folder: pathlib.Path, words: list[Word]) -> str:
    """Where a run whose accesses are noted is another than one that is shown each attempt: of what
    is written for people alone, and with all documents, which take another run."""
    each: list[Word] = [f"--trace={NEVER}-{NEVER}", "--trace-file", folder / "lines"]
    documents = {kind: folder / f"told.{kind}" for kind in ("json", "sarif")}
    asked: list[Word] = []
    for kind, document in documents.items():
        asked += [f"--{kind}", document]
    forms: list[list[Word]] = [[], asked]
    for form in forms:
        said = []
        ways: list[list[Word]] = [[], each]
        for more in ways:
            for file in documents.values():
                file.unlink(missing_ok=True)
            ran = run([alone, *form, *more, *words])
            written = [it.read_bytes() if it.exists() else b"" for it in documents.values()]
            said.append((ran.status, ran.out, ran.errors, *written))
        for name, one, other in zip(("status", "output", "words", *documents), *said):
            if one != other:
                return f"{[str(it) for it in words]}: {name}: {one!r} for {other!r}"
    return ""


def kind_of_end(folder: pathlib.Path) -> str:
    """How the last compared run ended, as its JSON says."""
    kind: str = json.loads((folder / "told.json").read_text())["status"]["kind"]
    return kind


def test_bugs(alone: pathlib.Path, tmp_path: pathlib.Path) -> None:
    """Each planted bug of the heap."""
    found = []
    for bug in BUGS:
        path = image(tmp_path, "clang-O0", "pointer_bugs.c", f"BUG={bug}")
        (tmp_path / "input").write_bytes(b"y" * 100)
        words: list[Word] = ["--input", tmp_path / "input", path]
        asked, slices = ASKED[bug % len(ASKED)], SLICES[bug % len(SLICES)]
        found += [differs(alone, tmp_path, [*it, *words]) for it in (ASKED[0], [*asked, *slices])]
    assert [it for it in found if it] == []


def test_checked_bugs(alone: pathlib.Path, tmp_path: pathlib.Path) -> None:
    """Each bug that a check reports, and correct programs."""
    (tmp_path / "input").write_bytes(b"y" * 100)
    sources = {
        "pointer_bugs.c": ("BUG", (*BUGS, LOST)), "undefined_bugs.c": ("BUG", UNDEFINED),
        "arithmetic_bugs.c": ("BUG", ARITHMETIC), "pointer_idioms.c": ("IDIOM", IDIOMS),
        "undefined_idioms.c": ("IDIOM", UNDEFINED_IDIOMS), "watched_bugs.c": ("BUG", (1, 2)),
        "argument_bugs.c": ("BUG", ARGUMENTS),
    }
    found = []
    for source, (name, numbers) in sources.items():
        for number in numbers:
            path = image(tmp_path, "clang-O0", source, f"{name}={number}")
            words: list[Word] = ["--input", tmp_path / "input", path]
            asked, slices = CHECKED[number % len(CHECKED)], SLICES[number % len(SLICES)]
            found += [differs(alone, tmp_path, [*it, *words])
                      for it in ([ALL_KINDS], [*asked, *slices])]
    assert [it for it in found if it] == []


def test_checked_frees(alone: pathlib.Path, tmp_path: pathlib.Path) -> None:
    """Functions that make chunks with those that free, found by the branches to them."""
    for build in ("clang-O0", "clang-O2"):
        path = image(tmp_path, build, "mismatched_frees.c")
        for pair in range(9):
            (tmp_path / "input").write_bytes(b"%d%d" % divmod(pair, 3))
            words: list[Word] = ["--check=frees", "--input", tmp_path / "input", path]
            assert differs(alone, tmp_path, words) == ""
            assert (kind_of_end(tmp_path) == "check") == (pair // 3 != pair % 3)
        for given in (b"13", b"15", b"24", b"26"):
            (tmp_path / "input").write_bytes(given)
            assert differs(alone, tmp_path, ["--check=frees", "--input", tmp_path / "input", path]
                           ) == ""


def cases_of_places() -> list[tuple[str, list[str]]]:
    """The sources of wrong and of correct uses of variables, with what is defined for each."""
    bugs = [("place_bugs.c", [f"BUG={bug}"]) for bug in sorted({**PLACES, **PLAIN_PLACES})]
    idioms = [("place_idioms.c", [f"IDIOM={idiom}"]) for idiom in PLACE_IDIOMS]
    jumps = [("place_idioms.c", ["IDIOM=27", f"PAST={past}"]) for past in (1, 40)]
    objects: list[tuple[str, list[str]]] = [("place_idioms.cc", [])] * len(BUILDS)
    scopes = [("scope_bugs.cc", [f"BUG={bug}"]) for bug in sorted(SCOPES)]
    return [*bugs, *idioms, *jumps, *objects, *scopes]


@pytest.mark.parametrize("build", sorted(BUILDS))
def test_checked_places(alone: pathlib.Path, tmp_path: pathlib.Path, build: str) -> None:
    """Wrong and correct uses of variables, by one of the builds each, or by all."""
    (tmp_path / "input").write_bytes(b"y" * 100)
    turn = sorted(BUILDS).index(build)
    found = []
    for number, (source, defined) in enumerate(cases_of_places()):
        if DRAWN >= MANY or number % len(BUILDS) == turn:
            path = image(tmp_path, build, source, *defined)
            asked, slices = PLACED[number % len(PLACED)], SLICES[number % len(SLICES)]
            found += [differs(alone, tmp_path, [*it, "--input", tmp_path / "input", path])
                      for it in (PLACED[0], [*asked, *slices])]
    assert [it for it in found if it] == []


def images_of(source: pathlib.Path, build: str, text: str,
              starts: list[str]) -> dict[str, pathlib.Path]:
    """Images of one source that begin at different functions."""
    need(BUILDS[build][0])
    source.write_text(text)
    path = source.with_suffix(".elf")
    succeed([*BUILDS[build], *FLAGS, "-fno-omit-frame-pointer", "-mno-omit-leaf-frame-pointer",
             f"-Wl,-e,{starts[0]}", "-o", path, source])
    names = {name: int(addr, 16) for addr, _, name in
             (line.split() for line in succeed(["llvm-nm", path]).output.splitlines())}
    made = {}
    for start in starts:
        content = bytearray(path.read_bytes())
        content[24:32] = names[start].to_bytes(8, "little")
        made[start] = source.with_name(f"{start}.elf")
        made[start].write_bytes(content)
    return made


@pytest.mark.parametrize("build", sorted(BUILDS))
def test_drawn_variables(alone: pathlib.Path, tmp_path: pathlib.Path, build: str) -> None:
    """Drawn functions with variables, whose uses of these are right and wrong."""
    (tmp_path / "input").write_bytes(b"y" * 100)
    found, ends = [], set()
    seeds = range(DRAWN // 8)
    starts = [variables.start(seed) for seed in seeds]
    images = images_of(tmp_path / "drawn.c", build, variables.draw(seeds), starts)
    for start, path in images.items():
        source = random.Random(start)
        words: list[Word] = [*source.choice(PLACED), *source.choice(SLICES)]
        found.append(differs(alone, tmp_path, [*words, "--input", tmp_path / "input", path]))
        ends.add(kind_of_end(tmp_path))
    assert [it for it in found if it] == []
    assert DRAWN < 50 or {"exit", "check"} <= ends, ends


def test_drawn_programs(alone: pathlib.Path, tmp_path: pathlib.Path) -> None:
    """Drawn programs, whose accesses are right and wrong."""
    runner = Runner(alone, tmp_path)
    found, ends = [], set()
    for seed in range(DRAWN):
        source = random.Random(seed)
        drawn = programs.draw(seed)
        made = pointers.draw(seed)
        moments, _ = runner.trace(made.words)
        pointers.end(made, first_findings(moments)[2], moments[-1].after)
        for words in (drawn.words, made.words):
            ready = runner.prepare(words)
            for options in (ASKED, CHECKED):
                asked, slices = source.choice(options), source.choice(SLICES)
                found.append(differs(alone, tmp_path, [*asked, *slices, *ready]))
                ends.add(kind_of_end(tmp_path))
    assert [it for it in found if it] == []
    assert DRAWN < 50 or {"exit", "exact", "illegal", "check"} <= ends, ends


@pytest.mark.parametrize("level", ["-O0", "-O2"])
def test_programs(alone: pathlib.Path, tmp_path: pathlib.Path, level: str) -> None:
    """Programs over the C library, each at one of two levels, with their inputs."""
    need("clang", "ld.lld")
    library, turn = tenant_library(), ("-O0", "-O2").index(level)
    found = []
    for number, source in enumerate(PROGRAMS):
        if number % 2 != turn:
            continue
        path = compiled(library, source, "clang", level, tmp_path / f"{source.stem}.elf", ["-w"])
        data = source.with_suffix(".txt")
        given: list[Word] = ["--input", data] if data.exists() else []
        words: list[Word] = [*given, "--steps", "400000", path]
        for ways in (ASKED[:4], CHECKED[:9]):
            asked, slices = ways[number % len(ways)], SLICES[number % len(SLICES)]
            found.append(differs(alone, tmp_path, [*asked, *slices, *words]))
    assert [it for it in found if it] == []


def heap(*parts: Words) -> bytes:
    """A program that makes a chunk of 24 bytes, whose pointer is in x19, and exits."""
    return program(call(MALLOC, HEAP_BYTES), add(KEPT, 0, 0), *parts, call(EXIT, 0))


def loop(times: int, *parts: int) -> list[int]:
    """Instructions so often; x20 counts."""
    return [*move(20, times), *parts, subtract_with_flags(20, 20, 1),
            jump_not_equal(-len(parts) - 1)]


# An access that begins within the chunk and ends past it, after one within it; a pointer that is
# made before a service and used after it; tags drawn more often than attempts are noted at once;
# accesses around the longest that are noted at once; granules that are cleared past the chunk.
BEFORE = loop(9_999, word("hint", imm7=0))
CASES: dict[str, list[Words]] = {
    "over the end": [load(1, KEPT, 16), word("ld_st_unscaled", size=3, opc=1, imm9=20, rn=KEPT,
                                             rt=1)],
    "behind a service": [add(21, KEPT, 24), call(MALLOC, 24), load(1, 21, 0)],
    "draws": [loop(70_000, word("irg", rm=31, rn=KEPT, rd=22))],
    "draws and services": [loop(33_000, word("irg", rm=31, rn=KEPT, rd=22)), call(MALLOC, 8),
                           loop(32_768, word("irg", rm=31, rn=KEPT, rd=22))],
    "a far end": [BEFORE, BEFORE, load(1, KEPT, 24)],
    "after a free": [BEFORE, add(0, KEPT, 0), move(8, FREE), SERVICE, BEFORE, load(1, KEPT, 0)],
    "granules": [word("st_g", opc=1, imm9=0, mode=2, rn=KEPT, rt=KEPT),
                 word("st_g", opc=3, imm9=0, mode=2, rn=KEPT, rt=KEPT)],
}


@pytest.mark.parametrize("name", CASES)
@pytest.mark.parametrize("slices", SLICES, ids=("whole", "slices", "asynchronous"))
def test_made_programs(alone: pathlib.Path, tmp_path: pathlib.Path, name: str,
                       slices: list[str]) -> None:
    """A program for each rule of what is noted."""
    path = tmp_path / "tenant.elf"
    path.write_bytes(heap(*CASES[name]))
    limit = [] if "--slices" in slices else ["--steps", "300000"]
    found = [differs(alone, tmp_path, [*asked, *slices, *limit, path])
             for asked in (["--exact"], ["--statistics"], ["--exact", "--statistics"])]
    assert [it for it in found if it] == []


def shifted(target: int, left: int, right: int, amount: int, operation: int = 0) -> int:
    """ADD xT, xL, xR, LSL #A, or SUB."""
    return word("add_sub_shift", sf=1, op=operation, rm=right, imm6=amount, rn=left, rd=target)


def extended(target: int, left: int, right: int, option: int, amount: int) -> int:
    """ADD xT, xL, xR, extended."""
    return word("add_sub_ext", sf=1, rm=right, option=option, imm3=amount, rn=left, rd=target)


def at_register(target: int, base: int, index: int, scaled: int = 0) -> int:
    """LDR xT, [xB, xI] or [xB, xI, LSL #3]."""
    return word("ld_st_reg", size=3, opc=1, rm=index, option=3, s=scaled, rn=base, rt=target)


def unscaled(size: int, kind: int, target: int, base: int, offset: int) -> int:
    """A load or a store at an offset in bytes."""
    return word("ld_st_unscaled", size=size, opc=kind, imm9=offset, rn=base, rt=target)


def branch_on(register: int) -> int:
    """CBNZ xR, to what comes next."""
    return word("cmp_branch", sf=1, op=1, imm19=1, rt=register)


FREED: list[Words] = [add(0, KEPT, 0), move(8, FREE), SERVICE]
# More steps than are shown before what may be wrong, which leave flags as they are, and a service.
CALLED = [*move(28, 200), add(28, 28, -1), word("cmp_branch", sf=1, op=1, imm19=-1, rt=28),
          *call(MALLOC, 24)]
FRAME = add(SP, SP, -64)
# Chunks until one is where x21 points, with its tag.
REACHED = [*call(MALLOC, 24), word("add_sub_shift", sf=1, op=1, s=1, rm=21, rn=0, rd=ZERO),
           word("branch_cond", imm19=4, cond=0), *move(8, FREE), SERVICE,
           word("branch", op=0, imm26=-7)]
OVER_END = load(1, 21)
UNDEFINED_WORD = load(5, KEPT)
IS_PRESSED = [subtract_with_flags(7, 5, 1)]
# A program for each rule: what is made before a service is used after it. Those with True end by a
# finding.
RULES: dict[str, tuple[bool, list[Words]]] = {
    "a constant": (True, [add(21, KEPT, 24), CALLED, OVER_END]),
    "less a constant": (True, [add(21, KEPT, -8), CALLED, OVER_END]),
    "a copy": (True, [copy(21, KEPT), *FREED, CALLED, OVER_END]),
    "a sum": (True, [move(5, 24), shifted(21, KEPT, 5, 0), CALLED, OVER_END]),
    "a sum the other way": (True, [move(5, 24), shifted(21, 5, KEPT, 0), CALLED, OVER_END]),
    "a shifted sum": (True, [move(5, 3), shifted(21, KEPT, 5, 3), CALLED, OVER_END]),
    "a difference": (True, [move(5, 8), shifted(21, KEPT, 5, 0, 1), CALLED, OVER_END]),
    "an extended sum": (True, [move(5, 24), extended(21, KEPT, 5, 6, 0), CALLED, OVER_END]),
    "an extended and shifted sum": (True, [move(5, 3), extended(21, KEPT, 5, 2, 3), CALLED,
                                           OVER_END]),
    "a whole extended sum": (True, [move(5, 24), extended(21, KEPT, 5, 3, 0), CALLED, OVER_END]),
    "a difference of pointers": (True, [
        CALLED, copy(20, 0), shifted(22, 20, KEPT, 0, 1), CALLED, shifted(21, KEPT, 22, 0),
        CALLED, load(1, 21, 24)]),
    "a mask": (True, [add(20, KEPT, 24), word("log_imm", sf=1, n=1, immr=60, imms=59, rn=20, rd=21),
                      CALLED, load(1, 21, 16)]),
    "a selection": (True, [add(20, KEPT, 24), subtract_with_flags(ZERO, 20, 1),
                           word("cond_sel", sf=1, rm=KEPT, cond=1, rn=20, rd=21), CALLED,
                           OVER_END]),
    "a product": (True, [move(5, 3), move(6, 8),
                         word("mul_add", sf=1, rm=5, ra=KEPT, rn=6, rd=21), CALLED, OVER_END]),
    "a word of memory": (True, [store(KEPT, KEPT, 8), CALLED, load(21, KEPT, 8), CALLED,
                                load(1, 21, 24)]),
    "a pair of memory": (True, [store_pair(5, KEPT, KEPT), CALLED, load_pair(20, 21, KEPT), CALLED,
                                load(1, 21, 24)]),
    "a word of the stack": (True, [FRAME, add(20, KEPT, 24), store(20, SP, 0), CALLED,
                                   load(21, SP, 0), CALLED, OVER_END]),
    "a pointer by halves": (True, [
        FRAME, add(20, KEPT, 24), store(20, SP, 0), CALLED, unscaled(2, 1, 5, SP, 0),
        unscaled(2, 1, 6, SP, 4), unscaled(2, 0, 5, SP, 8), unscaled(2, 0, 6, SP, 12), CALLED,
        load(21, SP, 8), CALLED, OVER_END]),
    "an unaligned word": (True, [FRAME, unscaled(3, 0, KEPT, SP, 4), unscaled(3, 1, 21, SP, 4),
                                 CALLED, load(1, 21, 24)]),
    "a stack in a chunk": (False, [
        call(MALLOC, 16_381), copy(22, 0), move(5, 8_192), shifted(21, 22, 5, 0), add(SP, 21, 0),
        CALLED, move(5, 16_382),
        word("ld_st_reg", size=0, opc=1, rm=5, option=3, s=0, rn=22, rt=1)]),
    "a base and an index": (True, [move(5, 24), CALLED, at_register(1, KEPT, 5)]),
    "a scaled index": (True, [move(5, 3), CALLED, at_register(1, KEPT, 5, 1)]),
    "a pointer as index": (True, [move(5, 24), CALLED, at_register(1, 5, KEPT)]),
    "an index from SP": (False, [FRAME, move(5, 16), CALLED, at_register(1, SP, 5)]),
    "a base that is moved first": (True, [CALLED, word("ld_st_pre", size=3, opc=1, imm9=24, rn=KEPT,
                                                       rt=1)]),
    "a base that is moved after": (True, [word("ld_st_post", size=3, opc=1, imm9=24, rn=KEPT, rt=1),
                                          CALLED, load(1, KEPT)]),
    "the second of a pair": (True, [CALLED, load(1, KEPT), load_pair(1, 2, KEPT, 16)]),
    "a store past the end": (True, [CALLED, load(1, KEPT, 16), unscaled(3, 0, 5, KEPT, 17)]),
    "a load past the end": (True, [CALLED, load(1, KEPT, 16), unscaled(3, 1, 5, KEPT, 17)]),
    "a short load past the end": (True, [CALLED, load(1, KEPT, 16), unscaled(0, 1, 5, KEPT, 24)]),
    "no chunk": (True, [move(21, 0x1200_0800), CALLED, OVER_END]),
    "after a free": (True, [copy(21, KEPT), load(1, 21), *FREED, CALLED, OVER_END]),
    "after a free at once": (True, [copy(21, KEPT), load(1, 21), *FREED, OVER_END]),
    "by a stale pointer": (True, [copy(21, KEPT), load(1, 21), *FREED, REACHED, OVER_END]),
    "twice freed": (True, [copy(21, KEPT), *FREED, CALLED, add(0, 21, 0), move(8, FREE), SERVICE]),
    "an inner free": (True, [add(21, KEPT, 16), CALLED, add(0, 21, 0), move(8, FREE), SERVICE]),
    "a number after a pointer": (False, [add(21, KEPT, 24), move(21, CODE), CALLED, OVER_END]),
    "a loaded number after a pointer": (False, [
        FRAME, move(5, CODE), store(5, SP), add(21, KEPT, 24), load(21, SP), CALLED, OVER_END]),
    "a return address after a pointer": (False, [
        add(30, KEPT, 24), word("branch", op=1, imm26=1), copy(21, 30), CALLED, OVER_END]),
    "a comparison of pointers": (False, [
        subtract_with_flags(ZERO, KEPT, 1), shifted(ZERO, KEPT, KEPT, 0, 1), CALLED,
        load(1, KEPT)]),
    "an undefined copy": (True, [UNDEFINED_WORD, copy(6, 5), CALLED, branch_on(6)]),
    "an undefined sum": (True, [UNDEFINED_WORD, add(6, 5, 1), CALLED, branch_on(6)]),
    "undefined flags": (True, [UNDEFINED_WORD, *IS_PRESSED, CALLED, jump_not_equal(1)]),
    "a selection by undefined flags": (True, [
        UNDEFINED_WORD, *IS_PRESSED, move(9, 1), CALLED,
        word("cond_sel", sf=1, rm=ZERO, cond=1, rn=9, rd=6), branch_on(6)]),
    "an undefined pair": (True, [load_pair(5, 6, KEPT), CALLED, branch_on(6)]),
    "an undefined sign": (True, [unscaled(0, 2, 5, KEPT, 0), CALLED,
                                 word("test_branch", b5=1, b40=8, imm14=1, rt=5)]),
    "an undefined short sign": (False, [unscaled(0, 3, 5, KEPT, 0), CALLED,
                                        word("test_branch", b5=1, b40=8, imm14=1, rt=5)]),
    "undefined in memory": (True, [FRAME, UNDEFINED_WORD, store(5, SP), CALLED, load(6, SP),
                                   CALLED, branch_on(6)]),
    "an undefined address": (True, [UNDEFINED_WORD, CALLED, at_register(1, KEPT, 5)]),
    "an undefined target": (True, [UNDEFINED_WORD, CALLED, word("branch_reg", opc=0, rn=5)]),
    "an undefined part": (True, [UNDEFINED_WORD, word("move_wide", sf=1, opc=3, hw=1, rd=5), CALLED,
                                 branch_on(5)]),
    "a lower frame": (True, [add(SP, SP, -32), CALLED, load(5, SP, 8), CALLED, branch_on(5)]),
    "a lower frame by a store": (True, [
        word("pair_pre", opc=2, l=0, imm7=-4, rt2=1, rn=SP, rt=0), CALLED, load(5, SP, 16), CALLED,
        branch_on(5)]),
    "the stored part of a lower frame": (False, [
        word("pair_pre", opc=2, l=0, imm7=-4, rt2=1, rn=SP, rt=0), CALLED, load(5, SP, 8), CALLED,
        branch_on(5)]),
    "a higher frame": (True, [add(SP, SP, -32), store(ZERO, SP, 8), add(SP, SP, 32), CALLED,
                              unscaled(3, 1, 5, SP, -24), CALLED, branch_on(5)]),
    "a higher frame by a load": (True, [
        add(SP, SP, -32), store_pair(ZERO, ZERO, SP),
        word("pair_post", opc=2, l=1, imm7=4, rt2=1, rn=SP, rt=0), CALLED,
        unscaled(3, 1, 5, SP, -32), CALLED, branch_on(5)]),
    "defined after undefined": (False, [UNDEFINED_WORD, move(5, 1), CALLED, branch_on(5)]),
    "stored after undefined": (False, [store(ZERO, KEPT), CALLED, UNDEFINED_WORD, branch_on(5)]),
    "defined flags": (False, [UNDEFINED_WORD, *IS_PRESSED, subtract_with_flags(ZERO, KEPT, 1),
                              CALLED, jump_not_equal(1)]),
    "a division": (True, [move(5, 0), CALLED, word("two_source", sf=1, rm=5, opcode=2, rn=KEPT,
                                                  rd=6)]),
    "a division of halves": (True, [move(5, 1 << 32), CALLED,
                                    word("two_source", rm=5, opcode=3, rn=8, rd=6)]),
    "a shift": (True, [move(5, 64), CALLED, word("two_source", sf=1, rm=5, opcode=8, rn=8, rd=6)]),
    "a shift of halves": (True, [move(5, 32), CALLED, word("two_source", rm=5, opcode=10, rn=8,
                                                          rd=6)]),
    "right shifts": (False, [move(5, 63), word("two_source", sf=1, rm=5, opcode=9, rn=8, rd=6),
                             CALLED, word("two_source", sf=1, rm=5, opcode=11, rn=8, rd=6)]),
}


@pytest.mark.parametrize("name", RULES)
def test_rules(alone: pathlib.Path, tmp_path: pathlib.Path, name: str) -> None:
    """A program for each rule of what is followed."""
    is_told, parts = RULES[name]
    path = tmp_path / "tenant.elf"
    path.write_bytes(heap(*parts))
    for number, asked in enumerate(CHECKED):
        slices = SLICES[number % len(SLICES)]
        assert differs(alone, tmp_path, [*asked, *slices, path]) == ""
        if asked == [ALL_KINDS]:
            assert (kind_of_end(tmp_path) == "check") == is_told

def test_rules_of_places(alone: pathlib.Path, tmp_path: pathlib.Path) -> None:
    """A program for each rule of places that is followed."""
    rules = place_rules.RULES
    starts = [place_rules.start(number) for number in range(len(rules))]
    images = images_of(tmp_path / "rules.s", "clang-O0", place_rules.text_of_rules(), starts)
    for number, (name, (is_told, _)) in enumerate(rules.items()):
        path = images[place_rules.start(number)]
        for asked in (PLACED[0], [*PLACED[1], *SLICES[number % len(SLICES)]]):
            assert differs(alone, tmp_path, [*asked, path]) == ""
            assert (kind_of_end(tmp_path) == "check") == is_told, name
