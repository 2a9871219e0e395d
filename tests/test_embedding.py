"""The library from C, C++, Rust and Python: what its calls answer, sessions, the first programs."""

import itertools
import pathlib
import re
import sys
from collections.abc import Callable, Iterator

import pytest

from tests.support.embedding import heaps, machines, memory, runs, sessions, tenants
from tests.support.embedding import watching
from tests.support.embedding.built import COMPILERS, DRIVERS, EMBED, Program, in_c, in_python
from tests.support.embedding.built import DOCTESTS, program
from tests.support.embedding.folders import make, words_of
from tests.support.embedding.lines import ALL, Line, line
from tests.support.embedding.words import SIZES, assembled
from tests.support.expected import compare
from tests.support.once import make_once
from tests.support.places import EXAMPLES, ROOT
from tests.support.running import Ran, run
from tests.support.tools import need

VARIANTS = [*COMPILERS, "rust", "python"]
GROUPS: dict[str, Callable[[], Iterator[Line]]] = {
    "memory": lambda: itertools.chain(memory.pages(), memory.accesses(), memory.tags()),
    "asynchronous": memory.asynchronous,
    "no places": memory.no_places,
    "ranges": memory.ranges,
    "registers": runs.registers,
    "flags": runs.flags,
    "stops": runs.stops,
    "until": runs.until,
    "traces": runs.traces,
    "heaps": lambda: itertools.chain(heaps.calls(), heaps.setups()),
    "sessions": lambda: itertools.chain(sessions.ended(), sessions.faults()),
    "tenants": lambda: itertools.chain(tenants.ends(), tenants.outputs(), tenants.refusals()),
    "heap calls": tenants.heap_calls,
    "machines": lambda: itertools.chain(machines.acts(), machines.edges(), machines.pages(),
                                        machines.hostile()),
    "replays": lambda: itertools.chain(heaps.replays(), heaps.mapped(), heaps.live()),
    "traced runs": lambda: itertools.chain(watching.mixed(), watching.ends(), watching.tags()),
    "disassembly": watching.texts,
    "hostile": watching.hostile,
}


def started(it: Program, *words: str, stdin: bytes = b"", cwd: pathlib.Path = ROOT) -> Ran:
    """What came of a program."""
    return run([*it.words, *words], stdin=stdin, cwd=cwd, extra=it.extra)


def answers(shared: pathlib.Path, variant: str, lines: list[str]) -> list[str]:
    """The answers of the program that makes the calls of lines."""
    text = "".join(f"{it}\n" for it in lines).encode()
    ran = started(program(shared, variant, "calls"), stdin=text)
    assert ran.status == 0, f"{ran.status} behind {ran.output[-300:]}: {ran.errors[-2000:]}"
    return ran.output.splitlines()


@pytest.mark.parametrize("variant", VARIANTS)
def test_calls_answer_as_documented(shared: pathlib.Path, variant: str) -> None:
    """Each call, with values that this test knows by the header's comments, at all edges."""
    language = variant if variant in ALL else "c"
    lines = [(group, it) for group, made in GROUPS.items() for it in made()
             if language in it.languages]
    found = answers(shared, variant, [it.text for _, it in lines])
    assert len(found) == len(lines)
    different = [(group, it.text[:200], it.answer, got) for (group, it), got in zip(lines, found)
                 if it.answer != got]
    assert not different


@pytest.mark.parametrize("variant", ["gcc-c11", "clang-c++17", "rust", "python"])
def test_sizes_of_accesses(shared: pathlib.Path, variant: str) -> None:
    """How many bytes loads and stores access, by the words that an assembler makes of texts."""
    need("aarch64-linux-gnu-as", "aarch64-linux-gnu-objcopy")
    found = assembled(shared, [text for text, _ in SIZES])
    lines = [line(f"size {word:#x}", size) for word, (_, size) in zip(found, SIZES)]
    assert answers(shared, variant, [it.text for it in lines]) == [it.answer for it in lines]


@pytest.mark.parametrize("variant", ["gcc-c11", "clang-c++17", "rust", "python"])
def test_texts(shared: pathlib.Path, variant: str) -> None:
    """The text of each number, and of numbers that mean nothing."""
    numbers = [*range(16), 99, 0x7FFFFFFF, 0xFFFFFFFF]
    wanted = [f"texts: {'; '.join(texts_of(it))}" for it in numbers]
    assert answers(shared, variant, [f"texts {it}" for it in numbers]) == wanted


CODES = ("ok fault svc breakpoint illegal+instruction page+not+mapped page+already+mapped no+room "
         "bad+argument heap+abort out+of+memory faulty+script+line tenant+refused stopped "
         "no+machine")
NAMES = (
    CODES, "none Translation Permission TagCheck Alignment SpAlignment PcAlignment",
    "none Misaligned Unmapped HeaderCorrupt InvalidState NotABlock AlreadyFree",
    "none Syntax BadNumber NoSuchFile TooManyEvents",
    "none unknown BadReservation ReservationTooSmall unknown unknown Short NotElf64 NotAarch64 "
    "NotExec BadHeaders Interpreter SegmentRange Overlap NoEntry",
    "none running exit fault illegal break async abort",
    "none PastSize Freed NoChunk",
    "none subs adds ands ccmp ccmn cbz tbz sub+cbz eor+cbz call",
)


def texts_of(number: int) -> list[str]:
    """The eight texts of a number: names of docs/HOST.md and docs/REPORT.md, of a trespass, and of
    what compares."""
    lists = [names.replace("+", "\0").split(" ") for names in NAMES]
    return [(it[number] if number < len(it) else "unknown").replace("\0", " ") for it in lists]


@pytest.mark.parametrize("variant", ["gcc-c11", "rust", "python"])
def test_the_cookie_is_in_the_header(shared: pathlib.Path, variant: str) -> None:
    """A header has the class, state and size; its checksum the low 16 bits of the cookie."""
    lines = heaps.headers()
    found = answers(shared, variant, [it.text for it in lines.values()])
    header = dict(zip(lines, [int(it.split("|")[2].split()[4], 16) for it in found]))
    assert header[1] == header[0x10001] != header[2]
    assert {it & (1 << 48) - 1 for it in header.values()} == {2 | 1 << 8 | 24 << 12}


@pytest.mark.parametrize("variant", [*COMPILERS, "rust"])
def test_the_program_that_embeds(shared: pathlib.Path, variant: str) -> None:
    """examples/embed/embed.c and embed.rs write the same, without a sanitizer's word."""
    ran = started(program(shared, variant, "embed"), str(EXAMPLES / "hi.elf"))
    assert (ran.status, ran.errors) == (0, "")
    compare("embedding/embed.txt", ran.output)


def test_the_first_program_in_c(shared: pathlib.Path) -> None:
    """The page's program, as C and as C++."""
    code = shown("docs/C.md", "first.c")
    assert "tb_run(" in code
    for variant in ("gcc-c11", "clang-c++17"):
        ran = started(in_c(shared, variant, EMBED / "first.c"))
        assert (ran.status, ran.output) == (0, "breakpoint 1, x0 is 42\n")


def test_the_first_program_in_rust(shared: pathlib.Path) -> None:
    """The page's program in Rust."""
    assert "memory.run(" in shown("docs/RUST.md", "first.rs")
    assert started(program(shared, "rust", "first")).output == "breakpoint 1, x0 is 42\n"


def test_the_first_program_in_python(shared: pathlib.Path) -> None:
    """The page's program in Python."""
    assert "run(memory" in shown("docs/PYTHON.md", "first.py")
    assert started(program(shared, "python", "first")).output == "breakpoint 1, x0 is 42\n"


def shown(page: str, name: str) -> str:
    """The program that a page shows, which the file of the name is."""
    text = (ROOT / page).read_text(encoding="utf-8")
    begin = rf"\*\* \(`examples/embed/{name}`"
    found = re.search(begin + r".*?\n\n```\w+\n(.*?)```", text, re.S)
    assert found, f"{page} shows no {name}"
    assert found[1] == (EMBED / name).read_text(encoding="utf-8"), f"{page} and {name} differ"
    return found[1]


@pytest.fixture(scope="session")
def folders(host: pathlib.Path, shared: pathlib.Path) -> list[pathlib.Path]:
    """Folders of sessions, each with what mte_host writes."""
    made = make_once(shared / "embedding" / "sessions", lambda path: make(host, path))
    return sorted(made.iterdir())


@pytest.mark.parametrize("variant", ["gcc-c99", "gcc-sanitized", "clang-sanitized", "clang-c++17",
                                     "rust", "python"])
def test_sessions(shared: pathlib.Path, folders: list[pathlib.Path], variant: str) -> None:
    """Reports, lines on standard error and statuses by tb_session are those of mte_host."""
    if variant == "python":
        it = in_python(shared, EMBED / "tombolopan")
    else:
        it = program(shared, variant, "session")
    different = []
    for at in folders:
        ran = started(it, *words_of(at), cwd=at)
        found = (ran.out, ran.err, f"{ran.status}\n".encode())
        if found != tuple((at / f"want.{part}").read_bytes() for part in ("out", "err", "status")):
            different.append((at.name, found))
    assert not different
    assert len(folders) > 30


@pytest.mark.parametrize("variant", ["gcc-c99", "clang-c++17", "rust", "python"])
def test_frames_that_are_none(shared: pathlib.Path, host: pathlib.Path, variant: str) -> None:
    """A number of frames that no host has is a usage fault, as of mte_host."""
    if variant == "python":
        it = in_python(shared, EMBED / "tombolopan")
    else:
        it = program(shared, variant, "session")
    for frames in ("0", "65537", str((1 << 32) + 11), "x"):
        words = ["--frames", frames, "hi.script", "hi.elf"]
        assert run([host, *words], cwd=EXAMPLES).status == 2
        ran = started(it, *words, cwd=EXAMPLES)
        assert (ran.status, ran.out) == (2, b"")


@pytest.mark.parametrize("variant", ["gcc-c11", "gcc-sanitized"])
def test_sessions_of_eight_threads(shared: pathlib.Path, folders: list[pathlib.Path],
                                   variant: str) -> None:
    """Each thread runs every session, each beginning with another one."""
    it = in_c(shared, variant, EMBED / "threads.c", "-pthread")
    ran = started(it, *map(str, folders))
    count = 8 * len(folders)
    assert (ran.status, ran.output) == (0, f"8 threads: {count} of {count} as wanted\n"), ran.errors


def test_the_examples_of_the_python_module(shared: pathlib.Path) -> None:
    """What the texts of the package show."""
    it = in_python(shared, EMBED / "tombolopan")
    ran = run([sys.executable, "-B", "-c", DOCTESTS], cwd=EMBED, extra=it.extra)
    assert ran.status == 0, ran.output[-3000:]
    found = re.search(r"^(\d+) of (\d+)$", ran.output, re.M)
    assert found and found[1] == found[2] and int(found[1]) >= 80


OUT_OF_RANGE = [
    "Memory(2).map(1 << 76, 4096, READ)", "Memory(2).map(-4096, 4096, READ)",
    "Memory(2).map(0, 1 << 57, READ)", "Memory(2).map(0, 4096, 256 + READ)",
    "Memory(2).map(1, 4096, READ)", "Memory(2).unmap(1 << 76, 4096)",
    "tagged.store_tags(0, 1, 256 + 5)", "tagged.store_tags(0, 1, 16)",
    "tagged.store_tags(0, 1 << 64, 5)", "session((1 << 32) + 11, b'', [])", "session(0, b'', [])",
    "alone(b'', slices=[(1 << 32) + 1])", "alone(b'', pages=(1 << 32) + 5)",
    "alone(b'', room=(1 << 32) + 5)", "alone(b'', seed=1 << 64)", "alone(b'', seed=-1)",
    "run(tagged, Regs(), 1 << 64)", "run(tagged, Regs(), 1, [1 << 64])",
    "heap_calls([(MALLOC, 1 << 64, 0)])", "heap_calls([], pages=(1 << 32) + 5)",
    "heap_calls([], pages=4097)", "heap_calls([], rgsr_seed=65536)", "heap_calls([], cookie=-1)",
    "disassemble(1 << 32)", "disassemble(-1)", "disassemble(NOP, 1 << 64)", "disassemble(NOP, -1)",
    "Heap(pages=4097)", "Heap(cookie=1 << 32)", "Heap().replay([(1 << 32, 0, 0)])",
    "Heap().replay([(MALLOC, -1, 0)])", "Heap().replay([(MALLOC, 0, 1 << 64)])",
    "Heap().replay([(MALLOC, Answer(1 << 32), 0)])", "Heap().replay([(MALLOC, Answer(1), 0)])",
    "Heap().replay([(10, 0, 0)])", "hook_code(tagged, Regs(), 1 << 64)",
    "hook_code(tagged, Regs(), 1, [1 << 64])", "hook_code(tagged, Regs(), 1, begin=-1)",
    "hook_code(tagged, Regs(), 1, begin=5, end=4)", "hook_code(tagged, Regs(), 1, block=0)",
    "hook_mem(tagged, Regs(), 1, kinds=16)", "hook_mem(tagged, Regs(), 1, end=1 << 64)",
    "hook_mem(tagged, Regs(), 1, block=1 << 30)", "hook_block(tagged, Regs(), -1)",
]


def test_python_refuses_numbers_that_do_not_fit(shared: pathlib.Path) -> None:
    """ValueError, where ctypes would pass the low bits of a number."""
    text = "from tombolopan import *\nNOP, tagged = 0xd503201f, Memory(1)\n"
    text += "tagged.map(0, 4096, 15)\n"
    for call in OUT_OF_RANGE:
        text += f"try:\n    {call}\n    print({call!r})\nexcept ValueError:\n    pass\n"
    it = in_python(shared, EMBED / "tombolopan")
    ran = run([sys.executable, "-B", "-c", text], extra=it.extra)
    assert (ran.status, ran.output, ran.errors) == (0, "", "")


def test_each_call_is_made() -> None:
    """The lines of this file make every call of the library and of the header."""
    text = (ROOT / "include" / "tombolopan.h").read_text(encoding="utf-8")
    declared = set(re.findall(r"^(?:static inline )?[\w *]*?\b(tb_\w+)\(", text, re.M))
    assert len(declared) == 29 + 26
    source = (DRIVERS / "calls.c").read_text(encoding="utf-8")
    source += (DRIVERS / "fuzzed.c").read_text(encoding="utf-8")
    assert declared <= set(re.findall(r"\b(tb_\w+)\(", source))
    known = {"heap", *(it.text.split()[0] for lines in GROUPS.values() for it in lines())}
    commands = set(re.findall(r'strcmp\(what, "(\w+)"\)', source))
    assert commands <= known | {"texts", "size"}


def test_what_is_measured(shared: pathlib.Path) -> None:
    """speed.c makes its calls, and thousands of sessions, tenants and heap traces take no more
    memory than hundreds."""
    it = in_c(shared, "gcc-c11", EMBED / "speed.c")
    ran = started(it, "2000")
    assert (ran.status, ran.errors) == (0, "")
    lines = [re.sub(r"-?[0-9]+[.][0-9]+", "F", it) for it in ran.output.splitlines()]
    assert lines[:5] == ["a tenant of 136 steps and 24 pages: F us, without its steps F us",
                         "a read: F ns, over two pages F ns; a write: F ns, over two pages F ns",
                         "a page that is mapped and unmapped: F ns",
                         "a traced access: F ns over the run", "heap calls: F million a second"]
    grown = re.fullmatch(r"2000 sessions, tenants and heap traces: ([0-9]+) KiB more", lines[5])
    assert grown and int(grown[1]) < 2000 and len(lines) == 6


@pytest.mark.parametrize("language, file", [("rust", "calls.rs"), ("python", "calls.py")])
def test_each_call_is_made_from(language: str, file: str) -> None:
    """Of Rust and Python each call of the library has a line."""
    names = {it.text.split()[0] for lines in GROUPS.values() for it in lines()
             if language in it.languages}
    assert names >= {"version", "session", "alone", "places", "map", "unmap", "read", "write",
                     "load", "load_tag", "store_tags", "step", "run", "until", "heap", "replay",
                     "traced", "machine", "mapped", "heap_mapped", "live"}
    assert (DRIVERS / file).exists()
