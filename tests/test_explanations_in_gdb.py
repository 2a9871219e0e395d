"""The cores that mte_run writes of the tenants of tests/images, as GDB and readelf read them, and
what GDB is told of these tenants by packets."""

import pathlib
import re
import sys
from dataclasses import dataclass

import pytest

from tests.support import asan
from tests.support.acts import (
    ABORT, ACTS, BREAKPOINT, BUILDS, FAULT, ILLEGAL, OPTION_BUILDS, PRIMARY, Act, image, primary)
from tests.support.explained import Explained, run_act
from tests.support.places import EXAMPLES, IMAGES
from tests.support.running import Word, run, succeed
from tests.support.told import input_file
from tests.support.tools import need

sys.path.insert(0, str(EXAMPLES / "gdb"))
from packets import Front  # noqa: E402

FLAGS = {"n": 31, "z": 30, "c": 29, "v": 28}
# The ends whose cores are opened: that of the main act of each tenant, and others.
ENDS = [
    *((primary(source), build) for source in sorted(PRIMARY) for build in OPTION_BUILDS
      if build in primary(source).builds),
    (Act("chunks", "g", 0), "gcc-O0"), (Act("chunks", "l", 0), "gcc-O0"),
    (Act("stack", "d", 0), "clang-O2"), (Act("words", "S", 0), "gcc-O0"),
    (Act("words", "A", 0), "clang-O2"),
    (Act("services", "w", 0, options=("--steps", "2000")), "gcc-O2"),
    (Act("services", "a", 0, options=("--async",)), "gcc-O0"),
]
# Of these the ones that name an address of the heap.
TAGGED = [(Act("chunks", text, 0), build) for text in "acdfg" for build in OPTION_BUILDS]


@dataclass
class Core:
    """A core, and what mte_run told of the same run."""

    one: Explained
    path: pathlib.Path

    def asked(self, *commands: str) -> str:
        """What GDB prints of commands over the core."""
        words = ["gdb-multiarch", "-nx", "-batch", "-iex", "set sysroot"]
        for command in commands:
            words += ["-ex", command]
        named = image(self.one.act.source, self.one.build).name
        return succeed([*words, named, self.path], cwd=IMAGES).output


def core_of(alone: pathlib.Path, act: Act, build: str, folder: pathlib.Path) -> Core:
    """The core of an act's end."""
    path = folder / "core"
    return Core(run_act(alone, act, build, folder, "--core", str(path)), path)


def titled(case: tuple[Act, str]) -> str:
    """The title of a case: an act and a build."""
    act, build = case
    return f"{act.source}-{act.name}-{build}"


@pytest.fixture
def core(alone: pathlib.Path, tmp_path: pathlib.Path, request: pytest.FixtureRequest) -> Core:
    """The core of an act's end, of a build: the case's."""
    act, build = request.param
    return core_of(alone, act, build, tmp_path)


@pytest.mark.parametrize("core", ENDS, indirect=True, ids=titled)
def test_registers_of_a_core_are_those_that_are_told(core: Core) -> None:
    """GDB reads x0 to x30, SP, PC and the flags as JSON has them."""
    need("gdb-multiarch")
    names = [*(f"x{number}" for number in range(31)), "sp", "pc", "cpsr"]
    printed = core.asked(*(f'printf "%lx\\n", ${name}' for name in names))
    values = [int(word, 16) for word in printed.split()[-len(names):]]
    listed = core.one.json["registers"]
    wanted = [int(word, 16) for word in [*listed["x"], listed["sp"], listed["pc"]]]
    flags = sum(1 << FLAGS[flag.lower()] for flag in listed["flags"] if flag.isupper())
    assert values == [*wanted, flags]


@pytest.mark.parametrize("core", ENDS, indirect=True, ids=titled)
def test_pages_of_a_core_are_those_that_are_told(core: Core) -> None:
    """readelf lists a segment for each range of pages, with its rights, and one for its tags."""
    need("readelf")
    listed = succeed(["readelf", "--program-headers", "--wide", core.path]).output
    segment = re.compile(
        r"^  (LOAD|AARCH64_MEMTAG) +0x\w+ (0x\w+) 0x\w+ (0x\w+) (0x\w+) ([RWE ]{3}) ", re.M
    )
    found = [
        (kind, int(start, 16), int(size, 16), rights.lower().translate({32: "-", 101: "x"}))
        for kind, start, _, size, rights in segment.findall(listed)
    ]
    wanted = []
    for pages in core.one.json["pages"]:
        start, size = int(pages["first"], 16), int(pages["last"], 16) + 1 - int(pages["first"], 16)
        wanted.append(("LOAD", start, size, pages["attributes"][:3]))
        if "t" in pages["attributes"]:
            wanted.append(("AARCH64_MEMTAG", start, size, "---"))
    assert found == wanted


@pytest.mark.parametrize("core", TAGGED, indirect=True, ids=titled)
def test_tags_of_a_core_are_those_that_are_told(core: Core) -> None:
    """GDB reads the tags around the address as the report has them."""
    need("gdb-multiarch")
    tags = core.one.json["tags"]
    places = [(int(tags["from"], 16) + 16 * at, tag) for at, tag in enumerate(tags["tags"])
              if tag is not None]
    printed = core.asked(*(
        f"memory-tag print-allocation-tag (char *) {place:#x}" for place, _ in places
    ))
    shown = [int(word, 16) for word in re.findall(r"^\$\d+ = (0x\w+)$", printed, re.M)]
    assert shown == [tag for _, tag in places]


@pytest.mark.parametrize("text", "fsgu")
@pytest.mark.parametrize("build", BUILDS)
def test_calls_of_a_core_are_those_that_are_told(
    alone: pathlib.Path, tmp_path: pathlib.Path, text: str, build: str
) -> None:
    """GDB's backtrace has the functions that the told command lists, inlined ones among them."""
    need("gdb-multiarch", "llvm-symbolizer")
    core = core_of(alone, Act("chunks", text, 0), build, tmp_path)
    printed = core.asked("backtrace")
    shown = re.findall(r"^#\d+ +(?:0x\w+ in )?(\w+) \(", printed, re.M)
    # GDB has printed the innermost one when it opened the core.
    assert asan.own_names(shown[1:]) == asan.names_told(core.one.ran.errors, IMAGES)["end"]


# The signal that Linux has for an end, and what its siginfo has.
SIGNALS = (
    ("chunks", "f", 11, 9), ("chunks", "o", 11, 1), ("places", "c", 11, 2), ("words", "S", 7, 1),
    ("words", "f", 4, 1), ("words", "B", 5, 1), ("chunks", "g", 6, -6),
)


@pytest.mark.parametrize("source, text, number, code", SIGNALS)
def test_signal_of_a_core(
    alone: pathlib.Path, tmp_path: pathlib.Path, source: str, text: str, number: int, code: int
) -> None:
    """The signal, its code and its address, with the pointer's tag where tags differ."""
    need("gdb-multiarch")
    core = core_of(alone, Act(source, text, 0), "gcc-O0", tmp_path)
    fields = ("si_signo", "si_code", "_sifields._sigfault.si_addr")
    printed = core.asked(*(f'printf "%ld\\n", (long) $_siginfo.{it}' for it in fields))
    values = [int(word) for word in printed.split()[-3:]]
    status = core.one.status
    address = int(status.get("address", "0") if status["kind"] == "fault" else
                  status["pc"] if status["kind"] in ("illegal", "breakpoint") else "0", 16)
    tag = status["pointer_tag"] if status.get("name") == "TagCheck" else 0
    assert values == [number, code, tag << 56 | address]


def told_by_packets(alone: pathlib.Path, folder: pathlib.Path, act: Act, build: str) -> Front:
    """A front over an act, which was continued to its end."""
    named = image(act.source, build)
    words = [str(alone), "--gdb", "--input", str(input_file(folder, act.input)), *act.options]
    front = Front([*words, str(named)])
    front.stopped = front.ask(b"c")
    return front


@pytest.mark.parametrize("source, text, signal", [
    ("chunks", "f", b"T0b"), ("words", "S", b"T0a"), ("words", "f", b"T04"), ("words", "B", b"T05"),
    ("chunks", "g", b"T06"),
])
def test_gdb_is_told_the_signal_by_its_own_number(
    alone: pathlib.Path, tmp_path: pathlib.Path, source: str, text: str, signal: bytes
) -> None:
    """GDB's numbers are Linux's but for SIGBUS, which is 10."""
    front = told_by_packets(alone, tmp_path, Act(source, text, 0), "gcc-O0")
    assert front.stopped[:3] == signal
    assert front.end() == (0, b"")


def test_gdb_is_told_of_chunks_around_an_address(
    alone: pathlib.Path, tmp_path: pathlib.Path
) -> None:
    """`monitor chunk`: in front of a chunk, in it, and whose calls made and freed it."""
    front = told_by_packets(alone, tmp_path, Act("chunks", "f", 0), "clang-O2")
    ahead = front.ask_user("chunk 0x12000085").decode()
    inside = front.ask_user("chunk 0x1200009b").decode()
    front.end()
    chunk = "freed 48-byte chunk at 0x0100000012000090"
    assert ahead.splitlines()[0] == f"{chunk}, 11 bytes in front of it"
    assert inside.splitlines()[0] == f"{chunk}, 11 bytes into it"
    for told in (ahead, inside):
        assert "  allocated by call 3, calloc(3, 16) = 0x0100000012000090 by the SVC at " in told
        freed = "  freed by call 16, free(0x0100000012000090) = 0x0000000000000000 by the SVC at "
        assert freed in told


# The acts that GDB is told the end of.
WHYS = [act for act in ACTS
        if act.first and act.status in (FAULT, ABORT, ILLEGAL, BREAKPOINT)]


@pytest.mark.parametrize("source", sorted({act.source for act in WHYS}))
def test_gdb_is_told_why_as_the_report_has_it(
    alone: pathlib.Path, tmp_path: pathlib.Path, source: str
) -> None:
    """`monitor why` has the report of each end, to the last line: kinds of ends, causes, hints."""
    for number, act in enumerate(it for it in WHYS if it.source == source):
        build = act.builds[number % len(act.builds)]
        front = told_by_packets(alone, tmp_path, act, build)
        why = front.ask_user("why").decode()
        front.end()
        given = input_file(tmp_path, act.input)
        words: list[Word] = [alone, "--last", "0", "--input", given, *act.options]
        plain = run([*words, image(source, build)])
        assert plain.errors.startswith(why) and why.count("\n") > 1, (act, why, plain.errors)
