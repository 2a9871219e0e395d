"""The package of Python: names, ranges, a memory that grows, what is kept, traces, the wheel."""

import importlib.util
import os
import pathlib
import re
import sys

import pytest

from tests.support import library
from tests.support.embedding.built import DOCTESTS, EMBED, in_python
from tests.support.expected import compare
from tests.support.growth import MEASURED
from tests.support.places import EXAMPLES, ROOT
from tests.support.running import Ran, Word, run, succeed
from tests.support.tools import give_up, need

PACKAGE = EMBED / "tombolopan"
SAMPLES = EMBED / "from_unicorn"
BEGIN = """
import copy, pickle, random
from tombolopan import *
NOP, ADD, BRK = b"\\x1f\\x20\\x03\\xd5", b"\\x00\\x04\\x00\\x91", b"\\x00\\x00\\x20\\xd4"
R, W, X, T = READ, WRITE, EXEC, TAGGED

def refused(call, kind=ValueError):
    try:
        call()
    except kind as error:
        return str(error)
    raise AssertionError("it is not refused")
"""


def told(shared: pathlib.Path, text: str) -> str:
    """What a program over the package writes."""
    extra = in_python(shared, PACKAGE).extra
    ran = run([sys.executable, "-B", "-c", BEGIN + text], extra=extra)
    assert (ran.status, ran.errors) == (0, ""), ran.errors[-3000:]
    return ran.output


def test_names_of_registers(shared: pathlib.Path) -> None:
    """Each name is the register of the architecture: w0 to w30 are low halves, and what is set to
    one makes the high half zero; x29 is fp, x30 is lr; N, Z, C, V are bits 31 to 28."""
    assert told(shared, """
regs = Regs()
for at in range(31):
    setattr(regs, f"x{at}", 0x1111111100000000 + at)
assert list(regs.x) == [0x1111111100000000 + at for at in range(31)]
assert [getattr(regs, f"w{at}") for at in range(31)] == list(range(31))
for at in range(31):
    setattr(regs, f"w{at}", 100 + at)
assert regs.x[:] == list(range(100, 131)) and (regs.fp, regs.lr) == (129, 130)
regs.fp, regs.lr, regs.x[-3] = 1, 2, 3
assert (regs.x28, regs.x29, regs.x30) == (3, 1, 2)
for name, bit in zip("nzcv", (31, 30, 29, 28)):
    regs.nzcv = 0
    setattr(regs, name, True)
    assert regs.nzcv == 1 << bit and getattr(regs, name)
    setattr(regs, name, False)
    assert regs.nzcv == 0
regs = Regs(x=[5], sp=16, pc=0x10000, nzcv=1 << 30, lr=7)
print(regs, regs.z, regs.x0, regs.w30, len(regs.x))
other = copy.deepcopy(regs)
assert other == regs and pickle.loads(pickle.dumps(regs)) == regs
other.x0 = 6
assert other != regs and regs.x0 == 5
""") == "Regs(x0=0x5, x30=0x7, sp=0x10, pc=0x10000, nzcv=0x40000000) True 5 7 31\n"


U32, U64 = "0 to 0xffffffff", "0 to 0xffffffffffffffff"
RANGES = {
    "regs.x0 = -1": f"x0 is -1, and not {U64}",
    "regs.x[3] = 1 << 64": f"x3 is 0x10000000000000000, and not {U64}",
    "regs.x[2:4] = [1, -1]": f"x3 is -1, and not {U64}",
    "regs.w7 = 1 << 32": f"w7 is 0x100000000, and not {U32}",
    "regs.sp = -8": f"sp is -8, and not {U64}",
    "regs.lr = 1 << 70": f"lr is 0x400000000000000000, and not {U64}",
    "regs.nzcv = 1 << 32": f"nzcv is 0x100000000, and not {U32}",
    "regs.rgsr_seed = 65536": "rgsr_seed is 65536, and not 0 to 65535",
    "regs.n = 2": "n is 2, and not 0 to 1",
    "Regs([0] * 32)": "x has 32 numbers, and not 0 to 31",
    "Regs(pc=-4)": f"pc is -4, and not {U64}",
    "Memory(places=-1)": "places is -1, and not 0 to 262144",
    "Memory(1 << 32)": "places is 0x100000000, and not 0 to 262144",
    "memory.map(1 << 76, 4096, R)": None,
    "memory.map(0, 4096, 16)": "attrs is 16, and not 0 to 15",
    "memory.map(0, 1 << 57, R)": None,
    "memory.protect(0, 4096, -1)": "attrs is -1, and not 0 to 15",
    "memory.read(-1, 1)": f"address is -1, and not {U64}",
    "memory.read(0, -1)": f"length is -1, and not {U64}",
    "memory.write(1 << 64, b'')": f"address is 0x10000000000000000, and not {U64}",
    "memory.load(-1, b'')": f"address is -1, and not {U64}",
    "memory.peek(0, -5)": f"length is -5, and not {U64}",
    "memory.load_tag(-1)": f"address is -1, and not {U64}",
    "memory.store_tags(0, 1, 261)": "tag is 261, and not 0 to 15",
    "memory.store_tags(0, -1, 1)": f"granules is -1, and not {U64}",
    "run(memory, regs, -1)": f"steps is -1, and not {U64}",
    "run(memory, regs, 1, stops=[0, -4])": f"stops[1] is -4, and not {U64}",
    "trace(memory, regs, 1 << 64, [])": f"steps is 0x10000000000000000, and not {U64}",
    "session((1 << 32) + 11, b'', [])": "frames is 0x10000000b, and not 1 to 65536",
    "Session(0)": "frames is 0, and not 1 to 65536",
    "host.admit(65536, 1)": "id is 65536, and not 0 to 65535",
    "host.admit(1, 2)": "image is 2, and not 1 to 1",
    "host.admit(1, 1, 2)": "input is 2, and not 0 to 1",
    "host.admit(1, 1, seed=1 << 64)": f"seed is 0x10000000000000000, and not {U64}",
    "host.admit(1, 1, pages=1 << 32)": f"pages is 0x100000000, and not {U32}",
    "host.slice(1, 1 << 21)": "steps is 2097152, and not 0 to 1048576",
    "host.stop(-1)": "id is -1, and not 0 to 65535",
    "alone(b'', slices=[1, 1 << 32])": f"slices[1] is 0x100000000, and not {U32}",
    "alone(b'', seed=-1)": f"seed is -1, and not {U64}",
    "alone(b'', room=1 << 32)": f"room is 0x100000000, and not {U32}",
    "heap_calls([], pages=4097)": "pages is 4097, and not 1 to 4096",
    "heap_calls([(MALLOC, 24, 0), (FREE, -1, 0)])": f"calls[1]'s first is -1, and not {U64}",
    "heap_calls([], cookie=1 << 32)": f"cookie is 0x100000000, and not {U32}",
}


def test_numbers_out_of_range(shared: pathlib.Path) -> None:
    """ValueError with the name and the range, and nothing is changed."""
    text = "memory, regs, host = Memory(), Regs(x0=9), Session(11)\nhost.add_file(b'')\n"
    text += "memory.map(0, 4096, 15)\nbefore = memory.regions(), regs.copy(), repr(host)\n"
    for call in RANGES:
        text += f"print(refused(lambda: exec({call!r})))\n"
    text += "assert before == (memory.regions(), regs, repr(host))\n"
    found = told(shared, text).splitlines()
    assert len(found) == len(RANGES)
    assert [(call, got) for (call, wanted), got in zip(RANGES.items(), found)
            if wanted is not None and got != wanted] == []


def test_what_is_no_number(shared: pathlib.Path) -> None:
    """TypeError names what is wrong."""
    assert told(shared, """
print(refused(lambda: Memory(2.5), TypeError))
print(refused(lambda: setattr(Regs(), "pc", "0x10000"), TypeError))
print(refused(lambda: session(11, "slice 1 1", []), TypeError))
print(refused(lambda: session(11, b"", ["text"]), TypeError))
print(refused(lambda: Memory().load(0, "text"), TypeError))
print(refused(lambda: Regs(x31=1), TypeError))
print(refused(lambda: Regs().x["0"], TypeError), "|", refused(lambda: Regs().x[31], IndexError))
""").splitlines() == [
        "places is a number, and not a float", "pc is a number, and not a str",
        "script is bytes, and not a str", "files[0] is bytes, and not a str",
        "data is bytes, and not a str", "there is no register x31",
        "'str' object cannot be interpreted as an integer | there is no register x31: they are x0 "
        "to x30",
    ]


def test_a_memory_grows(shared: pathlib.Path) -> None:
    """Pages are mapped, unmapped and mapped again in drawn order, beside a dictionary of bytes."""
    assert told(shared, """
drawn, memory, model = random.Random(5), Memory(), {}
for turn in range(3000):
    page = drawn.randrange(0, 700) * 4096
    if page in model and drawn.random() < 0.4:
        memory.unmap(page, 4096)
        del model[page]
    elif page in model:
        at, data = drawn.randrange(4096), drawn.randbytes(8)
        if at > 4088 and page + 4096 not in model:
            assert refused(lambda: memory.load(page + at, data), MappingError)
            continue
        memory.load(page + at, data)
        both = bytearray(model[page] + model.get(page + 4096, b""))
        both[at : at + 8] = data
        model[page] = bytes(both[:4096])
        if page + 4096 in model:
            model[page + 4096] = bytes(both[4096:])
    else:
        memory.map(page, 4096, R | W)
        model[page] = bytes(4096)
assert {it: memory.peek(it, 4096) for it in model} == model
assert sum(it.length for it in memory.regions()) == 4096 * len(model) > 4096 * 300
for it in memory.regions():
    held = b"".join(model[at] for at in range(it.address, it.address + it.length, 4096))
    assert memory.read(it.address, it.length) == memory.peek(it.address, it.length) == held
    memory.write(it.address, held[::-1])
    assert memory.peek(it.address, it.length) == held[::-1]
    memory.load(it.address, held)
for other in (memory.copy(), copy.deepcopy(memory), pickle.loads(pickle.dumps(memory))):
    assert other.regions() == memory.regions()
    assert all(other.peek(it, 4096) == model[it] for it in model)
    other.unmap(*other.regions()[0][:2])
    assert other.regions() != memory.regions()
print(memory.pending, memory.asynchronous)
""") == "False False\n"


def test_pages(shared: pathlib.Path) -> None:
    """What is mapped, protected and unmapped, all of it or nothing."""
    assert told(shared, """
memory = Memory()
memory.map(0x10000, 0x3000, R | W)
memory.write(0x10ff0, bytes(range(32)))
print(refused(lambda: memory.map(0xf000, 0x2000, R), MappingError))
print(refused(lambda: memory.protect(0x12000, 0x2000, R), MappingError))
print(refused(lambda: memory.unmap(0x12000, 0x2000), MappingError))
print(refused(lambda: memory.map(0, 1 << 40, R), MappingError))
print(refused(lambda: Memory(2).map(0, 0x3000, R), MappingError))
print(refused(lambda: memory.map(0x10, 0x1000, R)))
print(memory)
memory.protect(0x11000, 0x1000, R | X | T)
print(memory)
print(refused(lambda: memory.write(0x10fff, b"ab"), Fault))
print(refused(lambda: memory.read(0x12fff, 1 << 62), Fault))
print(refused(lambda: memory.peek(0x12fff, 1 << 62), Fault))
print(refused(lambda: memory.load(0x12fff, b"ab"), MappingError))
assert memory.peek(0x10ff0, 32) == bytes(range(32))
memory.unmap(0x11000, 0x1000)
print(memory.regions())
memory.map(0x11000, 0x1000, 0)
assert memory.peek(0x11000, 0x1000) == bytes(0x1000)
print(memory, Memory(asynchronous=True), Memory().regions())
""").splitlines() == [
        "page already mapped at 0x10000", "page not mapped at 0x13000",
        "page not mapped at 0x13000", "page already mapped at 0x10000", "no room at 0x0",
        "address 0x10 and length 0x1000 are multiples of 4096",
        "Memory(0x10000..0x13000 READ|WRITE)",
        "Memory(0x10000..0x11000 READ|WRITE, 0x11000..0x12000 READ|EXEC|TAGGED, "
        "0x12000..0x13000 READ|WRITE)",
        "Permission: a write at 0x11000", "Translation: a read at 0x13000",
        "Translation: a read at 0x13000", "page not mapped at 0x13000",
        "[Region(0x10000, 0x1000, READ|WRITE), Region(0x12000, 0x1000, READ|WRITE)]",
        "Memory(0x10000..0x11000 READ|WRITE, 0x11000..0x12000 0, 0x12000..0x13000 READ|WRITE) "
        "Memory(asynchronous) []",
    ]


def test_many_pages_are_searched_seldom(shared: pathlib.Path) -> None:
    """The page that a register names is among the first places while a run goes on, and all
    pages keep their bytes, tags and attributes."""
    assert told(shared, """
memory = Memory()
memory.map(0x10000, 0x1000, R | X)
memory.load(0x10000, bytes.fromhex("410040f9" "ffffff17"))  # ldr x1, [x2]; b to it
memory.map(0x100000, 600 * 4096, R | W | T)
for at in range(600):
    memory.load(0x100000 + at * 4096, at.to_bytes(8, "little"))
    memory.store_tags(0x100000 + at * 4096, 1, at % 16)
for at in (599, 0, 300, 17, 599):
    regs = Regs(pc=0x10000, x2=(at % 16) << 56 | 0x100000 + at * 4096, sp=0x100000 + 9 * 4096)
    assert run(memory, regs, 10001).code == "ok" and regs.x1 == at
    assert memory._index[0x100 + at] < 16 and memory._index[0x10] < 16
for at in range(600):
    assert memory.peek(0x100000 + at * 4096, 8) == at.to_bytes(8, "little")
    assert memory.load_tag(0x100000 + at * 4096) == at % 16
    assert memory._places[memory._index[0x100 + at]].number == 0x100 + at
print(memory)
""") == "Memory(0x10000..0x11000 READ|EXEC, 0x100000..0x358000 READ|WRITE|TAGGED)\n"


def test_a_long_run_is_one(shared: pathlib.Path) -> None:
    """Over many pages a run is made in parts; steps, stops and what is left are those of one."""
    assert told(shared, """
memory = Memory()
memory.map(0x10000, 64 * 4096, R | X)
memory.load(0x10000, ADD + bytes.fromhex("ffffff17"))
regs = Regs(pc=0x10000)
print(run(memory, regs, 1000001), regs.x0, hex(regs.pc))
print(run(memory, regs, 1, stops=[0x10000]).code, run(memory, regs, 0, stops=[0x10000]).code)
memory.load(0x10004, BRK)
print(run(memory, regs, 1 << 40), regs.x0)
""").splitlines() == [
        "Stop(code=Code.OK, number=0, left=0, fault=None) 500001 0x10004", "stopped ok",
        f"Stop(code=Code.BREAKPOINT, number=0, left={(1 << 40) - 2}, fault=None) 500002",
    ]


def test_a_session_ends_at_its_limit(shared: pathlib.Path) -> None:
    """The 10,001st event is refused, and all before it are reported."""
    assert told(shared, """
host = Session(frames=11)
image = host.add_file(example("hi.elf"))
host.admit(1, image, pages=5, room=16)
for _ in range(9999):
    host.slice(1, 4)
before = host.report()
try:
    host.slice(1, 4)
except ScriptError as error:
    print(error, error.kind is ScriptFault.TOO_MANY_EVENTS)
print(refused(lambda: host.stop(1), ScriptError))
assert host.report() == before == session(11, host.script.encode(), host.files)
print(host.lines_of(1), host)
assert host.script.count("\\n") == 10000
""").splitlines() == [
        "script line 10001: TooManyEvents True", "script line 10001: TooManyEvents",
        "['status exit 0', 'steps 8', 'output 2 4869', 'heap 0'] "
        "Session(frames=11: 10000 events, 1 files)",
    ]


def test_limits_of_events(shared: pathlib.Path) -> None:
    """What the module takes is no faulty line, and the next number on is one."""
    assert told(shared, """
host = Session(frames=11)
image = host.add_file(b"no image")
for pages, room in ((0, 0), (4097, 65537), (0xffffffff, 0xffffffff)):
    host.admit(65535, image, image, (1 << 64) - 1, pages, room, True)
host.slice(65535, 1048576)
host.stop(65535)
print(host.report().decode(), end="")
for line in (b"stop 65536", b"slice 1 1048577",
             b"admit 1 image 1 input 0 seed 0000000000000001 frames 4294967296 out 1",
             b"admit 1 image 2 input 0 seed 0000000000000001 frames 5 out 1"):
    print(refused(lambda: session(11, line + b"\\n", [b""]), ScriptError))
""").splitlines() == [
        *(f"refused {at} BadReservation" for at in (1, 2, 3)), "refused 4 NotLive",
        "refused 5 NotLive", "script line 1: BadNumber", "script line 1: BadNumber",
        "script line 1: BadNumber", "script line 1: NoSuchFile",
    ]


def test_a_trace_leaves_what_a_run_leaves(shared: pathlib.Path) -> None:
    """Drawn programs that load and store over their own code and across pages, in both modes."""
    assert told(shared, """
WORDS = (0x39400022, 0xf9400041, 0xb9001041, 0xa9400440, 0xa9000440, 0xf8408c41, 0xf8008441,
         0x58000041, 0x91000400, 0xd503201f, 0xd9200841, 0xd9600041, 0xd9a00841, 0x91004042)
PLACES = (0x20000, 0x20ff8, 0x20ffc, 0x10000, 0x10010, 0x10ff8, 0x10ffc, 5 << 56 | 0x20000,
          0x1fff8)
drawn, entries = random.Random(11), 0
for turn in range(400):
    one = Memory(asynchronous=turn % 3 == 0)
    for at in (0x10000, 0x11000):
        one.map(at, 4096, drawn.choice((R | W | X, R | X, 15)))
        one.load(at, b"".join(drawn.choice(WORDS).to_bytes(4, "little") for _ in range(1024)))
    one.map(0x20000, 4096, drawn.choice((R | W, R | W | T, R)))
    regs = Regs([drawn.choice(PLACES) for _ in range(31)], pc=0x10fd0, sp=0x20100)
    other, regs_too, accesses = one.copy(), regs.copy(), []
    stop = trace(one, regs, 60, accesses)
    want = run(other, regs_too, 60)
    assert (stop.code, stop.left, str(stop.fault)) == (want.code, want.left, str(want.fault))
    assert regs == regs_too and one.pending == other.pending
    assert all(one.peek(at, 4096) == other.peek(at, 4096) for at in (0x10000, 0x11000, 0x20000))
    entries += len(accesses)
assert entries > 500
""") == ""


def test_a_fetch_is_no_access(shared: pathlib.Path) -> None:
    """A trace without room tells the fault of a page without EXEC, and goes on behind it."""
    assert told(shared, """
memory, regs, accesses = Memory(), Regs(pc=0x10000, x2=0x10000), []
memory.map(0x10000, 4096, R)
memory.load(0x10000, bytes.fromhex("410040f9") + BRK)  # ldr x1, [x2]
print(trace(memory, regs, 9, accesses, room=0))
memory.protect(0x10000, 4096, R | X)
print(trace(memory, regs, 9, accesses, room=0), trace(memory, regs, 9, accesses, room=1))
print(accesses)
""").splitlines() == [
        "Stop(code=Code.FAULT, number=0, left=8, fault=Fault('Permission: a read at 0x10000'))",
        "Stop(code=Code.NO_ROOM, number=0, left=9, fault=None) "
        "Stop(code=Code.BREAKPOINT, number=0, left=7, fault=None)",
        "[Access(0x10000: a read of 8 at 0x10000, value 0xd4200000f9400041, tag 0)]",
    ]


def test_what_is_pickled(shared: pathlib.Path) -> None:
    """Results and exceptions come back as they were."""
    assert told(shared, """
memory, regs = Memory(asynchronous=True), Regs()
stop = step(memory, regs)
for it in (stop, Code.SVC, Attrs.READ | Attrs.EXEC, alone(example("hi.elf")), memory.regions(),
           heap_calls([(HeapOp.MALLOC, 24, 0)])):
    back = pickle.loads(pickle.dumps(it))
    assert repr(back) == repr(it) and type(back) is type(it)
for it in (stop.fault, ScriptError(3, ScriptFault.SYNTAX), Refused(Refusal.SHORT),
           MappingError(Code.NO_ROOM, 4096)):
    back = pickle.loads(pickle.dumps(it))
    assert (type(back), str(back), vars(back)) == (type(it), str(it), vars(it))
assert pickle.loads(pickle.dumps(Code.SVC)) is Code.SVC
assert pickle.loads(pickle.dumps(memory)).asynchronous
print(stop.fault, Code.SVC.number, Code("svc"))
""") == "Translation: a read at 0x0 2 svc\n"


def test_nothing_grows(shared: pathlib.Path) -> None:
    """Thousands of sessions, tenants, heaps, runs and copies take no more memory than hundreds."""
    assert told(shared, """
image, script = example("hi.elf"), (b"admit 1 image 1 input 0 seed 0000000000000001 frames 5 out 16"
                                    b"\\nslice 1 100\\n")
memory, regs = Memory(), Regs(pc=0x10000, x2=0x11000)
memory.map(0x10000, 0x2000, R | W | X)
memory.load(0x10000, bytes.fromhex("410000f9" "ffffff17"))  # str x1, [x2]; b to it

def turn():
    session(11, script, [image])
    alone(image)
    heap_calls([(MALLOC, 24, 0)])
    trace(memory, regs, 9, [])
    refused(lambda: memory.peek(0, 1), Fault)
    memory.copy().map(0x20000, 20 * 4096, R)
""" + MEASURED) == "\n"


@pytest.mark.parametrize("name", ["watch", "hooks", "services", "protect", "context"])
def test_samples(shared: pathlib.Path, name: str) -> None:
    """The samples for those who come from Unicorn write what the architecture says."""
    it = in_python(shared, SAMPLES / f"{name}.py")
    ran = run(it.words, extra=it.extra)
    assert (ran.status, ran.errors) == (0, "")
    compare(f"embedding/{name}.txt", ran.output)


def test_speeds(shared: pathlib.Path) -> None:
    """Each figure of speed.py is written; how great it is, is not compared."""
    it = in_python(shared, EMBED / "speed.py")
    ran = run([*it.words, "4", "20000"], extra=it.extra)
    assert (ran.status, ran.errors) == (0, "")
    first, *rest = ran.output.splitlines()
    assert re.fullmatch(r"a run over 4 pages: [0-9.]+ times that over 4", first)
    assert [re.sub(r"[0-9.]+", "N", line) for line in rest] == [
        f"{what}: N million a second" for what in (
            "accesses, iterated", "instructions, iterated", "accesses, by a callback",
            "heap calls, from a list of Python", "heap calls, tb_heap_replay alone")]


def test_types(tmp_path: pathlib.Path) -> None:
    """A program is checked against the hints of the package, and a wrong one is told."""
    need("mypy")
    path = tmp_path / "program.py"
    path.write_text("from tombolopan import Memory, Regs\nRegs().x0 = 1\nRegs().w3 = 'x'\n"
                    "Memory().peek('0')\nRegs().x[0] = 2\n", encoding="utf-8")
    words: list[Word] = ["mypy", "--strict", "--cache-dir", tmp_path / "cache", path]
    ran = run(words, extra={"MYPYPATH": str(EMBED)})
    assert set(re.findall(r"^.*program\.py:(\d+): error", ran.output, re.M)) == {"3", "4"}


def need_pip() -> None:
    """Skips the test where there is no pip."""
    if importlib.util.find_spec("pip") is None:
        give_up("missing: pip (tests/packages.txt has the Debian packages)")


@pytest.fixture(scope="module")
def wheel(shared: pathlib.Path, tmp_path_factory: pytest.TempPathFactory) -> pathlib.Path:
    """A wheel over the library."""
    out = tmp_path_factory.mktemp("wheel")
    tool = ROOT / "tools" / "python_wheel.py"
    name = succeed([sys.executable, "-B", tool, out, library.static_library(shared)]).output
    return out / name.strip()


def test_the_wheel_is_installed(wheel: pathlib.Path, tmp_path: pathlib.Path) -> None:
    """pip installs it without a network, and it finds the library that is inside."""
    need_pip()
    succeed([sys.executable, "-m", "pip", "install", "-q", "--no-index", "--target", tmp_path,
             wheel])
    assert re.fullmatch(r"tombolopan-[\w.+]+-py3-none-manylinux_2_\d+_\w+\.whl", wheel.name)
    script = (EMBED / "first.py").read_text(encoding="utf-8")
    extra = {"PYTHONPATH": str(tmp_path), "TOMBOLOPAN": ""}
    script += "import tombolopan.abi\nprint(tombolopan.abi._library._name)\n"
    ran = run([sys.executable, "-B", "-c", script], cwd=tmp_path, extra=extra)
    wanted = f"breakpoint 1, x0 is 42\n{tmp_path}/tombolopan/libtombolopan.so\n"
    assert ran == Ran(0, wanted.encode(), b"")
    assert (tmp_path / "tombolopan" / "py.typed").exists()


def test_its_examples_need_no_checkout(wheel: pathlib.Path, tmp_path: pathlib.Path) -> None:
    """Installed by pip into an environment of its own, each example in the package's texts is
    right, and an image is that of the checkout's examples."""
    need_pip()
    place = tmp_path / "venv"
    made = run([sys.executable, "-m", "venv", "--without-pip", place])
    if made.status:
        give_up(f"no environment is made: {made.errors.strip()[-300:]} (Debian: python3-venv)")
    python = place / "bin" / "python"
    found = succeed([python, "-c", "import sysconfig; print(sysconfig.get_path('purelib'))"])
    succeed([sys.executable, "-m", "pip", "install", "-q", "--no-index", "--target",
             found.output.strip(), wheel])
    bare: list[Word] = ["env", "-i", "PATH=/usr/bin:/bin", f"HOME={tmp_path}", python, "-B", "-c"]
    ran = run([*bare, f"{DOCTESTS}print(tombolopan.__file__)"], cwd=tmp_path)
    told_of = re.fullmatch(rf"(\d+) of (\d+)\n{place}/.*/tombolopan/__init__.py\n", ran.output)
    assert ran.status == 0 and told_of, ran.output[-3000:] + ran.errors
    assert told_of[1] == told_of[2] and int(told_of[1]) >= 80
    told_image = "import sys, tombolopan; sys.stdout.buffer.write(tombolopan.example('hi.elf'))"
    assert run([*bare, told_image], cwd=tmp_path).out == (EXAMPLES / "hi.elf").read_bytes()


def test_the_wheel_is_a_function_of_its_sources(
    shared: pathlib.Path, wheel: pathlib.Path, tmp_path: pathlib.Path
) -> None:
    """Made by pip from the checkout, it has the same bytes."""
    need_pip()
    archive = library.static_library(shared)
    succeed([sys.executable, "-m", "pip", "wheel", "-q", "--no-index", "--no-deps", "-w", tmp_path,
             "--config-settings", f"library={archive}", ROOT])
    assert [it.read_bytes() for it in tmp_path.iterdir()] == [wheel.read_bytes()]


def test_no_wheel_without_a_library(tmp_path: pathlib.Path) -> None:
    """The tool says what is to be built."""
    tool = ROOT / "tools" / "python_wheel.py"
    ran = run([sys.executable, "-B", tool, tmp_path], extra={"TOMBOLOPAN_BUILT": str(tmp_path)})
    assert ran.status == 1 and not os.listdir(tmp_path)
    assert ran.errors == (f"python_wheel.py: {tmp_path}/libtombolopan_c.a is not there: "
                          "tools/build.sh [--unproved] --only libtombolopan_c.a\n")
