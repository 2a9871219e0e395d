"""A real GDB over `mte_run --gdb`: dialogs, registers, points, ends, cores, hostile packets."""

import os
import pathlib
import random
import re
import shutil
import sys
from collections.abc import Sequence

import pytest

from tests.support import gdb_images
from tests.support import tenants_for_gdb as tenants
from tests.support.debugger import asked, debugged, extended, gdb, numbers_in, target
from tests.support.debugger import value_in
from tests.support.embedding.heaps import Generator, chunk
from tests.support.expected import compare
from tests.support.instructions import CODE, SP, add, breakpoint_instruction, call, copy, move
from tests.support.instructions import program, store, store_tag
from tests.support.places import EXAMPLES, ROOT, TESTS
from tests.support.running import Ran, run
from tests.support.tenants_for_gdb import ENDS, STACK_END, VALUES, WATCHED
from tests.support.tools import give_up, need

GDB_EXAMPLES = EXAMPLES / "gdb"
sys.path.insert(0, str(GDB_EXAMPLES))
from packets import Front, frame  # noqa: E402

MEGABYTE = 1 << 20
# What a front and a tenant of 256 pages take, twice over; a front that is flooded gets no more.
MEMORY = 64 * MEGABYTE
PACKET = 0x4000
HEADER_SIZE = 64  # of ELF64: the first program header is behind it


def stored_dialog(alone: pathlib.Path, folder: pathlib.Path, name: str) -> str:
    """What GDB prints of the commands of examples/gdb/NAME.gdb over the stored image."""
    words = ["-iex", f"directory {folder}", "-iex", f"file {name}.elf",
             "-ex", target(alone, [f"{name}.elf"]), "-x", str(GDB_EXAMPLES / f"{name}.gdb")]
    return gdb(words, folder)


@pytest.mark.parametrize("name", gdb_images.NAMES)
def test_a_dialog(alone: pathlib.Path, tmp_path: pathlib.Path, name: str) -> None:
    """Forwards and backwards, by lines, watchpoints and breakpoints: all that GDB prints."""
    compare(f"gdb/{name}.txt", stored_dialog(alone, gdb_images.with_images(tmp_path), name))


def test_stored_packets(alone: pathlib.Path, tmp_path: pathlib.Path) -> None:
    """The packets of a dialog forwards and backwards, and their answers, byte for byte."""
    shutil.copy(ROOT / "crates/mte_run/data/use_after_free.elf", tmp_path)
    stream = (TESTS / "expected/gdb/packets.txt").read_bytes()
    ran = run([alone, "--gdb", "--seed", "1", "use_after_free.elf"], cwd=tmp_path, stdin=stream)
    assert (ran.status, ran.err) == (0, b"")
    assert ran.out == (TESTS / "expected/gdb/answers.txt").read_bytes()


def test_the_dialog_of_a_core(alone: pathlib.Path, tmp_path: pathlib.Path) -> None:
    """GDB opens the core of a tenant's end, with its tags, and no front."""
    folder = gdb_images.with_images(tmp_path)
    run([alone, "--core", "lru.core", "lru.elf"], cwd=folder)
    words = ["-iex", f"directory {folder}", "lru.elf", "lru.core",
             "-x", str(GDB_EXAMPLES / "core.gdb")]
    compare("gdb/core.txt", gdb(words, folder))


@pytest.mark.parametrize("name", gdb_images.NAMES)
def test_the_stored_images_are_of_the_sources(tmp_path: pathlib.Path, name: str) -> None:
    """By the compiler that made them, today's sources give the stored images."""
    need(gdb_images.COMPILER)
    if gdb_images.compiler_version() != gdb_images.VERSION:
        give_up(f"the stored images are by {gdb_images.COMPILER} {gdb_images.VERSION}")
    image = gdb_images.built(gdb_images.with_sources(tmp_path), name)
    stored = gdb_images.STORED / f"{name}.elf"
    if os.environ.get("WRITE_EXPECTED") == "1":
        stored.write_bytes(image)
    assert image == stored.read_bytes(), "WRITE_EXPECTED=1 stores it anew, and then its dialog"


def test_registers(alone: pathlib.Path, tmp_path: pathlib.Path) -> None:
    """Each of x0 to x30, SP, PC and the flags, all different from one another."""
    dialog = debugged(alone, tenants.REGISTERS, [
        "continue", "info registers", "print/x $x17", "print/x $sp", "print/x $x30",
        *(["info registers cpsr", "reverse-stepi"] * 4), "info registers cpsr",
    ], tmp_path)
    found = numbers_in(dialog[1])
    assert {name: found[name] for name in VALUES} == VALUES
    assert found["step"] == tenants.REGISTER_STEPS
    assert [value_in(dialog[it]) for it in (2, 3, 4)] == [
        VALUES["x17"], VALUES["sp"], VALUES["x30"]
    ]
    shown = [dialog[it].split()[1:] for it in (5, 7, 9, 11, 13)]
    wanted = [[f"{word:#x}", "[", name, "]"]
              for word, name in zip(reversed(tenants.FLAG_WORDS), "VCZN")]
    assert shown == [*wanted, ["0x0", "[", "]"]]


def test_the_core_has_the_same_registers(alone: pathlib.Path, tmp_path: pathlib.Path) -> None:
    """What GDB reads of a core is what a front tells of the tenant: registers, memory, tags."""
    words = [*tenants.SETTING, *move(0, tagged(STACK_END - 64, 5)), store_tag(0),
             store(17, 0), breakpoint_instruction(1)]
    queries = ["info registers", f"x/4gx {STACK_END - 64}", f"x/3wx {CODE}",
               "memory-tag print-allocation-tag $x0", "print $_siginfo.si_signo",
               "print $_siginfo.si_code", "print $_siginfo._sifields._sigfault.si_addr"]
    live = debugged(alone, program(words), ["continue", *queries], tmp_path)
    run([alone, "--core", "tenant.core", "tenant.elf"], cwd=tmp_path)
    core = asked(["tenant.elf", "tenant.core"], queries, tmp_path)
    told, kept = numbers_in(live[1]), numbers_in(core[0])
    names = [*(f"x{number}" for number in range(31)), "sp", "pc", "cpsr"]
    assert {it: kept[it] for it in names} == {it: told[it] for it in names}
    assert kept["x17"] == VALUES["x17"] and kept["sp"] == STACK_END
    assert core.answers[1:] == live.answers[2:]
    assert f"{VALUES['x17']:#x}" in core[1]


def tagged(address: int, tag: int) -> int:
    """An address with a tag in bits 59 to 56."""
    return address | tag << 56


@pytest.mark.parametrize("command, accesses", [
    ("watch", tenants.WRITES),
    ("rwatch", tenants.READS),
    ("awatch", tuple(sorted(tenants.WRITES + tenants.READS))),
])
def test_watchpoints(alone: pathlib.Path, tmp_path: pathlib.Path, command: str,
                     accesses: tuple[int, ...]) -> None:
    """Each stops where it should and nowhere else: behind the access, backwards in front of it."""
    moves = len(accesses) + 1
    commands = [f"{command} -l *(unsigned long *){WATCHED:#x}"]
    commands += ["continue", "print $pc"] * moves + ["reverse-continue", "print $pc"] * moves
    dialog = debugged(alone, tenants.ACCESSES, commands, tmp_path)
    stops = [value_in(it) for it in dialog.answers[2::2]]
    last = CODE + 4 * 13
    assert stops[:moves] == [*(CODE + 4 * (it + 1) for it in accesses), last]
    assert stops[moves:] == [*(CODE + 4 * it for it in reversed(accesses)), CODE]


def test_watchpoints_of_other_bytes(alone: pathlib.Path, tmp_path: pathlib.Path) -> None:
    """A byte in front of the number and one behind it have accesses of their own."""
    for address, instruction in ((WATCHED - 1, 6), (WATCHED + 8, 4)):
        commands = [f"watch -l *(unsigned char *){address:#x}", "continue", "print $pc"]
        dialog = debugged(alone, tenants.ACCESSES, commands, tmp_path)
        assert value_in(dialog[2]) == CODE + 4 * (instruction + 1)


def test_breakpoints_forwards_and_backwards(alone: pathlib.Path, tmp_path: pathlib.Path) -> None:
    """A loop's three rounds are met in both directions, and the steps are counted."""
    commands = [f"break *{CODE + 4:#x}"]
    commands += ["continue", "print $x0", "print $step"] * 4
    commands += ["reverse-continue", "print $x0", "print $step"] * 4
    dialog = debugged(alone, tenants.LOOP, commands, tmp_path)
    values = [(value_in(dialog[it]), value_in(dialog[it + 1])) for it in range(2, 25, 3)]
    hits = [(3, 1), (2, 4), (1, 7)]
    assert values == [*hits, (9, 12), *reversed(hits), (0, 0)]
    assert all("Breakpoint 1, " in dialog[it] for it in (1, 4, 7, 13, 16, 19))
    assert "the tenant exits with 9 after 13 steps" in dialog[10]
    assert all("No more reverse-execution history." in dialog[it] for it in (10, 22))


def test_other_breakpoints(alone: pathlib.Path, tmp_path: pathlib.Path) -> None:
    """A condition, a breakpoint by hardware, one that is taken out, one that is met once."""
    start, loop = CODE, CODE + 4
    dialog = debugged(alone, tenants.LOOP, [
        f"break *{loop:#x} if $x0 == 2", "continue", "print $step", "delete",
        f"hbreak *{loop + 8:#x}", "continue", "print $step", "disable", "reverse-continue",
        "print $pc", f"tbreak *{loop + 4:#x}", "continue", "print $step", "continue", "print $x8",
        "reverse-continue", "print $step", "continue", "continue",
    ], tmp_path)
    assert [value_in(dialog[it]) for it in (2, 6, 9, 12, 14, 16)] == [4, 6, start, 2, 0, 0]
    assert "exited with code 011]" in dialog[18]


def test_steps_forwards_and_backwards(alone: pathlib.Path, tmp_path: pathlib.Path) -> None:
    """Steps are counted: by GDB's register, by the front's command, over returns too."""
    dialog = debugged(alone, tenants.LOOP, [
        "stepi", "print $step", "stepi 5", "print $step", "monitor step", "print $pc",
        "reverse-stepi 2", "print $step", "print $x1", "monitor step", "reverse-stepi 99",
        "print $step", "monitor why",
    ], tmp_path)
    assert [value_in(dialog[it]) for it in (1, 3, 5, 7, 8, 11)] == [1, 6, CODE + 12, 4, 1, 0]
    assert [dialog[it].strip() for it in (4, 9)] == ["6", "4"]
    assert dialog[12].strip() == "it is running, after 0 steps"


def test_lines_backwards(alone: pathlib.Path, tmp_path: pathlib.Path) -> None:
    """By lines: reverse-next over a call, reverse-step into it, reverse-finish out of it."""
    folder = gdb_images.with_images(tmp_path)
    lines = (folder / "use_after_free.c").read_text(encoding="utf-8").splitlines()
    load_line = next(at for at, text in enumerate(lines, 1) if "return text[0]" in text)
    words = ["-iex", f"directory {folder}", "-iex", "file use_after_free.elf",
             "-ex", target(alone, ["use_after_free.elf"])]
    dialog = asked(words, [
        f"break use_after_free.c:{load_line}", "continue", "reverse-next", "reverse-next",
        "continue", "reverse-step", "info symbol $pc", "reverse-finish", "info symbol $pc",
        "step", "info symbol $pc",
    ], folder)
    assert [int(dialog[it].split()[0]) for it in (2, 3)] == [load_line - 1, load_line - 2]
    names = [dialog[it].split()[0] for it in (6, 8, 10)]
    assert names == ["tenant_free", "main", "tenant_free"]


@pytest.mark.parametrize("name", ENDS)
def test_ends(alone: pathlib.Path, tmp_path: pathlib.Path, name: str) -> None:
    """The signal of each end, with its code and address, and the steps that were done."""
    end = ENDS[name]
    dialog = debugged(alone, end.image, [
        "continue", "print $_siginfo.si_code", "print $_siginfo._sifields._sigfault.si_addr",
        "print $step", "reverse-stepi", "print $step",
    ], tmp_path, end.options)
    assert f"Program received signal {end.signal}, {end.text}" in dialog[0]
    # Where its steps are over it has no signal of its own yet.
    assert value_in(dialog[1]) == end.code
    assert value_in(dialog[2]) == end.address
    assert [value_in(dialog[it]) for it in (3, 5)] == [end.steps, end.steps - 1]


@pytest.mark.parametrize("name", ENDS)
def test_an_end_stays(alone: pathlib.Path, tmp_path: pathlib.Path, name: str) -> None:
    """However often one goes on: the same signal at the same step; one can go back from there."""
    end = ENDS[name]
    # By SIGTRAP a step ends too, so GDB names no signal.
    steps = ["continue"] if end.signal == "SIGTRAP" else ["stepi", "nexti"]
    moves = ["continue", "continue", *steps, "continue"]
    dialog = debugged(alone, end.image, [
        *moves, "print $step", "print $_siginfo.si_code", "reverse-stepi", "print $step",
        "continue", "print $step",
    ], tmp_path, end.options)
    *again, step, code, _, before, last, step_again = dialog.answers
    told = f"Program received signal {end.signal}, {end.text}"
    assert all(told in it for it in (*again, last)), dialog.answers
    stays = "the tenant has ended here, after" if end.signal != "SIGXCPU" else "the limit of"
    assert all(stays in it for it in again[1:]), dialog.answers
    assert [value_in(it) for it in (step, code, before, step_again)] == [
        end.steps, end.code, end.steps - 1, end.steps
    ]


def test_running_again(alone: pathlib.Path, tmp_path: pathlib.Path) -> None:
    """`run` and `starti` begin anew, in the middle, behind an exit, behind a kill; points stay."""
    dialog = extended(alone, tenants.LOOP, [
        f"break *{CODE + 4:#x}", "continue", "continue", "print $x0", "run", "print $x0",
        "print $step", "starti", "print $step", "delete", "continue", "continue", "starti",
        "print $step", "stepi", "kill", "run", "continue", "detach", "starti", "print $pc",
    ], tmp_path)
    assert [value_in(dialog[it]) for it in (3, 5, 6, 8, 13, 20)] == [2, 3, 1, 0, 0, CODE]
    assert "Breakpoint 1, " in dialog[4]
    assert all("exited with code 011]" in dialog[it] for it in (11, 17)), dialog.answers


def test_running_again_from_a_fault(alone: pathlib.Path, tmp_path: pathlib.Path) -> None:
    """The same fault comes again, and a watchpoint stops on the way as the first time."""
    dialog = extended(alone, ENDS["tag check"].image, ["continue", "run", "print $step"], tmp_path)
    assert all("Program received signal SIGSEGV" in dialog[it] for it in (0, 1))
    assert value_in(dialog[2]) == ENDS["tag check"].steps
    dialog = extended(alone, tenants.ACCESSES, [
        f"watch -l *(unsigned long *){WATCHED:#x}", "continue", "print $pc", "continue", "run",
        "print $pc",
    ], tmp_path)
    assert value_in(dialog[2]) == value_in(dialog[5]) == CODE + 4 * (tenants.WRITES[0] + 1)


def test_going_to_a_step(alone: pathlib.Path, tmp_path: pathlib.Path) -> None:
    """`goto` moves forwards, backwards, to the end; `checkpoint` tells how to come back."""
    dialog = extended(alone, tenants.LOOP, [
        "goto 4", "print $x0", "print $step", "goto 0x1", "print $x0", "print $pc", "checkpoint",
        "goto 1000", "print $step", "goto 0", "print $step", "stepi", "print $step", "monitor goto",
        "goto 1000", "continue",
    ], tmp_path)
    assert [value_in(dialog[it]) for it in (1, 2, 4, 5)] == [2, 4, 3, CODE + 4]
    assert "at step 4\n" in dialog[0]
    assert "goto 1 comes back here" in dialog[6]
    assert "the tenant exits with 9 after 13 steps" in dialog[7]
    assert [value_in(dialog[it]) for it in (8, 10, 12)] == [12, 0, 1]
    assert dialog[13].startswith("why | calls | ")
    assert "exited with code 011]" in dialog[15]
    end = ENDS["tag check"]
    dialog = extended(alone, end.image, ["goto 99", "print $step", "continue", "goto 3",
                                         "print $step", "continue"], tmp_path)
    assert "Cause: [MTE]: Use After Free" in dialog[0]
    assert [value_in(dialog[it]) for it in (1, 4)] == [end.steps, 3]
    assert all("Program received signal SIGSEGV" in dialog[it] for it in (2, 5))


def test_what_cannot_be_says_so(alone: pathlib.Path, tmp_path: pathlib.Path) -> None:
    """What a tenant has not is answered by a sentence, and the dialog goes on."""
    dialog = extended(alone, tenants.CHUNKS, [
        "stepi", "record", "record full", "stepi", "generate-core-file", "set var $x0 = 7",
        f"set var *(char *){STACK_END - 8:#x} = 1", f"jump *{CODE:#x}", "goto 14", "chunk $x20",
        "calls", "why", "print $x0",
    ], tmp_path)
    assert all("Nothing needs to be recorded" in dialog[it] for it in (1, 2))
    assert "mte_run --core" in dialog[4]
    assert all("is not allowed" in dialog[it] for it in (5, 6, 7))
    assert dialog[9].startswith("live 40-byte chunk at 0x")
    assert dialog[10].startswith("call 1, malloc(24) = 0x")
    assert dialog[11].startswith("it is running, after 14 steps")


# What people type over examples/gdb/lru.c, and what GDB prints of each: one session.
WALK = (
    ("break put", r"Breakpoint 1 at 0x\w+: file \./lru\.c"), ("continue", "Breakpoint 1, put"),
    ("finish", "main \\(\\)"), ("delete", ""), ("tbreak evict", "Temporary breakpoint 2"),
    ("continue", "Temporary breakpoint 2, evict"), ("up", "#1 .* put"), ("down", "#0 .*evict"),
    ("frame 2", "#2 .* main"), ("frame 0", "#0 .*evict"), ("backtrace full", r"i = 4"),
    ("info locals", "n = 0x"), ("info args", "c = 0x"), ("info frame", "saved pc"),
    ("info line", r"\./lru\.c"), ("info source", "lru.c"), ("info threads", r"Thread 1\.1"),
    ("info breakpoints", "No breakpoints"), ("info proc mappings", r"\[heap\]"),
    ("advance 58", "58\t"), ("until", "59\t"), ("ptype struct cache", "buckets\\[8\\]"),
    ("print *c", "first = 0x"), ("print c->first->value", '"four"'), ("x/4gx c", "0x05"),
    ("x/s c->first->value", "four"), ("x/2i $pc", "=> "), ("display c->count", ""),
    ("next", "= 4"), ("undisplay 1", ""), ("watch c->count", "watchpoint 3"),
    ("continue", "left the block"), ("watch -l c->count", "watchpoint 4"),
    ("continue", "New value = 5"), ("delete", ""), ("break get if key == 9", "Breakpoint 5"),
    ("continue", "Breakpoint 5, get.*key=9"), ("delete", ""), ("continue", "SIGSEGV"),
    ("next", "SIGSEGV"), ("step", "SIGSEGV"), ("continue", "SIGSEGV"), ("finish", "SIGSEGV"),
    ("print *n", "key = 18"), ("memory-tag check n", "does not match"),
    ("chunk n", "freed 40-byte"), ("print $_siginfo.si_signo", "= 11"), ("reverse-step", r"65\t"),
    ("reverse-next", r"\d+\t"), ("reverse-stepi", r"\d+\t"),
    ("reverse-continue", "No more reverse"), ("print $step", "= 0"),
    ("print main()", "not allowed"), ("set var $pc = 0", "not allowed"),
    ("return", "not allowed|frame"), ("print \"text\"", '= "text"'), ("checkpoint", "goto 0"),
    ("goto 2748", "tenant_call"), ("record", "Nothing needs"), ("start", "main \\(\\)"),
    ("starti", "_start"), ("run", "SIGSEGV"), ("kill", "killed"), ("starti", "_start"),
)


def test_what_people_type(alone: pathlib.Path, tmp_path: pathlib.Path) -> None:
    """Each command of a whole session works, or says in a sentence why it cannot."""
    folder = gdb_images.with_images(tmp_path)
    words = ["-iex", f"directory {folder}", "lru.elf", "-x", str(GDB_EXAMPLES / "tenant.gdb"),
             "-ex", target(alone, ["lru.elf"], "extended-remote")]
    dialog = asked(words, [command for command, _ in WALK], folder)
    for (command, wanted), answer in zip(WALK, dialog.answers):
        assert re.search(wanted, answer, re.S), f"{command}: {answer}"


def test_code_that_cannot_be_read(alone: pathlib.Path, tmp_path: pathlib.Path) -> None:
    """GDB shows the words of a page with EXEC alone, and so does a core."""
    words = [*move(0, 7), breakpoint_instruction(1)]
    image = bytearray(program(words))
    assert image[HEADER_SIZE + 4] == 5
    image[HEADER_SIZE + 4] = 1  # p_flags: PF_X without PF_R
    queries = [f"x/{len(words)}wx {CODE:#x}", f"x/bx {CODE + 1:#x}", "x/i $pc"]
    live = debugged(alone, bytes(image), ["continue", *queries], tmp_path)
    run([alone, "--core", "tenant.core", "tenant.elf"], cwd=tmp_path)
    core = asked(["tenant.elf", "tenant.core"], queries, tmp_path)
    assert all(f"{word:#010x}" in live[1] for word in words)
    assert f"{words[0] >> 8 & 255:#04x}" in live[2]
    assert "brk" in live[3]
    assert core.answers == live.answers[1:]


def test_tags_of_a_fault(alone: pathlib.Path, tmp_path: pathlib.Path) -> None:
    """GDB tells both tags of a fault, as the pointer and the memory have them."""
    dialog = debugged(alone, ENDS["tag check"].image, ["continue"], tmp_path)
    assert (f"Memory tag violation while accessing address 0x{tenants.CHUNK:016x}\n"
            "Allocation tag 0x3\nLogical tag 0x1.") in dialog[0]


def test_memory_tags(alone: pathlib.Path, tmp_path: pathlib.Path) -> None:
    """The tags of a pointer and of the memory, which are only read."""
    words = [*move(0, tagged(STACK_END - 128, 5)), store_tag(0), breakpoint_instruction(2)]
    dialog = debugged(alone, program(words), [
        "continue", "memory-tag print-allocation-tag $x0", "memory-tag print-logical-tag $x0",
        "memory-tag check $x0", "memory-tag check $x0 + 16",
        "memory-tag set-allocation-tag $x0 16 07", "memory-tag print-allocation-tag $x0",
    ], tmp_path)
    assert [value_in(dialog[it]) for it in (1, 2, 6)] == [5, 5, 5]
    assert "match (0x5)" in dialog[3]
    assert "Logical tag (0x5) does not match the allocation tag (0x0)" in dialog[4]
    assert "Could not update the allocation tag(s)" in dialog[5]


def test_mappings(alone: pathlib.Path, tmp_path: pathlib.Path) -> None:
    """The pages of a tenant, before its heap has any and behind it."""
    dialog = debugged(alone, tenants.CHUNKS, ["info proc mappings", "continue",
                                              "info proc mappings"], tmp_path)
    rows = [re.findall(r"0x([0-9a-f]+) +0x([0-9a-f]+) +0x[0-9a-f]+ +0x0 +(\S+) +(\S+)", dialog[it])
            for it in (0, 2)]
    code = ("10000", "11000", "r-xp", "tenant.elf")
    stack = ("3fffc000", "40000000", "rw-p", "[stack]")
    # Chunks of 24, 40 and 16 bytes with their headers: blocks of 64 bytes, and of 32.
    heap = [("11000000", "11001000", "rw-p", "[heap]"), ("12000000", "12001000", "rw-p", "[heap]")]
    assert rows == [[code, stack], [code, *heap, stack]]


def test_the_tenant_is_only_read(alone: pathlib.Path, tmp_path: pathlib.Path) -> None:
    """What would change it is refused, and the dialog goes on."""
    dialog = debugged(alone, tenants.LOOP, [
        "stepi", "set var $x0 = 77", f"set var *(char *){CODE:#x} = 1", f"jump *{CODE:#x}",
        "print $x0", "print $pc", f"x/wx {CODE:#x}", "call (int)1", "continue", "continue",
    ], tmp_path)
    assert all(re.search("Could not write|Cannot access", dialog[it]) for it in (1, 2, 3))
    assert [value_in(dialog[it]) for it in (4, 5)] == [tenants.ROUNDS, CODE + 4]
    assert f"{move(0, tenants.ROUNDS)[0]:08x}" in dialog[6]
    assert "exited with code 011]" in dialog[9]


def test_chunks(alone: pathlib.Path, tmp_path: pathlib.Path) -> None:
    """`monitor chunk` in front of a chunk, in it and behind it; `monitor calls`."""
    tags = Generator(1)
    one, two = chunk(tags.draw(0)), chunk(tags.draw(1), 1)
    start = 0x12000050
    dialog = debugged(alone, tenants.CHUNKS, [
        "monitor calls", "continue", "monitor calls",
        *(f"monitor chunk {start + it:#x}" for it in (-16, -1, 0, 39)),
        f"monitor chunk {start + 40:#x}", "monitor chunk 0x12000010", "monitor chunk nonsense",
        'eval "monitor chunk %p", $x20',
    ], tmp_path)
    assert dialog[0].strip() == "no heap calls yet"
    calls = dialog[2].splitlines()
    assert len(calls) == 4
    assert calls[0] == f"call 1, malloc(24) = {one:#018x} by the SVC at {CODE + 8:#018x}, step 3"
    assert calls[1] == f"call 2, malloc(40) = {two:#018x} by the SVC at {CODE + 24:#018x}, step 7"
    assert calls[2].startswith("call 3, calloc(2, 8) = 0x")
    svc = f"by the SVC at {CODE + 60:#018x}, step 16"
    assert calls[3] == f"call 4, free({two:#018x}) = {0:#018x} {svc}"
    for at, where in ((3, "16 bytes in front of"), (4, "1 bytes in front of"), (5, "0 bytes into"),
                      (6, "39 bytes into"), (10, "0 bytes into")):
        lines = dialog[at].splitlines()
        assert lines[0] == f"freed 40-byte chunk at {two:#018x}, {where} it"
        assert lines[1:3] == [f"  allocated by {calls[1]}", f"  freed by {calls[3]}"]
    assert dialog[7].splitlines()[0] == "no chunk there"
    assert dialog[8].splitlines()[:2] == [f"live 24-byte chunk at {one:#018x}, 0 bytes into it",
                                          f"  allocated by {calls[0]}"]
    assert dialog[9].startswith("why | calls | chunk 0xADDRESS | step")


def test_tags_around_a_chunk(alone: pathlib.Path, tmp_path: pathlib.Path) -> None:
    """The tags around an address, its own in brackets."""
    dialog = debugged(alone, tenants.CHUNKS, ["break *0x10018", "continue", "stepi",
                                              "monitor chunk 0x12000050"], tmp_path)
    two = Generator(1)
    first, second = two.draw(0), two.draw(1)
    row = dialog[3].splitlines()[-1]
    # Blocks of 64 bytes: a granule of header, of the first chunk two granules, of the second three.
    blocks = f"0 {first:x} {first:x} 0 0 [{second:x}] {second:x} {second:x} 0"
    assert row.startswith("tags from 0x0000000011ffffd0: - - - ") and f"- {blocks}" in row


def test_why_is_the_report(alone: pathlib.Path, tmp_path: pathlib.Path) -> None:
    """`monitor why` tells what mte_run tells of the same tenant, to the last line."""
    dialog = debugged(alone, tenants.CHUNKS, ["continue", "monitor why", "reverse-stepi",
                                              "monitor why"], tmp_path)
    plain = run([alone, "--last", "0", "tenant.elf"], cwd=tmp_path)
    assert plain.errors == f"{dialog[1]}mte_run: ended by fault TagCheck, status 129\n"
    assert dialog[3].strip() == "it is running, after 15 steps"


def test_why_has_the_store_behind_a_jump(alone: pathlib.Path, tmp_path: pathlib.Path) -> None:
    """Also after a jump to no code, where mte_run tells what wrote its target last."""
    image = program([*move(1, 0x123), 0xF81F0FE1, 0xF84107FE, 0xD65F03C0])
    dialog = debugged(alone, image, ["continue", "monitor why"], tmp_path)
    plain = run([alone, "--last", "0", "tenant.elf"], cwd=tmp_path)
    assert plain.errors == f"{dialog[1]}mte_run: ended by fault PcAlignment, status 129\n"
    assert "  the return address at 0x000000003ffffff0 was last written by " in dialog[1]


def test_options(alone: pathlib.Path, tmp_path: pathlib.Path) -> None:
    """The tenant has the seed, the mode, the input and the room that the options say."""
    words = [*call(3, 24), copy(19, 0), add(0, SP, -16), *move(1, 9), *move(8, 2), 0xD4000001,
             copy(20, 0), *call(1, CODE, 40), copy(21, 0), *call(11), copy(22, 0),
             breakpoint_instruction(0)]
    (tmp_path / "given").write_bytes(b"words")
    for seed, pages, room, mode in ((1, 64, 8, ()), (0xABCD, 100, 40, ("--async",)),
                                    (0x51234, 4096, 0, ())):
        options = ["--seed", f"{seed:x}", "--pages", str(pages), "--out", str(room),
                   "--input", "given", *mode]
        dialog = debugged(alone, program(words), [
            "continue", "print $x19", "print $x20", "print $x21", "print $x22", "print $tag_ctl",
            f"x/5c {STACK_END - 16:#x}",
        ], tmp_path, options)
        first = chunk(Generator(seed % 65536, seed >> 16 & 15).draw(0))
        # The pages of the code, of the stack and of the heap's first class are mapped.
        left, control = pages - 1 - 4 - 1, 0x7FFF5 if mode else 0x7FFF3
        wanted = [first, 5, min(room, 40), left, control]
        assert [value_in(dialog[it]) for it in range(1, 6)] == wanted
        assert re.findall(r"'(.)'", dialog[6]) == list("words")


def test_slices(alone: pathlib.Path, tmp_path: pathlib.Path) -> None:
    """A service tells how many steps of its slice are left, stepped over or run."""
    image, options = program(call(10), call(0)), ["--slices", "100"]
    # mov x8, #10; svc; mov x8, #0; svc: 98 of 100 are left behind the first service.
    for commands in (["continue", "continue"], ["stepi 2", "stepi", "continue", "continue"]):
        dialog = debugged(alone, image, commands, tmp_path, options)
        assert "exited with code 0142]" in dialog.answers[-1]
    assert run([alone, *options, "tenant.elf"], cwd=tmp_path).status == 98
    dialog = debugged(alone, tenants.LOOP, ["continue", "print $step"], tmp_path,
                      ["--slices", "3,2"])
    assert "signal SIGXCPU" in dialog[0]
    assert value_in(dialog[1]) == 5


def test_a_tenant_of_a_session(alone: pathlib.Path, tmp_path: pathlib.Path) -> None:
    """GDB drives a tenant of a script, with its own seed, image and slices."""
    words = [*call(3, 24), copy(19, 0), breakpoint_instruction(0)]
    (tmp_path / "one.elf").write_bytes(tenants.LOOP)
    (tmp_path / "two.elf").write_bytes(program(words))
    (tmp_path / "script").write_text(
        "admit 1 image 1 input 0 seed 0000000000000001 frames 8 out 0\n"
        "admit 2 image 2 input 0 seed 000000000000abcd frames 8 out 0\n"
        "slice 1 2\nslice 2 100\nslice 1 100\n", encoding="utf-8")
    options = ["--script", "script", "2", "--frames", "40", "one.elf", "two.elf"]
    dialog = asked(["-ex", target(alone, options)], ["continue", "print $x19", "print $step"],
                   tmp_path)
    assert [value_in(dialog[it]) for it in (1, 2)] == [chunk(Generator(0xABCD).draw(0)), 4]


def test_output_comes_as_it_is_written(alone: pathlib.Path, tmp_path: pathlib.Path) -> None:
    """What a tenant writes is told once, where it is written, and the exit has its code."""
    image = program(call(1, CODE, 4), call(0, 3))
    text = image[120:124].decode("latin-1")
    dialog = debugged(alone, image, ["stepi 3", "stepi", "continue", "reverse-continue", "continue",
                                     "continue"], tmp_path)
    assert text not in dialog[0].replace("\n", "")
    assert "exited with code 03]" in dialog[5]


STREAM = [b"qSupported:multiprocess+;swbreak+;memory-tagging+", b"?", b"g", b"p20", b"m10000,40",
          b"Z0,10004,4", b"vCont;c:p1.-1", b"bs", b"qXfer:features:read:target.xml:0,ffb",
          b"qRcmd,776879", b"vFile:open:2f70726f632f312f6d617073,0,0", b"vFile:pread:3,400,0"]
HUGE = [b"m0,ffffffffffffffff", b"m10000,ffffffffffffffff", b"m10000,fff", b"x10000,ffffffff",
        b"m10000,100000000", b"qXfer:features:read:target.xml:ffffffffffffffff,ffffffffffffffff",
        b"qXfer:features:read:target.xml:0,ffffffffffffffff", b"qMemTags:0,ffffffffffffffff:1",
        b"qMemTags:10000,ffffffff:1", b"Z2,0,ffffffffffffffff", b"z2,0,ffffffffffffffff",
        b"vFile:open:2f70726f632f312f6d617073,0,0", b"vFile:pread:3,ffffffffffffffff,0",
        b"vFile:pread:3,ffffffffffffffff,ffffffffffffffff", b"vCont;r0,ffffffffffffffff:p1.1",
        b"bc", b"qRcmd," + b"61" * 8000, b"vFile:open:" + b"61" * 8000 + b",0,0",
        b"M10000,ffffffffffffffff:00", b"p" + b"f" * 16000, b"Hg" + b"f" * 16000]


# /proc/1/maps, and what is no file of the front.
MAPS, OTHER = b"/proc/1/maps".hex().encode(), b"/proc".hex().encode()
# What a packet asks for, by the parts of its text, and how its answer begins.
ASKED = (
    (b"?", b"T05thread:p1.1;"),
    (b"qSupported:multiprocess+;swbreak+", b"PacketSize=4000;QStartNoAckMode+;multiprocess+;"),
    (b"qXfer:features:read:target.xml:0,1000", b"l<?xml version=\"1.0\"?>"),
    (b"qXfer:features:read:target.xml:2,5", b"mxml v"),
    (b"qXfer:siginfo:read::0,4", b"m\x05\x00\x00\x00"),
    (b"qXfer:siginfo:read::1,2", b"m\x00\x00"),
    (b"qSymbol::", b""),
    (b"vFile:open:" + MAPS + b",0,1c0", b"F3"), (b"vFile:open:" + OTHER + b",0,1c0", b"F-1,2"),
    (b"vFile:readlink:" + OTHER, b"F-1,2"),
    (b"P0=0500000000000000", b"E."), (b"M400200,2:01ff", b"E01"), (b"X400200,4:$}*#", b"E01"),
    (b"G0500000000000000", b"E01"), (b"QMemTags:400200,1:1:03", b"E01"),
)


@pytest.mark.parametrize(("packet", "wanted"), ASKED, ids=[it[0][:24].decode() for it in ASKED])
def test_what_gdb_asks(alone: pathlib.Path, packet: bytes, wanted: bytes) -> None:
    """Packets as GDB 13.1 sends them: the object, the offset and the length, the path, and what
    would change the tenant. A feature is offered where GDB names it."""
    front = Front([str(alone), "--gdb", str(EXAMPLES / "hi.elf")])
    answer = front.ask(packet)
    assert answer.startswith(wanted) and (wanted or not answer), answer
    if packet.startswith(b"qSupported"):
        assert answer.endswith(b";swbreak+")
        assert b"swbreak" not in front.ask(b"qSupported:multiprocess+")
    assert front.ask_user("why").startswith(b"it is running, after 0 steps")
    assert front.end() == (0, b"")


def test_frames(alone: pathlib.Path) -> None:
    """A frame of GDB 13.1 with escaped bytes and one of its documentation, byte for byte; one with
    another sum is asked for again."""
    sent = b"$X400200,4:}\x04}]}\n}\x03#7a"
    assert sent == frame(b"X400200,4:$}*#")
    ran = flooded(alone, sent + b"$?#3f" + sent.replace(b"7a", b"7b"))
    assert (ran.status, ran.out) == (0, b"+$E01#a6+$T05thread:p1.1;#a6-")


def flooded(alone: pathlib.Path, stream: bytes, memory: int = MEMORY) -> Ran:
    """What came of a front that reads a stream to its end, within a minute and some memory."""
    return run([alone, "--gdb", EXAMPLES / "hi.elf"], stdin=stream, memory=memory)


def test_truncated_streams(alone: pathlib.Path) -> None:
    """Wherever the packets end, the front ends well, and has answered those that were whole."""
    stream = b"".join(frame(it) for it in STREAM)
    ends = [0, *range(1, len(stream), 23), len(stream)]
    for end in ends:
        ran = flooded(alone, stream[:end])
        assert (ran.status, ran.errors) == (0, ""), f"{end} bytes"
        packets = [it for it in ran.out.split(b"$")[1:] if it[:1] != b"O" or it.startswith(b"OK")]
        assert len(packets) == len(re.findall(rb"#..", stream[:end])), f"{end} bytes"


def test_huge_lengths(alone: pathlib.Path) -> None:
    """Each is answered within a packet, by a refusal or by what there is."""
    front = Front([str(alone), "--gdb", str(EXAMPLES / "hi.elf")])
    for packet in HUGE:
        assert len(front.ask(packet)) <= PACKET, packet[:40]
    assert front.ask(b"p20") == (CODE).to_bytes(8, "little").hex().encode()
    assert front.end() == (0, b"")
    # A return takes the tenant's memory a third time.
    ran = flooded(alone, b"".join(frame(it) for it in HUGE), 2 * MEMORY)
    assert (ran.status, ran.errors) == (0, "")


@pytest.mark.parametrize("unit", [b"x", b"$", b"+", b"\x03", b"}", b"$#00", b"$?#3f-", b"$a", b"#"])
def test_floods(alone: pathlib.Path, unit: bytes) -> None:
    """Two megabytes of one thing: within a minute, in the memory of a front that does little."""
    ran = flooded(alone, unit * (2 * MEGABYTE // len(unit)))
    assert (ran.status, ran.errors) == (0, "")
    assert len(ran.out) < 64 * MEGABYTE


def test_garbage(alone: pathlib.Path) -> None:
    """Random bytes, in front of a packet that is answered all the same."""
    draw = random.Random(5)
    for _ in range(8):
        garbage = draw.randbytes(draw.randrange(1, MEGABYTE // 4))
        ran = flooded(alone, garbage + b"#" * 3 + frame(b"qC"))
        assert (ran.status, ran.errors) == (0, "")
        assert ran.out.endswith(frame(b"QCp1.1"))


def test_one_packet_that_never_ends(alone: pathlib.Path) -> None:
    """Sixteen megabytes behind a `$`: the front refuses it, and goes on."""
    ran = flooded(alone, b"$" + b"m" * (16 * MEGABYTE) + b"$" + frame(b"qC"))
    assert (ran.status, ran.errors) == (0, "")
    assert ran.out.endswith(frame(b"QCp1.1"))


def test_no_answer_is_sent_again(alone: pathlib.Path) -> None:
    """GDB sends `-` while it waits. It is an order only where packets are acknowledged."""
    words = [str(alone), "--gdb", str(EXAMPLES / "hi.elf")]
    front = Front(words)
    for _ in range(3):
        front.send(b"-")
        assert (front.ask(b"qC"), front.ask(b"qfThreadInfo")) == (b"QCp1.1", b"mp1.1")
    assert front.end() == (0, b"")
    front = Front(words, acknowledges=True)
    assert front.ask(b"qC") == b"QCp1.1"
    front.send(b"-")
    assert front.packet() == b"QCp1.1"
    assert front.end() == (0, b"")


def images_of(folder: pathlib.Path, names: Sequence[str]) -> list[str]:
    """Stored images and small ones."""
    made = {"loop": tenants.LOOP, "accesses": tenants.ACCESSES, "chunks": tenants.CHUNKS}
    for name, data in made.items():
        (folder / f"{name}.elf").write_bytes(data)
    for name in names:
        shutil.copy(gdb_images.STORED / f"{name}.elf", folder)
    return [f"{it}.elf" for it in (*made, *names)]


def test_mutated_packets(alone: pathlib.Path, tmp_path: pathlib.Path) -> None:
    """Mutated streams end no front by a signal, and each packet that is whole is answered."""
    images = images_of(tmp_path, ["use_after_free", "lru"])
    ran = run([sys.executable, GDB_EXAMPLES / "mutate_packets.py", alone, "60", "64", *images],
              cwd=tmp_path)
    assert ran.status == 0, ran.output


def test_debugged_runs_are_the_plain_ones(alone: pathlib.Path, tmp_path: pathlib.Path) -> None:
    """Stops, steps and returns change nothing of a run: output, end, steps, report."""
    images = images_of(tmp_path, ["hello", "use_after_free", "double_free"])
    ran = run([sys.executable, GDB_EXAMPLES / "compare_runs.py", alone, "30", "64", *images],
              cwd=tmp_path)
    assert ran.status == 0, ran.output
    assert "differs" not in ran.output
