"""How mte_run ends: each exit status of docs/MTE_RUN.md with its first and last line on standard
error, what it says of command lines, scripts and files that it refuses, and its help."""

import pathlib
import random
import re
import struct
from collections.abc import Callable

import pytest

from tests.support.acts import (
    ABORT, ASYNC, BREAKPOINT, EXACT, FAULT, ILLEGAL, LIMIT, NOT_ENDED, REFUSED, Act, image,
)
from tests.support.expected import compare
from tests.support.instructions import call, load, program
from tests.support.places import IMAGES
from tests.support.running import Ran, run
from tests.support.told import explain, input_file

USAGE, SCRIPT, MEMORY, READ, WRITE = range(2, 7)
HELLO = "services.gcc-O0.elf"
CUT = 138
MOST_FILE = 16_777_216
# Services.
EXIT, MALLOC, CALLOC, REALLOC, MEMALIGN = 0, 3, 5, 6, 7


def run_words(alone: pathlib.Path, *words: str) -> Ran:
    """Runs the program in the folder of the images."""
    return run([str(alone), *words], cwd=IMAGES)


# An act, its options, the status, and the last line behind `mte_run: ended by `.
ENDS = (
    ("chunks", "f", "", FAULT, "fault TagCheck"),
    ("chunks", "o", "", FAULT, "fault Translation"),
    ("places", "c", "", FAULT, "fault Permission"),
    ("places", "p", "", FAULT, "fault PcAlignment"),
    ("words", "S", "", FAULT, "fault SpAlignment"),
    ("words", "T", "", FAULT, "fault Alignment"),
    ("services", "a", "--async", ASYNC, "async"),
    ("chunks", "g", "", ABORT, "abort InvalidState"),
    ("chunks", "i", "", ABORT, "abort HeaderCorrupt"),
    ("chunks", "j", "", ABORT, "abort Misaligned"),
    ("chunks", "k", "", ABORT, "abort Unmapped"),
    ("chunks", "K", "", ABORT, "abort AlreadyFree"),
    ("chunks", "N", "", ABORT, "abort NotABlock"),
    ("words", "f", "", ILLEGAL, "illegal word"),
    ("words", "A", "", BREAKPOINT, "breakpoint"),
    ("services", "w", "--steps 1000", LIMIT, "limit of steps"),
    ("services", "w", "--slices 9,9", NOT_ENDED, "end of its slices"),
    ("services", "o", "--pages 5", REFUSED, "refusal"),
    ("chunks", "p", "--exact", EXACT, "exact"),
    ("services", "o", "--out 29 --whole-output", CUT, "output that was cut"),
)
FIRST = {
    FAULT: "mte_run: fault ", ASYNC: "mte_run: an access before 0x", ABORT: "mte_run: abort ",
    ILLEGAL: "mte_run: illegal word 0x", BREAKPOINT: "mte_run: breakpoint ",
    LIMIT: "mte_run: the limit of 1000 steps is reached (--steps gives it more)",
    NOT_ENDED: "mte_run: still running after its slices",
    REFUSED: "mte_run: the tenant is refused: ReservationTooSmall: --pages gives it more",
    EXACT: "mte_run: exact: a ",
    CUT: "mte_run: output was cut: there was no more room (--out)",
}
NUMBERS = {
    "fault": 129, "async": 130, "abort": 131, "illegal": 132, "breakpoint": 133, "limit": 134,
    "end": 135, "refusal": 136, "exact": 137, "output": 138,
}


@pytest.mark.parametrize("source, text, options, status, way", ENDS)
def test_each_end_has_its_status_and_lines(
    alone: pathlib.Path, tmp_path: pathlib.Path, source: str, text: str, options: str,
    status: int, way: str,
) -> None:
    """The status is the one of the page's table, and the last line says why and which."""
    assert status == NUMBERS[way.split()[0]]
    ran = explain(alone, Act(source, text, 0), "gcc-O0", tmp_path, *options.split())
    lines = ran.errors.splitlines()
    assert ran.status == status
    assert lines[-1] == f"mte_run: ended by {way}, status {status}"
    kind = f" {way.split()[1]}: " if way.startswith(("fault", "abort")) else ""
    assert lines[0].startswith(FIRST[status]) and kind in lines[0]


def test_an_exit_has_its_own_status(alone: pathlib.Path, tmp_path: pathlib.Path) -> None:
    """Each of 256; a line says that it is the tenant's where it could be another end's."""
    taken = {*range(2, 7), *range(129, 139)}
    for status in range(256):
        ran = explain(alone, Act("services", f"e{status}", 0), "clang-O2", tmp_path)
        line = f"mte_run: exited with {status}\n" if status in taken else ""
        assert (ran.status, ran.errors, ran.out) == (status, line, b"")


def test_statuses_are_those_of_a_shell(alone: pathlib.Path, tmp_path: pathlib.Path) -> None:
    """A tenant's status is taken modulo 256."""
    for given, status in (("e256", 0), ("e511", 255), ("e1000", 232)):
        assert explain(alone, Act("services", given, 0), "gcc-O2", tmp_path).status == status


@pytest.mark.parametrize("room, cut", [("29", True), ("30", False), ("0", True)])
def test_output_that_is_cut_is_told(
    alone: pathlib.Path, tmp_path: pathlib.Path, room: str, cut: bool
) -> None:
    """The tenant writes 30 bytes; it takes as many as there is room for."""
    ran = explain(alone, Act("services", "o", 0), "gcc-O0", tmp_path, "--out", room)
    assert ran.out == (b"ten bytes\n" * 3)[: int(room)] and ran.status == int(room)
    line = "mte_run: output was cut: there was no more room (--out)\n"
    assert ran.errors == (line if cut else "")


# Command lines that are refused, or ask for no run.
USAGES: tuple[list[str], ...] = (
    [], ["--help"], ["-h"], ["--help-all"], ["--version"], ["-V"], ["--nonsense", HELLO],
    ["--vers"], [HELLO, HELLO], ["--script", "a", "1", HELLO],
    ["--script", "a", "--frames", "9", HELLO],
    ["--script", "a", "one", "--frames", "9", HELLO],
    ["--script", "a", "65536", "--frames", "9", HELLO],
    ["--script", "a", "1", "--frames", "0", HELLO],
    ["--script", "a", "1", "--frames", "65537", HELLO],
    ["--script", "a", "1", "--frames", "9"],
    ["--seed", "xyz", HELLO], ["--seed", "", HELLO], ["--seed", "0x", HELLO],
    ["--seed", "+1", HELLO], ["--seed", "12345678901234567", HELLO], ["--seed", HELLO],
    ["--seeds", "0", HELLO], ["--seeds", "65537", HELLO], ["--exact=some", HELLO],
    ["--async=1", HELLO], ["--pages", "0", HELLO], ["--pages", "4097", HELLO],
    ["--out", "65537", HELLO], ["--out", "-1", HELLO], ["--input", HELLO],
    ["--steps", "1.5", HELLO], ["--steps", "18446744073709551616", HELLO],
    ["--slices", "1048577", HELLO], ["--slices", "1,,2", HELLO], ["--last", "65537", HELLO],
    ["--calls", "65537", HELLO], ["--calls", "x", HELLO], ["--trace=5", HELLO],
    ["--trace=a-b", HELLO], ["--trace=1-2-3", HELLO], ["--map", "a", "--map", "b", HELLO],
    ["--leaks", "--leaks", HELLO], ["--json", HELLO],
    ["--trace=9-3", HELLO], ["--frames", "9", HELLO], ["--json", HELLO, HELLO],
    ["--sarif", "a", "--core", "./a", HELLO], ["--\x1b[31m", HELLO],
    ["--raw-output", HELLO],
)


def test_usage_is_as_stored(alone: pathlib.Path) -> None:
    """The help, the version, and what is said of each command line that is refused."""
    told = ""
    for words in USAGES:
        ran = run_words(alone, *words)
        is_help = words in (["--help"], ["-h"], ["--help-all"], ["--version"], ["-V"])
        assert ran.status == (0 if is_help else USAGE), words
        assert bool(ran.out) == is_help and bool(ran.err) == (not is_help), words
        shown = " ".join(words).replace("\x1b", "\\x1b")
        # How it was built differs from build to build (test_marks.py).
        output = re.sub(r"(?m)^(commit|changes|toolchain|build): .*$", r"\1: ..", ran.output)
        told += f"$ mte_run {shown}\nstatus {ran.status}\n{output}{ran.errors}\n"
    compare("run/usage.txt", told)


def test_requests_over_a_chunk(alone: pathlib.Path, tmp_path: pathlib.Path) -> None:
    """A tenant that exits is told of its largest request for more than 1,048,576 bytes, by any call
    that makes chunks, and of none that a chunk may have."""
    draw, most = random.Random(5), 1_048_576
    for _ in range(40):
        sizes = [draw.choice((0, 24, most, most + 1, draw.randrange(most, 1 << 40)))
                 for _ in range(draw.randint(1, 3))]
        made = [draw.choice((call(MALLOC, size), call(CALLOC, 1, size), call(CALLOC, size, 1),
                             call(REALLOC, 0, size), call(MEMALIGN, 16, size))) for size in sizes]
        path = tmp_path / "tenant.elf"
        path.write_bytes(program(*made, call(EXIT, 0)))
        ran = run([alone, "--check=frees", "--exact", path])
        said = f"mte_run: a request of {max(sizes)} bytes was refused: " in ran.errors
        assert ran.status == 0 and said == (max(sizes) > most), (sizes, ran.errors)
        assert ("was refused" in ran.errors) == said, ran.errors


def test_why_a_call_made_no_chunk(alone: pathlib.Path, tmp_path: pathlib.Path) -> None:
    """At a null pointer it is told whether the newest call without a chunk asked for more than a
    chunk has, or for what cannot be: an alignment that is no power of two."""
    draw, most = random.Random(6), 1_048_576
    for _ in range(20):
        size = draw.choice((24, most, most + 1, draw.randrange(most, 1 << 40)))
        made = [call(MALLOC, size), call(CALLOC, 1, size), call(REALLOC, 0, size)]
        path = tmp_path / "tenant.elf"
        path.write_bytes(program(draw.choice(made[:3 * (size > most)] + [call(MEMALIGN, 3, size)]),
                                 load(1, 0)))
        ran = run([alone, "--last", "0", path])
        why = "a chunk has at most 1,048,576 bytes" if size > most else (
            "too few pages were left, or the request was none that can be met")
        found = re.findall(r"^  the newest call without a chunk is call 1, .*: (.*)$", ran.errors,
                           re.M)
        assert ran.status == FAULT and found == [why], (size, ran.errors)


def test_an_argument_that_is_no_text(alone: pathlib.Path) -> None:
    """Bytes that are no UTF-8."""
    ran = run([str(alone), b"\xff.elf"], cwd=IMAGES)
    assert (ran.status, ran.errors) == (USAGE, "mte_run: an argument is not text\n")


ADMIT = "admit ID image I input J seed HEX16 frames R out O [async]"
SLICE, STOP = "slice ID STEPS", "stop ID"
ANY = f"{ADMIT}, {SLICE} or {STOP}"
FILE = "a file's number, from 1 as they follow the options"
EVENT, TENANT = "admit, slice or stop", "a tenant's number, 0 to 65535"
STEPS, NUMBER = "a number of steps, 0 to 1048576", "a number, 0 to 4294967295"
GOOD = "admit 1 image 1 input 2 seed 0000000000000001 frames 5 out 16"


def wrong(number: int, word: str, wanted: str, form: str, remark: str = "") -> str:
    """What is said of a wrong word."""
    return f"word {number}, `{word}`, should be {wanted}; the form is {form}{remark}"


def missing(number: int, wanted: str, form: str) -> str:
    """What is said where a word is missing."""
    return f"the line ends where word {number} should be {wanted}; the form is {form}"


END = "the end of the line"
TAB = "; blanks separate words, and a tab does not"
CR = "; the line ends by CR LF, where LF alone should end it"
COMMENT = "; the # of a comment is the first byte of its line"
# A line of a script that is refused, the kind of its fault, and what is said of it. Two files are
# named.
FAULTY = (
    ("go 1", "Syntax", wrong(1, "go", EVENT, ANY)),
    ("Stop 1", "Syntax", wrong(1, "Stop", EVENT, ANY)),
    ("slice", "Syntax", missing(2, TENANT, SLICE)),
    ("slice 1", "Syntax", missing(3, STEPS, SLICE)),
    ("slice one 1", "Syntax", wrong(2, "one", TENANT, SLICE)),
    ("slice 1 -1", "Syntax", wrong(3, "-1", STEPS, SLICE)),
    ("slice 1 5 now", "Syntax", wrong(4, "now", END, SLICE)),
    ("slice 65536 1", "BadNumber", wrong(2, "65536", TENANT, SLICE)),
    ("slice 70000 1", "BadNumber", wrong(2, "70000", TENANT, SLICE)),
    ("slice 1 1048577", "BadNumber", wrong(3, "1048577", STEPS, SLICE)),
    ("stop", "Syntax", missing(2, TENANT, STOP)),
    ("stop 1 2", "Syntax", wrong(3, "2", END, STOP)),
    ("stop 99999", "BadNumber", wrong(2, "99999", TENANT, STOP)),
    ("stop 99999999999", "Syntax", wrong(2, "99999999999", TENANT, STOP)),
    ("admit", "Syntax", missing(2, TENANT, ADMIT)),
    ("admit 1 picture", "Syntax", wrong(3, "picture", "the word image", ADMIT)),
    ("admit 1 image", "Syntax", missing(4, FILE, ADMIT)),
    ("admit 1 image one", "Syntax", wrong(4, "one", FILE, ADMIT)),
    ("admit 1 image 1 in 0", "Syntax", wrong(5, "in", "the word input", ADMIT)),
    ("admit 1 image 1 input none", "Syntax", wrong(6, "none", f"{FILE}, or 0 for none", ADMIT)),
    (GOOD.replace("seed", "Seed"), "Syntax", wrong(7, "Seed", "the word seed", ADMIT)),
    (GOOD.replace("0000000000000001", "1"), "Syntax",
     wrong(8, "1", "16 hexadecimal digits", ADMIT)),
    (GOOD.replace("0000000000000001", "000000000000000g"), "Syntax",
     wrong(8, "000000000000000g", "16 hexadecimal digits", ADMIT)),
    (GOOD.replace("frames", "pages"), "Syntax", wrong(9, "pages", "the word frames", ADMIT)),
    (GOOD.replace("frames 5", "frames many"), "Syntax", wrong(10, "many", NUMBER, ADMIT)),
    (GOOD.replace("frames 5", "frames 4294967296"), "BadNumber",
     wrong(10, "4294967296", NUMBER, ADMIT)),
    (GOOD.replace("out", "room"), "Syntax", wrong(11, "room", "the word out", ADMIT)),
    (GOOD.replace("out 16", "out"), "Syntax", missing(12, NUMBER, ADMIT)),
    (GOOD.replace("out 16", "out 5000000000"), "BadNumber",
     wrong(12, "5000000000", NUMBER, ADMIT)),
    (f"{GOOD} sync", "Syntax", wrong(13, "sync", f"the word async, or {END}", ADMIT)),
    (f"{GOOD} async now", "Syntax", wrong(14, "now", END, ADMIT)),
    (GOOD.replace("image 1", "image 0"), "NoSuchFile", wrong(4, "0", FILE, ADMIT)),
    (GOOD.replace("image 1", "image 3"), "NoSuchFile", wrong(4, "3", FILE, ADMIT)),
    (GOOD.replace("input 2", "input 3"), "NoSuchFile",
     wrong(6, "3", f"{FILE}, or 0 for none", ADMIT)),
    ("stop\t1", "Syntax", wrong(1, "stop?1", EVENT, ANY, TAB)),
    ("slice 1\t9", "Syntax", wrong(2, "1?9", TENANT, SLICE, TAB)),
    ("stop 1\r", "Syntax", wrong(2, "1?", TENANT, STOP, CR)),
    (f"{GOOD} async\r", "Syntax", wrong(13, "async?", f"the word async, or {END}", ADMIT, CR)),
    ("stop 1 # later", "Syntax", wrong(3, "#", END, STOP, COMMENT)),
    ("stop 1 # the first", "Syntax", wrong(3, "#", END, STOP, COMMENT)),
    (" # later", "Syntax", wrong(1, "#", EVENT, ANY, COMMENT)),
    ("stop 1#", "Syntax", wrong(2, "1#", TENANT, STOP, COMMENT)),
    ("stop é", "Syntax", wrong(2, "??", TENANT, STOP)),
    ("abcdefghijklmnopqrstuvwxyz 1", "Syntax", wrong(1, "abcdefghijklmnopqrstuvwx..", EVENT, ANY)),
)


def replay(alone: pathlib.Path, script: pathlib.Path, *files: str) -> Ran:
    """Replays tenant 1 of a script."""
    return run_words(alone, "--script", str(script), "1", "--frames", "20", *files)


@pytest.mark.parametrize("line, kind, text", FAULTY)
def test_a_faulty_line_is_told_in_full(
    alone: pathlib.Path, host: pathlib.Path, tmp_path: pathlib.Path, line: str, kind: str, text: str
) -> None:
    """Its number, its fault, the first wrong word, what should stand there, and the form."""
    script = tmp_path / "faulty.script"
    script.write_bytes(f"# one\n\nstop 9\n{line}\nslice\n".encode())
    ran = replay(alone, script, HELLO, HELLO)
    assert (ran.status, ran.out) == (SCRIPT, b"")
    assert ran.errors == f"mte_run: script line 4: {kind}: {text}\n"
    of_host = run([host, "--frames", "20", script, HELLO, HELLO], cwd=IMAGES)
    assert of_host.errors == f"mte_host: script line 4: {kind}\n"


def test_a_script_may_name_its_last_file(alone: pathlib.Path, tmp_path: pathlib.Path) -> None:
    """As an image and as an input, and not one beyond it."""
    words, script = input_file(tmp_path, "cwords of the last file"), tmp_path / "script"
    script.write_text(GOOD.replace("5 out 16", "8 out 99") + "\nslice 1 9999\n")
    ran = replay(alone, script, HELLO, str(words))
    assert ran.status == 0 and b"words of the last file".hex() in ran.output and not ran.err
    script.write_text(GOOD.replace("image 1 input 2", "image 2 input 1"))
    ran = replay(alone, script, str(words), HELLO)
    assert ran.status == REFUSED
    assert "\nmte_run: the session never admits the tenant\n" in ran.errors


def test_a_script_has_at_most_10000_events(alone: pathlib.Path, tmp_path: pathlib.Path) -> None:
    """One more is told as such, by its line."""
    script = tmp_path / "script"
    script.write_text("stop 9\n" * 10_000)
    assert replay(alone, script, HELLO).status == REFUSED
    script.write_text("# a comment\n" + "stop 9\n" * 10_001)
    ran = replay(alone, script, HELLO)
    text = "script line 10002: TooManyEvents: a script has at most 10,000 events"
    assert (ran.status, ran.errors) == (SCRIPT, f"mte_run: {text}\n")


def test_a_tenant_that_is_stopped_or_never_admitted(
    alone: pathlib.Path, tmp_path: pathlib.Path
) -> None:
    """The same statuses with --script, and the lines of the report on standard output."""
    script = tmp_path / "script"
    script.write_text(GOOD.replace("5 out 16", "8 out 16") + "\nslice 1 9\nstop 1\n")
    ran = replay(alone, script, HELLO, HELLO)
    assert ran.status == NOT_ENDED and ran.errors.startswith("mte_run: stopped\n")
    assert ran.output.startswith("tenant 1\nstatus stopped\nsteps 9\n")
    assert ran.errors.endswith("\nmte_run: ended by end of its slices, status 135\n")
    script.write_text("slice 1 9\n")
    ran = replay(alone, script, HELLO)
    assert (ran.status, ran.output) == (REFUSED, "refused 1 NotLive\n")
    assert ran.errors == ("mte_run: no event of the script admits a tenant 1\n"
                          "mte_run: the session never admits the tenant\n"
                          "mte_run: ended by refusal, status 136\n")


def patched(offset: int, form: str, value: int) -> bytes:
    """An image with another number at a place."""
    held = bytearray((IMAGES / "services.clang-O2.elf").read_bytes())
    struct.pack_into("<" + form, held, offset, value)
    return bytes(held)


# Of the image: the program headers are PHDR and two LOADs from 64 on, of 56 bytes each.
FIRST_LOAD, SECOND_LOAD = 64 + 56, 64 + 2 * 56
REFUSALS: dict[str, Callable[[], bytes]] = {
    "Short": lambda: patched(0, "B", 127)[:63],
    "NotElf64": lambda: patched(4, "B", 1),
    "NotAarch64": lambda: patched(18, "H", 62),
    "NotExec": lambda: patched(16, "H", 3),
    "BadHeaders": lambda: patched(54, "H", 57),
    "Interpreter": lambda: patched(64, "I", 3),
    "SegmentRange": lambda: patched(SECOND_LOAD + 16, "Q", 0x10000000),
    "Overlap": lambda: patched(SECOND_LOAD + 16, "Q", 0x200300),
    "NoEntry": lambda: patched(24, "Q", 0x5000),
}


def test_refused_images_are_told_as_stored(
    alone: pathlib.Path, host: pathlib.Path, tmp_path: pathlib.Path
) -> None:
    """Each kind that an image can be refused for, as the host reports it, and what to do."""
    told, path, script = "", tmp_path / "image.elf", tmp_path / "script"
    script.write_text(GOOD.replace("input 2", "input 0").replace("frames 5", "frames 8"))
    for kind, make in REFUSALS.items():
        path.write_bytes(make())
        ran = run([str(alone), path])
        assert ran.status == REFUSED and f"refused: {kind}: " in ran.errors, kind
        report = run([host, "--frames", "20", script, path]).output
        assert report == f"refused 1 Image {kind}\n"
        told += ran.errors
    compare("run/refusals.txt", told)


def test_want_of_memory_is_told(alone: pathlib.Path, tmp_path: pathlib.Path) -> None:
    """With too few addresses for its tables it ends by that line, and in no other way."""
    path = input_file(tmp_path, "f")
    for megabytes in (8, 14):
        words = [str(alone), "--input", str(path), "chunks.gcc-O0.elf"]
        ran = run(words, cwd=IMAGES, memory=megabytes << 20)
        assert (ran.status, ran.errors) == (MEMORY, "mte_run: out of memory\n")


@pytest.mark.parametrize("words, named", [
    (["absent.elf"], "absent.elf"), (["."], "."), (["--input", "absent.txt", HELLO], "absent.txt"),
    (["--input", ".", HELLO], "."),
    (["--script", "absent.script", "1", "--frames", "9", HELLO], "absent.script"),
    (["--script", HELLO, "1", "--frames", "9", "absent.elf"], "absent.elf"),
])
def test_a_file_that_cannot_be_read_is_named(
    alone: pathlib.Path, words: list[str], named: str
) -> None:
    """As it was named."""
    ran = run_words(alone, *words)
    assert (ran.status, ran.out) == (READ, b"")
    reason = ": it is a folder" if named == "." else ": no such file or folder"
    assert ran.errors == f"mte_run: cannot read {named}{reason}\n"


def test_a_file_has_at_most_16_mebibytes(alone: pathlib.Path, tmp_path: pathlib.Path) -> None:
    """One byte more is not read, and one that is as long is."""
    path = tmp_path / "long"
    for size, status in ((MOST_FILE, 0), (MOST_FILE + 1, READ)):
        with open(path, "wb") as file:
            file.truncate(size)
        ran = run_words(alone, "--input", str(path), HELLO)
        assert ran.status == status
        line = f"mte_run: cannot read {path}: it has more than 16 MiB\n"
        assert ran.errors == (line if status else "")


@pytest.mark.parametrize("place, reason", [
    ("absent/file", ": no such file or folder"), (".", ": it is a folder"),
    ("/dev/full", ": no space is left"),
])
@pytest.mark.parametrize(
    "option", ["--map", "--json", "--sarif", "--html", "--core", "--profile", "--trace-file"])
def test_a_file_that_cannot_be_written(
    alone: pathlib.Path, tmp_path: pathlib.Path, option: str, place: str, reason: str
) -> None:
    """Also where the tenant exits by itself; the file is named, and why."""
    for text in ("f", "m"):
        act = Act("chunks", text, 0)
        ran = explain(alone, act, "gcc-O0", tmp_path, "--services", option, place)
        *report, line = ran.errors.splitlines()
        assert ran.status == WRITE and line == f"mte_run: cannot write {place}{reason}"
        last = ("mte_run: ended by", "mte_run: cannot write")
        assert not any(line.startswith(last) for line in report)


def test_streams_that_cannot_be_written(alone: pathlib.Path, tmp_path: pathlib.Path) -> None:
    """A full standard output or standard error; nothing is written to it where nothing is told."""
    words = [str(alone), "--input", str(input_file(tmp_path, "cwords")), HELLO]
    for stream, status in ((">", WRITE), ("2>", 0)):
        shell = ["bash", "-c", f'exec "$@" {stream} /dev/full', "-", *words]
        ran = run(shell, cwd=IMAGES)
        assert ran.status == status
        assert ran.errors == ("mte_run: cannot write\n" if status else "")
    fault = [str(alone), "--input", str(input_file(tmp_path, "f")), "chunks.gcc-O0.elf"]
    assert run(["bash", "-c", 'exec "$@" 2> /dev/full', "-", *fault], cwd=IMAGES).status == WRITE


def test_a_picture_into_a_full_output(alone: pathlib.Path, tmp_path: pathlib.Path) -> None:
    """`--map -`."""
    words = [str(alone), "--map", "-", "--input", str(input_file(tmp_path, "m")),
             str(image("chunks", "gcc-O0"))]
    ran = run(["bash", "-c", 'exec "$@" > /dev/full', "-", *words])
    assert (ran.status, ran.errors) == (WRITE, "mte_run: cannot write -: no space is left\n")
