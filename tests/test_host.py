"""The host program: its exit statuses, all that it writes on standard error, and its report."""

import os
import pathlib
import shlex
import socket
import subprocess

import pytest

from tests.support.expected import compare
from tests.support.host_sessions import (
    HI_REPORT, admission, assert_ended, assert_reports, make_image, sparse, with_hi,
)
from tests.support.peak import measure
from tests.support.running import Ran, Word, run

MEBIBYTE = 1 << 20
# The longest file that is read.
LONGEST = 16 * MEBIBYTE
# What the longest script may take: itself, and half as much again.
SCRIPT_PEAK = 24 * MEBIBYTE
# Addresses that are too few for 65536 frames of 4224 bytes, and enough for all else.
FEW_ADDRESSES = 100 * MEBIBYTE

FRAMES = ("--frames", "11")

ACCEPTED_WORDS = [
    "--frames 11 hi.script hi.elf",
    "hi.script --frames 11 hi.elf",
    "hi.script hi.elf --frames 11",
    "--frames=11 hi.script hi.elf",
    "--frames 11 -- hi.script hi.elf",
    "--frames 11 hi.script hi.elf hi.elf hi.elf",
    "--frames 65536 hi.script hi.elf",
]

USAGE_WORDS = [
    "",
    "--help",
    "-h",
    "--frames 11 --help hi.script",
    "--frames 0 hi.script hi.elf",
    "--frames 65537 hi.script hi.elf",
    "--frames 4294967296 hi.script hi.elf",
    "--frames -1 hi.script hi.elf",
    "--frames many hi.script hi.elf",
    "--frames '' hi.script hi.elf",
    "--frames= hi.script hi.elf",
    "--frames",
    "hi.script hi.elf",
    "--frames 11",
    "--frames 11 --frames 12 hi.script hi.elf",
    "--frames 11 --depth 3 hi.script hi.elf",
    "--frame 11 hi.script hi.elf",
    "-f 11 hi.script hi.elf",
    "--version",
]


@pytest.fixture
def folder(tmp_path: pathlib.Path) -> pathlib.Path:
    """A folder with the first example."""
    return with_hi(tmp_path)


@pytest.mark.parametrize("words", ACCEPTED_WORDS)
def test_command_lines(host: pathlib.Path, folder: pathlib.Path, words: str) -> None:
    """Options may stand anywhere, and files that the script does not name are read and unused."""
    assert_reports(run([host, *words.split()], cwd=folder), HI_REPORT)


def test_one_frame(host: pathlib.Path, folder: pathlib.Path) -> None:
    """The fewest frames are one, in which no tenant fits."""
    (folder / "empty.script").touch()
    assert_reports(run([host, "--frames", "1", "empty.script"], cwd=folder), "")
    ran = run([host, "--frames", "1", "hi.script", "hi.elf"], cwd=folder)
    assert_reports(ran, ["refused 1 NoFrames", "refused 2 NotLive"])


def test_usage(host: pathlib.Path, folder: pathlib.Path) -> None:
    """The help, and what is said of each command line that is wrong: word for word."""
    told = []
    for words in USAGE_WORDS:
        ran = run([host, *shlex.split(words)], cwd=folder)
        told.append(f"$ mte_host {words}".rstrip() + f"\n{ran.output}{ran.errors}[{ran.status}]\n")
        assert (ran.status == 0) == (ran.err == b"") == (ran.out != b""), words
    compare("host/usage.txt", "\n".join(told))


@pytest.mark.parametrize("place", [0, 1, 2, 3])
def test_argument_is_not_text(host: pathlib.Path, folder: pathlib.Path, place: int) -> None:
    """Words have to be UTF-8, wherever they stand."""
    words: list[Word] = ["--frames", "11", "hi.script", "hi.elf"]
    words[place] = b"--\xff" if place == 0 else b"\xff"
    assert_ended(run([host, *words], cwd=folder), 2, "mte_host: an argument is not text\n")


UNREADABLE = [
    ("absent.script hi.elf", "absent.script"),
    ("hi.script absent.elf", "absent.elf"),
    ("hi.script hi.elf absent.input", "absent.input"),
    ("hi.script hi.elf/inside", "hi.elf/inside"),
    ("folder hi.elf", "folder"),
    ("hi.script folder", "folder"),
    ("hi.script hi.elf folder", "folder"),
    ("circle hi.elf", "circle"),
    ("/proc/self/mem hi.elf", "/proc/self/mem"),
    ("hi.script /proc/self/mem", "/proc/self/mem"),
    ("long hi.elf", "long"),
    ("hi.script long", "long"),
    ("hi.script hi.elf long", "long"),
    ("longer hi.elf", "longer"),
    ("hi.script longer", "longer"),
    ("/dev/zero hi.elf", "/dev/zero"),
    ("-- --help hi.elf", "--help"),
    ("absent.script absent.elf", "absent.script"),
    ("faulty.script absent.elf", "absent.elf"),
]


@pytest.mark.parametrize(("words", "named"), UNREADABLE)
def test_unreadable_file(host: pathlib.Path, folder: pathlib.Path, words: str, named: str) -> None:
    """The first file that cannot be read is named: missing, no file, failing, or too long.

    A file that is said to have a terabyte is too long, and no want of memory.
    """
    (folder / "folder").mkdir()
    os.symlink("circle", folder / "circle")
    (folder / "faulty.script").write_text("slice 1\n")
    sparse(folder / "long", LONGEST + 1)
    sparse(folder / "longer", 1 << 40)
    ran = run([host, *FRAMES, *words.split()], cwd=folder, memory=FEW_ADDRESSES)
    assert_ended(ran, 5, f"mte_host: cannot read {named}\n")


def test_names_of_files(host: pathlib.Path, folder: pathlib.Path) -> None:
    """A name may be empty, have blanks, or be no ASCII; it is told as it was given."""
    for name in ("", " ", "é.script", "a b"):
        ran = run([host, *FRAMES, name, "hi.elf"], cwd=folder)
        assert_ended(ran, 5, f"mte_host: cannot read {name}\n")
    (folder / "hi.script").rename(folder / "é b.script")
    assert_reports(run([host, *FRAMES, "é b.script", "hi.elf"], cwd=folder), HI_REPORT)


def test_script_from_a_pipe(host: pathlib.Path, folder: pathlib.Path) -> None:
    """A pipe is read to its end."""
    script = (folder / "hi.script").read_bytes()
    ran = run([host, *FRAMES, "/dev/stdin", "hi.elf"], cwd=folder, stdin=script)
    assert_reports(ran, HI_REPORT)
    comments = b"# a comment\n" * (LONGEST // 12 + 1)
    ran = run([host, *FRAMES, "/dev/stdin", "hi.elf"], cwd=folder, stdin=comments)
    assert_ended(ran, 5, "mte_host: cannot read /dev/stdin\n")


def test_longest_files(host: pathlib.Path, folder: pathlib.Path) -> None:
    """A file of 16 MiB is read: as a script, an image and an input."""
    sparse(folder / "long", LONGEST)
    assert_reports(run([host, *FRAMES, "hi.script", "long"], cwd=folder),
                   ["refused 1 Image NotElf64", "refused 2 NotLive"])
    assert_reports(run([host, *FRAMES, "hi.script", "hi.elf", "long"], cwd=folder), HI_REPORT)
    assert_ended(run([host, *FRAMES, "long", "hi.elf"], cwd=folder), 3,
                 "mte_host: script line 1: Syntax\n")


ADMIT = admission(1)

SCRIPT_FAULTS = [
    ("slice 1", 1, "Syntax"),
    ("slice 1 2 3", 1, "Syntax"),
    ("stop", 1, "Syntax"),
    ("stop 1 2", 1, "Syntax"),
    ("run 1 2", 1, "Syntax"),
    ("Slice 1 2", 1, "Syntax"),
    ("\tslice 1 2", 1, "Syntax"),
    ("slice\t1 2", 1, "Syntax"),
    ("slice 1 2\r", 1, "Syntax"),
    ("slice 1 2 # a comment", 1, "Syntax"),
    (" # no comment", 1, "Syntax"),
    ("stop -1", 1, "Syntax"),
    ("stop +1", 1, "Syntax"),
    ("stop 0x1", 1, "Syntax"),
    ("stop 00000000001", 1, "Syntax"),
    ("stop \u0661", 1, "Syntax"),
    ("stop 1\0", 1, "Syntax"),
    ("stop 1\nstop 1\n\n# a comment\nstop", 5, "Syntax"),
    (ADMIT.replace("seed 0", "seed "), 1, "Syntax"),
    (ADMIT.replace("seed 0", "seed 00"), 1, "Syntax"),
    (ADMIT.replace("seed 0", "seed g"), 1, "Syntax"),
    (ADMIT.replace("image 1 input 0", "input 0 image 1"), 1, "Syntax"),
    (ADMIT + " asynchronous", 1, "Syntax"),
    (ADMIT + " async async", 1, "Syntax"),
    ("stop 65536", 1, "BadNumber"),
    ("slice 65536 1", 1, "BadNumber"),
    ("slice 1 1048577", 1, "BadNumber"),
    (ADMIT.replace("admit 1", "admit 65536"), 1, "BadNumber"),
    (ADMIT.replace("image 1", "image 4294967296"), 1, "BadNumber"),
    (ADMIT.replace("input 0", "input 4294967296"), 1, "BadNumber"),
    (ADMIT.replace("frames 5", "frames 4294967296"), 1, "BadNumber"),
    (ADMIT.replace("out 16", "out 4294967296"), 1, "BadNumber"),
    (ADMIT.replace("image 1", "image 0").replace("out 16", "out 9999999999"), 1, "BadNumber"),
    (ADMIT.replace("image 1", "image 0"), 1, "NoSuchFile"),
    (ADMIT.replace("image 1", "image 2"), 1, "NoSuchFile"),
    (ADMIT.replace("image 1", "image 4294967295"), 1, "NoSuchFile"),
    (ADMIT.replace("input 0", "input 2"), 1, "NoSuchFile"),
    ("stop 1\n" + ADMIT.replace("input 0", "input 2") + " async\nstop 65536", 2, "NoSuchFile"),
    ("stop 1\n" * 10001, 10001, "TooManyEvents"),
    ("# ten\n\n" * 10 + "stop 1\n" * 10001, 10021, "TooManyEvents"),
    ("stop 1\n" * 10000 + "stop 65536\n" + "stop 1", 10001, "BadNumber"),
]


@pytest.mark.parametrize(("script", "line", "fault"), SCRIPT_FAULTS)
def test_script_faults(host: pathlib.Path, folder: pathlib.Path,
                       script: str, line: int, fault: str) -> None:
    """The first faulty line, counted from 1 with comments and empty lines, and its first fault."""
    (folder / "script").write_bytes(script.encode())
    ran = run([host, *FRAMES, "script", "hi.elf"], cwd=folder)
    assert_ended(ran, 3, f"mte_host: script line {line}: {fault}\n")


LIMITS = [
    ("stop 65535", "NotLive"),
    ("slice 65535 1048576", "NotLive"),
    ("slice 1 0000000000", "NotLive"),
    ("  stop   1  ", "NotLive"),
    (ADMIT.replace("frames 5", "frames 4294967295"), "BadReservation"),
    (ADMIT.replace("out 16", "out 4294967295"), "BadReservation"),
    (ADMIT.replace("frames 5", "frames 4096"), "NoFrames"),
    (ADMIT.replace("frames 5", "frames 4097"), "BadReservation"),
    (ADMIT.replace("frames 5", "frames 0"), "BadReservation"),
    (ADMIT.replace("out 16", "out 65537"), "BadReservation"),
    (ADMIT.replace("frames 5", "frames 4"), "ReservationTooSmall"),
    (ADMIT.replace("frames 5", "frames 6"), "NoFrames"),
]


@pytest.mark.parametrize(("line", "kind"), LIMITS)
def test_refused_events(host: pathlib.Path, folder: pathlib.Path, line: str, kind: str) -> None:
    """A line at its limits is an event, and one that is refused is told with status 0."""
    (folder / "script").write_text(f"# a comment\n\n{line}\nslice 9 1")
    ran = run([host, *FRAMES, "script", "hi.elf"], cwd=folder)
    assert_reports(ran, [f"refused 1 {kind}", "refused 2 NotLive"])


def test_most_events(host: pathlib.Path, folder: pathlib.Path) -> None:
    """A script has up to 10000 events, and any number of other lines."""
    (folder / "script").write_text("# a comment\n" * 20000 + "stop 1\n" * 10000)
    assert_reports(run([host, *FRAMES, "script"], cwd=folder),
                   [f"refused {number} NotLive" for number in range(1, 10001)])


def test_a_report_is_written_in_blocks(
    host: pathlib.Path, alone: pathlib.Path, folder: pathlib.Path,
) -> None:
    """A report goes out by as few writes as it has blocks of 8192 bytes, and is the same."""
    (folder / "many").write_text("stop 1\n" * 9000)
    commands: list[list[Word]] = [
        [host, "--frames", "1", "many"],
        [alone, "--script", "many", "1", "--frames", "1", "hi.elf"],
    ]
    for words in commands:
        pieces = pieces_of_output(words, folder)
        whole = run(words, cwd=folder).out
        assert b"".join(pieces) == whole != b""
        assert len(pieces) <= len(whole) // 8192 + 1


def pieces_of_output(words: list[Word], folder: pathlib.Path) -> list[bytes]:
    """The bytes of each write to standard output."""
    ours, theirs = socket.socketpair(socket.AF_UNIX, socket.SOCK_SEQPACKET)
    with ours, theirs:
        process = subprocess.Popen([os.fsdecode(it) for it in words], cwd=folder,
                                   stdout=theirs.fileno(), stderr=subprocess.DEVNULL)
        theirs.close()
        pieces = list(iter(lambda: ours.recv(1 << 20), b""))
        process.wait()
    return pieces


def test_known_numbers(host: pathlib.Path, folder: pathlib.Path) -> None:
    """A number is admitted once, also after a stop; a stopped tenant gets no slice."""
    lines = [ADMIT, ADMIT, "stop 1", ADMIT, "slice 1 1", "stop 1"]
    (folder / "script").write_text("\n".join(lines))
    assert_reports(
        run([host, *FRAMES, "script", "hi.elf"], cwd=folder),
        ["refused 2 Duplicate", "refused 4 Duplicate", "refused 5 NotLive", "refused 6 NotLive",
         "tenant 1", "status stopped", "steps 0", "output 0", "heap 0", "end"])


def test_most_tenants(host: pathlib.Path, folder: pathlib.Path) -> None:
    """Up to 255 tenants are live at once, and a stop makes room for another."""
    numbers = [*range(256), 300]
    lines = [admission(number) for number in range(256)] + ["stop 7", admission(300)]
    (folder / "script").write_text("\n".join(lines))
    ran = run([host, "--frames", "65536", "script", "hi.elf"], cwd=folder)
    report = ["refused 256 TooManyLive"]
    for number in numbers[:255] + numbers[256:]:
        status = "stopped" if number == 7 else "running"
        report += [f"tenant {number}", f"status {status}", "steps 0", "output 0", "heap 0", "end"]
    assert_reports(ran, report)


def edited(image: bytes, at: int, value: int, size: int) -> bytes:
    """An image with another number at a place."""
    return image[:at] + value.to_bytes(size, "little") + image[at + size:]


def with_two_segments(image: bytes) -> bytes:
    """An image whose program header stands twice, behind its end."""
    moved = edited(edited(image, 0x20, len(image), 8), 0x38, 2, 2)
    return moved + image[0x40:0x78] * 2


def refused_images(image: bytes) -> list[tuple[bytes, str]]:
    """Files that are refused as images, each with its kind, in the order of the tests."""
    return [
        (b"", "Short"),
        (image[:63], "Short"),
        (edited(image, 0, 0x7E, 1), "NotElf64"),
        (edited(image, 4, 1, 1), "NotElf64"),
        (edited(image, 5, 2, 1), "NotElf64"),
        (edited(image, 0x12, 62, 2), "NotAarch64"),
        (edited(image, 0x10, 3, 2), "NotExec"),
        (edited(image, 0x36, 55, 2), "BadHeaders"),
        (edited(image, 0x38, 0, 2), "BadHeaders"),
        (edited(image, 0x38, 65, 2), "BadHeaders"),
        (edited(image, 0x20, len(image) - 55, 8), "BadHeaders"),
        (edited(image, 0x40, 3, 4), "Interpreter"),
        (edited(image, 0x50, 0x10000000, 8), "SegmentRange"),
        (edited(image, 0x50, 0xFFF, 8), "SegmentRange"),
        (edited(image, 0x60, 0x25, 8), "SegmentRange"),
        (edited(image, 0x68, 0x23, 8), "SegmentRange"),
        (with_two_segments(image), "Overlap"),
        (edited(image, 0x18, 0x10024, 8), "NoEntry"),
        (edited(image, 0x44, 4, 4), "NoEntry"),
    ]


def test_refused_images(host: pathlib.Path, folder: pathlib.Path) -> None:
    """Each kind of file that is no image for the host."""
    wanted, names = [], []
    for number, (body, kind) in enumerate(refused_images((folder / "hi.elf").read_bytes()), 1):
        names.append(f"{number}.elf")
        (folder / names[-1]).write_bytes(body)
        wanted.append(f"refused {number} Image {kind}")
    lines = [admission(number, image=number) for number in range(1, len(names) + 1)]
    (folder / "script").write_text("\n".join(lines))
    assert_reports(run([host, *FRAMES, "script", *names], cwd=folder), wanted)


def shell(host: pathlib.Path, folder: pathlib.Path, words: str, redirected: str) -> Ran:
    """The host, with its streams as the shell redirects them."""
    command = f"set -o pipefail; {shlex.quote(str(host))} --frames 11 {words} {redirected}"
    return run(["bash", "-c", command], cwd=folder)


@pytest.mark.parametrize("redirected", [">/dev/full", ">&-", ">&- <&-", "| true"])
def test_report_is_not_written(host: pathlib.Path, folder: pathlib.Path, redirected: str) -> None:
    """A full disk, closed streams, and a pipe that nobody reads and that is too small."""
    (folder / "many.script").write_text("stop 1\n" * 10000)
    ran = shell(host, folder, "many.script", redirected)
    assert_ended(ran, 6, "mte_host: cannot write\n")
    ran = shell(host, folder, "hi.script hi.elf", redirected.replace("| true", ">/dev/full"))
    assert_ended(ran, 6, "mte_host: cannot write\n")


@pytest.mark.parametrize(("words", "status"), [
    ("hi.script hi.elf >/dev/full", 6),
    ("absent.script hi.elf", 5),
    ("hi.elf hi.elf", 3),
    ("--depth 3 hi.script", 2),
    ("hi.script hi.elf", 0),
])
def test_status_without_standard_error(host: pathlib.Path, folder: pathlib.Path,
                                       words: str, status: int) -> None:
    """Where standard error is closed or full the status is the same."""
    for redirected in ("2>&-", "2>/dev/full", "2>&- <&-"):
        ran = shell(host, folder, words, redirected)
        assert (ran.status, ran.errors) == (status, ""), redirected
        assert ran.output == ("" if status else HI_REPORT)


def test_out_of_memory(host: pathlib.Path, folder: pathlib.Path) -> None:
    """Where addresses are too few for the frames, or for a script, nothing is reported."""
    out_of_memory = "mte_host: out of memory\n"
    words: list[Word] = [host, "--frames", "65536", "hi.script", "hi.elf"]
    assert_ended(run(words, cwd=folder, memory=FEW_ADDRESSES), 4, out_of_memory)
    assert_reports(run(words, cwd=folder, memory=4 * FEW_ADDRESSES), HI_REPORT)
    (folder / "long.script").write_bytes(b"\n" * LONGEST)
    words = [host, *FRAMES, "long.script", "hi.elf"]
    assert_ended(run(words, cwd=folder, memory=12 * MEBIBYTE), 4, out_of_memory)
    assert_reports(run(words, cwd=folder, memory=FEW_ADDRESSES), "")


@pytest.mark.parametrize(("line", "status", "errors"), [
    ("# a comment\n", 0, ""),
    ("#\n", 0, ""),
    ("\n", 0, ""),
    (" ", 0, ""),
    (" \n", 0, ""),
    ("x", 3, "mte_host: script line 1: Syntax\n"),
    ("x ", 3, "mte_host: script line 1: Syntax\n"),
    ("stop 1\n", 3, "mte_host: script line 10001: TooManyEvents\n"),
])
def test_memory_of_the_longest_script(host: pathlib.Path, folder: pathlib.Path,
                                      line: str, status: int, errors: str) -> None:
    """A script of 16 MiB takes little more than itself, whatever stands in it."""
    times = LONGEST // len(line)
    body = line * times + "#" * (LONGEST - times * len(line))
    (folder / "long.script").write_bytes(body.encode())
    measured = measure([host, *FRAMES, "long.script", "hi.elf"], cwd=folder)
    assert_ended(measured.ran, status, errors)
    assert measured.peak < SCRIPT_PEAK, f"{measured.peak / MEBIBYTE:.1f} MiB"


# Programs by the words of their instructions, each with the steps of its slices and whether its
# tag mode is the asynchronous one.
PROGRAMS = [
    # b .
    ("14000000", "3 4", ""),
    # mov x0, #300; mov x8, #0; svc #0: exits with 300 modulo 256
    ("d2802580 d2800008 d4000001", "100", ""),
    # ldr x0, [x1]
    ("f9400020", "100", ""),
    # mov x1, #0x10000; str x0, [x1]: a store to code
    ("d2a00021 f9000020", "100", ""),
    # mov x0, #24; mov x8, #3; svc #0; strb wzr, [x0, #32]: behind a chunk
    ("d2800300 d2800068 d4000001 3900801f", "100", ""),
    # mov x1, sp; sub x1, x1, #24; stg x0, [x1]
    ("910003e1 d1006021 d9200820", "100", ""),
    # sub sp, sp, #8; ldr x0, [sp]
    ("d10023ff f94003e0", "100", ""),
    # mov x1, #0x10002; br x1
    ("d2a00021 91000821 d61f0020", "100", ""),
    # fmov d0, #1.0
    ("1e6e1000", "100", ""),
    # brk #7
    ("d42000e0", "100", ""),
    # as the fifth, which ends with its slice, or at its next service
    ("d2800300 d2800068 d4000001 3900801f 14000000", "6", " async"),
    ("d2800300 d2800068 d4000001 3900801f d2800008 d4000001", "100", " async"),
    # mov x0, #8; mov x8, #4; svc #0: frees what is no multiple of 16
    ("d2800100 d2800088 d4000001", "100", ""),
    # mov x0, #0x20000000; mov x8, #4; svc #0: frees where no page is
    ("d2a40000 d2800088 d4000001", "100", ""),
    # mov x0, #24; mov x8, #3; svc #0; mov x8, #4; svc #0; svc #0: frees twice
    ("d2800300 d2800068 d4000001 aa0003f3 d2800088 d4000001 aa1303e0 d4000001", "100", ""),
    # mov x9, #70; mov x0, x9; mov x8, #3; svc #0; subs x9, x9, #1; b.ne .-16; yields; waits
    ("d28008c9 aa0903e0 d2800068 d4000001 f1000529 54ffff81 d2800128 d4000001 14000000",
     "1000 2", ""),
]


def test_reports(host: pathlib.Path, folder: pathlib.Path) -> None:
    """A whole session, in which tenants end in each way that docs/HOST.md names."""
    lines, slices, names = [], [], []
    for number, (words, steps, mode) in enumerate(PROGRAMS, 1):
        names.append(f"{number}.elf")
        make_image(folder / names[-1], words.split())
        lines.append(admission(number, image=number, pages=8) + mode)
        slices += [f"slice {number} {count}" for count in steps.split()]
    stopped = admission(len(PROGRAMS) + 1, pages=6), f"stop {len(PROGRAMS) + 1}"
    (folder / "script").write_text("\n".join(["stop 1", *lines, *stopped, *slices, "slice 99 1"]))
    ran = run([host, "--frames", "1000", "script", *names], cwd=folder)
    assert_ended(ran, 0, "")
    compare("host/report.txt", ran.output)
