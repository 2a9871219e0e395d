"""Runs that are watched and stopped: what `mte_run --progress` writes, compared with runs of as
many steps, and how `tenant-run` ends a run on a signal and says how far it is.

TOMBOLOPAN_DRAWN is how many runs are drawn of 20 times as many, from seed 0 on.
"""

import itertools
import json
import os
import pathlib
import pty
import random
import re
import signal
import subprocess
import sys
import time

import pytest

from tests.support.cache import tenant_library
from tests.support.instructions import (
    CODE, SERVICE, SP, Words, call, jump_not_equal, move, program, subtract_with_flags,
)
from tests.support.running import HANG, Ran, Word, run
from tests.support.tenant_tools import TENANT_RUN, built

DRAWN = max(2, int(os.environ.get("TOMBOLOPAN_DRAWN", "200")) // 20)
EXIT, WRITE, MALLOC, FREE = 0, 1, 3, 4
SLICE, FOREVER = 1 << 20, 10 ** 15
LIMIT, NOT_ENDED = 134, 135
HEAP_CALLS = ("malloc", "free", "calloc", "realloc", "memalign", "usable_size")
# What a run may be asked besides its documents.
ASKED: list[list[str]] = [
    [], ["--leaks"], ["--exact"], ["--check"], ["--statistics", "--calls", "5"],
    ["--async", "--map", "text"], ["--exact=writes", "--last", "40"],
]
DOCUMENTS = ("json", "sarif", "html")


def rounds(turns: int, times: int = 0) -> bytes:
    """An image of rounds with two heap calls that leave a chunk, one that frees, output, and so
    many turns of a loop; it exits after so many rounds, or never."""
    body: list[int] = [
        *call(MALLOC, 40), *call(MALLOC, turns % 99 + 1), *move(8, FREE), SERVICE,
        *call(WRITE, CODE, 1), *move(20, turns), subtract_with_flags(20, 20, 1),
        jump_not_equal(-1),
    ]
    last = subtract_with_flags(19, 19, 1) if times else subtract_with_flags(20, SP, 1)
    parts: list[Words] = [move(19, times), body, last, jump_not_equal(-len(body) - 1),
                          call(EXIT, 0)]
    return program(*parts)


def given_up(child: "subprocess.Popen[bytes]", lines: int, place: "int | pathlib.Path") -> Ran:
    """A run of whose progress nobody reads more than so many lines."""
    with open(place, "rb", buffering=0) as file:
        while lines > 0:
            data = file.read(1 << 16)
            assert data
            lines -= data.count(b"\n")
    out, err = child.communicate(timeout=HANG)
    return Ran(child.returncode, out, err)


def stopped(alone: pathlib.Path, words: list[Word], lines: int, place: pathlib.Path) -> Ran:
    """So is a run by a pipe, or by one that has a name."""
    reader, writer = os.pipe()
    if lines % 2:
        os.mkfifo(place)
    name: Word = place if lines % 2 else f"/dev/fd/{writer}"
    child = subprocess.Popen([alone, "--progress", name, *words], pass_fds=(writer,),
                             stdout=subprocess.PIPE, stderr=subprocess.PIPE)
    os.close(writer)
    ran = given_up(child, lines, place if lines % 2 else reader)
    if lines % 2:
        os.close(reader)
        place.unlink()
    return ran


def as_of_limit(text: str, steps: int) -> str:
    """What is told of a run that was given up, as one that had so many steps tells it."""
    for one, other in (
        (f"mte_run: given up after {steps} steps: --progress takes no more lines\n", ""),
        ("still running after its slices",
         f"the limit of {steps} steps is reached (--steps gives it more)"),
        (f"end of its slices, status {NOT_ENDED}", f"limit of steps, status {LIMIT}"),
        (f'"exit_status":{NOT_ENDED}', f'"exit_status":{LIMIT}'),
        (f'"exitCode":{NOT_ENDED}', f'"exitCode":{LIMIT}'),
    ):
        text = text.replace(one, other)
    return text


def documents(folder: pathlib.Path) -> list[Word]:
    """The options that write them."""
    words: list[Word] = []
    for kind in DOCUMENTS:
        words += [f"--{kind}", folder / f"told.{kind}"]
    return words


@pytest.mark.parametrize("seed", range(DRAWN))
def test_given_up_is_as_fewer_steps(
    alone: pathlib.Path, tmp_path: pathlib.Path, seed: int
) -> None:
    """Output, report and documents are those of a run that has as many steps, but for the words for
    its end."""
    source = random.Random(seed)
    image = tmp_path / "image.elf"
    image.write_bytes(rounds(source.randint(1, 300_000)))
    words: list[Word] = [*ASKED[seed % len(ASKED)], *documents(tmp_path)[:source.choice((2, 6))]]
    if seed % 3 == 2:
        slices = [source.randint(1, SLICE) for _ in range(4000)]
        words += ["--slices", ",".join(map(str, slices))]
    lines = source.randint(1, 9)
    ran = stopped(alone, [*words, "--steps", str(FOREVER), image], lines, tmp_path / "fifo")
    told = {it: it.read_text(encoding="utf-8") for it in tmp_path.glob("told.*")}
    steps = json.loads(told[tmp_path / "told.json"])["steps"]
    assert ran.status == NOT_ENDED and ran.errors.startswith(f"mte_run: given up after {steps} ")
    assert seed % 3 == 2 or steps % SLICE == 0 and steps >= lines * SLICE
    again = run([alone, *words, "--steps", str(steps), image])
    assert (again.status, again.out) == (LIMIT, ran.out)
    assert as_of_limit(ran.errors, steps) == again.errors
    for file, text in told.items():
        assert as_of_limit(text, steps) == file.read_text(encoding="utf-8"), file


def counted(text: str) -> tuple[int, int]:
    """The steps and the heap calls of `--statistics`."""
    numbers = {name: int(number) for name, number in re.findall(r"^  (\S.*?)  +(\d+)", text, re.M)}
    return numbers["steps attempted"], sum(numbers[it] for it in HEAP_CALLS)


@pytest.mark.parametrize("seed", range(DRAWN))
def test_lines_are_what_a_run_of_as_many_steps_counts(
    alone: pathlib.Path, tmp_path: pathlib.Path, seed: int
) -> None:
    """One after each slice, up to that in which the tenant exits; a second run writes none."""
    source = random.Random(seed)
    image, file = tmp_path / "image.elf", tmp_path / "lines"
    image.write_bytes(rounds(source.randint(1, 200), source.choice((0, 3, 100))))
    slices = [source.randint(1, 9_000) for _ in range(source.randint(1, 6))]
    words: list[Word] = ["--slices", ",".join(map(str, slices)), *ASKED[seed % len(ASKED)]]
    ran = run([alone, "--progress", file, *words, image])
    assert ran == run([alone, *words, image])
    wanted = []
    for steps in itertools.accumulate(slices):
        more: list[Word] = ["--slices", words[1], "--steps", str(steps), "--statistics"]
        pair = counted(run([alone, *more, image]).errors)
        wanted += [pair] * (pair not in wanted)
    assert file.read_text(encoding="utf-8") == "".join(
        f"steps {steps} calls {calls}\n" for steps, calls in wanted)


def test_where_no_line_can_be_written(alone: pathlib.Path, tmp_path: pathlib.Path) -> None:
    """A full device, and a pipe that nobody reads; a tenant that has exited is not given up."""
    loop, short = tmp_path / "loop.elf", tmp_path / "short.elf"
    loop.write_bytes(rounds(1_000))
    short.write_bytes(rounds(3, 2))
    reader, writer = os.pipe()
    os.close(reader)
    for place in ("/dev/full", f"/dev/fd/{writer}"):
        for image, status in ((loop, NOT_ENDED), (short, 0)):
            words: list[Word] = [alone, "--progress", place, "--json", tmp_path / "told", image]
            ran = subprocess.run(words, pass_fds=(writer,), stderr=subprocess.PIPE, check=False,
                                 stdout=subprocess.DEVNULL, timeout=HANG)
            told = json.loads((tmp_path / "told").read_text(encoding="utf-8"))
            assert ran.returncode == told["exit_status"] == status
            assert (b"given up after" in ran.stderr) == (image == loop) == (told["steps"] == SLICE)
    os.close(writer)


SPIN = """#include <stdio.h>
#include <stdlib.h>
int main(void)
{
    puts("begun");
    fflush(stdout);
    for (volatile unsigned long i = 0;; i++)
        if (i % 100000 == 0)
            free(malloc(i % 997));
}
"""


@pytest.fixture(scope="session", name="library")
def built_library() -> pathlib.Path:
    """The library of tenants, which is built once."""
    return tenant_library()


@pytest.fixture(scope="session", name="spin")
def spinning(library: pathlib.Path, tmp_path_factory: pytest.TempPathFactory) -> pathlib.Path:
    """A tenant that never ends."""
    return built(library, tmp_path_factory.mktemp("spin"), SPIN)


def started(
    alone: pathlib.Path, folder: pathlib.Path, *words: Word, errors: int = subprocess.PIPE
) -> "subprocess.Popen[bytes]":
    """A running tenant-run, whose own files are in a folder."""
    (folder / "own").mkdir(exist_ok=True)
    return subprocess.Popen(
        [sys.executable, TENANT_RUN, "--alone", alone, *words], stdin=subprocess.DEVNULL,
        stdout=subprocess.PIPE, stderr=errors, env={**os.environ, "TMPDIR": str(folder / "own")})


def begun(child: "subprocess.Popen[bytes]") -> None:
    """Waits until the tenant has written what it begins with."""
    assert child.stdout is not None and os.read(child.stdout.fileno(), 6) == b"begun\n"


def ended_by(
    child: "subprocess.Popen[bytes]", number: signal.Signals, seconds: float
) -> tuple[bytes, bytes]:
    """What is written by a run that gets a signal some seconds after it has begun."""
    begun(child)
    time.sleep(seconds)
    child.send_signal(number)
    out, err = child.communicate(timeout=HANG)
    return b"begun\n" + out, err


def plain_names(text: str) -> str:
    """Without the name of the folder that each run has for itself."""
    return re.sub(r"/own/tmp\w+/", "/own/", text)


@pytest.mark.parametrize("number", [signal.SIGINT, signal.SIGTERM])
def test_a_signal_gives_a_tenant_up(
    alone: pathlib.Path, spin: pathlib.Path, tmp_path: pathlib.Path, number: signal.Signals
) -> None:
    """Report and documents are those of a run of as many steps, but for the words for its end; and
    no folder is left."""
    files = {it: tmp_path / f"told.{it}" for it in DOCUMENTS}
    words = [*(f"--option=--{it}={file}" for it, file in files.items()), "--option=--leaks"]
    child = started(alone, tmp_path, "--steps", str(FOREVER), *words, spin)
    out, err = ended_by(child, number, 2)
    first, _, report = err.decode().partition("\n")
    said = re.fullmatch(rf"tenant-run: stopped by {number.name} after (\d+) steps", first)
    assert said and (child.returncode, out) == (128 + number, b"begun\n")
    steps, told = int(said[1]), [it.read_text(encoding="utf-8") for it in files.values()]
    again = started(alone, tmp_path, "--steps", str(steps), *words, spin)
    other_out, other_err = again.communicate(timeout=HANG)
    assert (again.returncode, other_out) == (152, out)
    assert as_of_limit(report, steps) == other_err.decode()
    for file, text in zip(files.values(), told):
        wanted = plain_names(file.read_text(encoding="utf-8"))
        assert plain_names(as_of_limit(text, steps)) == wanted
    assert not any((tmp_path / "own").iterdir())


def test_a_stop_in_one_line(
    alone: pathlib.Path, spin: pathlib.Path, tmp_path: pathlib.Path
) -> None:
    """With --brief."""
    child = started(alone, tmp_path, "--brief", spin)
    _, err = ended_by(child, signal.SIGTERM, 1)
    assert child.returncode == 143
    assert re.fullmatch(r"\S+: error: stopped by SIGTERM after \d+ steps\n", err.decode()), err


@pytest.mark.parametrize("number", [signal.SIGINT, signal.SIGTERM])
def test_a_second_signal_ends_it_at_once(
    ends: pathlib.Path, tmp_path: pathlib.Path, number: signal.Signals
) -> None:
    """Also a program that neither writes its progress nor takes signals."""
    deaf = tmp_path / "deaf"
    deaf.write_text("#!/bin/sh\necho begun\nexec sleep 9999\n", encoding="utf-8")
    deaf.chmod(0o755)
    child = started(deaf, tmp_path, ends)
    begun(child)
    for _ in range(2):
        time.sleep(1)
        assert child.poll() is None
        child.send_signal(number)
    out, err = child.communicate(timeout=HANG)
    assert (child.returncode, out) == (128 + number, b"")
    assert err.decode() == f"tenant-run: killed by a second {number.name}\n"
    assert not any((tmp_path / "own").iterdir())


@pytest.fixture(scope="session", name="ends")
def ending(library: pathlib.Path, tmp_path_factory: pytest.TempPathFactory) -> pathlib.Path:
    """A tenant that exits."""
    return built(library, tmp_path_factory.mktemp("ends"), "int main(void) { return 3; }\n")


def terminal(alone: pathlib.Path, folder: pathlib.Path, *words: Word) -> str:
    """What a terminal has of some seconds of a run that is stopped then."""
    ours, theirs = pty.openpty()
    child = started(alone, folder, *words, errors=theirs)
    os.close(theirs)
    begun(child)
    time.sleep(3.5)
    child.send_signal(signal.SIGINT)
    written = b""
    while True:
        try:
            data = os.read(ours, 1 << 16)
        except OSError:
            break
        if not data:
            break
        written += data
    os.close(ours)
    child.communicate(timeout=HANG)
    assert child.returncode == 130
    return written.decode()


LINE = (r"tenant-run: ([\d,]+) steps \((\d+) %\), [\d.]+ million a second, "
        r"([\d,]+) heap calls *")


def test_how_far_a_run_is_on_a_terminal(
    alone: pathlib.Path, spin: pathlib.Path, tmp_path: pathlib.Path
) -> None:
    """A line a second, in place of the one before; it is gone before the report."""
    shown, _, report = terminal(alone, tmp_path, "--steps", "100000000000", spin).partition(
        "tenant-run: stopped by ")
    assert "\n" not in shown and "steps" in report
    lines = [it for it in shown.split("\r") if it.strip()]
    found = [re.fullmatch(LINE, it) for it in lines]
    assert found and all(found), shown
    numbers = [[int(part.replace(",", "")) for part in it.groups()] for it in found if it]
    assert numbers == sorted(numbers) and all(part > 0 for it in numbers for part in (it[0], it[2]))
    assert all(share == steps // 1_000_000_000 for steps, share, _ in numbers)
    assert shown.rpartition("\r")[0].rpartition("\r")[2].strip() == ""


def test_nothing_is_said_of_it_elsewhere(
    alone: pathlib.Path, spin: pathlib.Path, tmp_path: pathlib.Path
) -> None:
    """With --quiet, and into a pipe."""
    assert terminal(alone, tmp_path, "--quiet", spin).startswith("tenant-run: stopped by SIGINT")
    _, err = ended_by(started(alone, tmp_path, spin), signal.SIGINT, 2.5)
    assert err.startswith(b"tenant-run: stopped by SIGINT") and b"\r" not in err


def test_mte_run_itself_is_ended_at_once(alone: pathlib.Path, tmp_path: pathlib.Path) -> None:
    """By SIGINT, without a report."""
    image = tmp_path / "image.elf"
    image.write_bytes(rounds(1_000))
    child = subprocess.Popen([alone, "--steps", str(FOREVER), image], stdout=subprocess.DEVNULL,
                             stderr=subprocess.PIPE, preexec_fn=taking_interrupts)
    time.sleep(1)
    child.send_signal(signal.SIGINT)
    assert (child.communicate(timeout=HANG)[1], child.returncode) == (b"", -signal.SIGINT)


def taking_interrupts() -> None:
    """A process that a shell has started in the background ignores them."""
    signal.signal(signal.SIGINT, signal.SIG_DFL)
