"""Many runs: sessions at once, as docs/MANY_SESSIONS.md shows it, by examples/many (test_batch.py
has what may go wrong there); and mutated images and tables, by tools/mutate.py."""

import pathlib
import re
import shlex
import sys

import pytest

from tests.support.batches import Batch
from tests.support.library import shared_object
from tests.support.places import EXAMPLES, ROOT
from tests.support.running import Ran, Word, run, succeed
from tests.support.samples import tenant
from tests.support.tools import need

MANY = EXAMPLES / "many"
COUNT = 40
AS_WANTED = f"{COUNT} as wanted, 0 different"
MUTATE = ROOT / "tools" / "mutate.py"
MUTATED_RUNS = 60


@pytest.fixture
def sessions(shared: pathlib.Path, tmp_path: pathlib.Path) -> Batch:
    """A folder of sessions that nobody ran."""
    folder = tmp_path / "sessions"
    succeed([sys.executable, MANY / "make_sessions.py", folder, str(COUNT)])
    assert len(list(folder.iterdir())) == COUNT
    return Batch(folder, {"TOMBOLOPAN": str(shared_object(shared))})


def run_all(sessions: Batch, *options: str) -> Ran:
    """Runs the sessions, two at a time."""
    words: list[Word] = [MANY / "run.sh", sessions.sessions, "--jobs", "2", *options]
    return run(words, extra=sessions.extra)


def started(sessions: Batch) -> dict[str, int]:
    """When each session was run last with another result, by the time of what it wrote."""
    return {path.parent.name: path.stat().st_mtime_ns
            for path in sessions.sessions.glob("*/got.out")}


def test_as_wanted(sessions: Batch) -> None:
    """All sessions write what is wanted, and a second run has nothing left to do."""
    ran = run_all(sessions)
    assert (ran.status, ran.output) == (0, f"{AS_WANTED}\n{COUNT} run, 0 kept\n"), ran.errors
    first = started(sessions)
    assert len(first) == COUNT
    assert all((path / f"got.{part}").read_bytes() == (path / f"want.{part}").read_bytes()
               for path in sessions.sessions.glob("session-*") for part in ("out", "err", "status"))
    again = run_all(sessions)
    assert (again.status, again.output) == (0, f"{AS_WANTED}\n0 run, {COUNT} kept\n")
    assert started(sessions) == first


def test_some_differ(sessions: Batch) -> None:
    """Sessions that do not write what is wanted are named, also by the run after, and not any more
    once they do."""
    wrong = {"want.out": "tenant 1\n", "want.err": "mte_host: cannot write\n", "want.status": "1\n"}
    right = {}
    for number, (part, text) in enumerate(wrong.items(), 17):
        path = sessions.sessions / f"session-{number:06}" / part
        right[path] = path.read_text()
        path.write_text(text)
    wanted = [f"different: session-{number:06}: {part.removeprefix('want.')}"
              for number, part in enumerate(wrong, 17)]
    for count in (COUNT, 0):
        ran = run_all(sessions)
        assert ran.status == 1
        assert ran.output.splitlines() == [*wanted, f"{COUNT - 3} as wanted, 3 different",
                                           f"{count} run, {COUNT - count} kept"]
    for path, text in right.items():
        path.write_text(text)
    assert run_all(sessions).output == f"{AS_WANTED}\n0 run, {COUNT} kept\n"


def test_goes_on(sessions: Batch) -> None:
    """What is there of another run is not run again, and what is said is of all sessions."""
    some = run_all(sessions, "--share", "1/4")
    assert some.output == f"{COUNT // 4} as wanted, 0 different\n{COUNT // 4} run, 0 kept\n"
    ran = run_all(sessions)
    assert ran.output == f"{AS_WANTED}\n{COUNT * 3 // 4} run, {COUNT // 4} kept\n"


def test_other_files_are_run(sessions: Batch, host: pathlib.Path) -> None:
    """Where a session's files changed it is run again, and by another program all are."""
    run_all(sessions)
    script = sessions.sessions / "session-000003" / "script"
    script.write_text(script.read_text() + "# a comment\n")
    assert run_all(sessions).output == f"{AS_WANTED}\n1 run, {COUNT - 1} kept\n"
    by_host = run_all(sessions, "--program", shlex.quote(str(host)))
    assert by_host.output == f"{AS_WANTED}\n{COUNT} run, 0 kept\n"


def test_usage(tmp_path: pathlib.Path) -> None:
    """What is missing is said, with status 2 or 1, and nothing is run."""
    assert "usage: batch" in run([MANY / "run.sh", "--help"]).output
    ran = run([MANY / "run.sh", tmp_path / "absent"], extra={"TOMBOLOPAN": "absent"})
    assert (ran.status, ran.errors) == (2, f"batch: {tmp_path}/absent is not there\n")
    (tmp_path / "file").touch()
    ran = run([sys.executable, MANY / "make_sessions.py", tmp_path, "3"])
    assert (ran.status, ran.errors) == (1, f"make_sessions.py: {tmp_path} is not empty\n")
    assert run([sys.executable, MANY / "make_sessions.py", tmp_path]).status == 2


@pytest.fixture
def images(shared: pathlib.Path) -> list[pathlib.Path]:
    """Images with line tables and symbols."""
    need("clang", "ld.lld")
    return [tenant(shared, EXAMPLES / "c" / f"{name}.c")
            for name in ("use_after_free", "forgotten", "hello")]


@pytest.mark.parametrize("what", ["image", "debug", "calls", "symbols", "frames"])
def test_mutated_runs(alone: pathlib.Path, images: list[pathlib.Path], tmp_path: pathlib.Path,
                      what: str) -> None:
    """No mutated image, table or chain of frames ends the program by a signal, takes a minute of a
    processor, needs more than a gigabyte, or has it write a raw byte or a file that is no
    document."""
    words: list[Word] = [sys.executable, MUTATE, what, alone, str(MUTATED_RUNS), "7"]
    if what != "frames":
        words += images
    ran = run(words, cwd=tmp_path, memory=1 << 30)
    assert (ran.status, ran.errors) == (0, "")
    ends = {int(end): int(times) for end, times in re.findall(r"(-?\d+): (\d+)", ran.output)}
    assert sum(ends.values()) == MUTATED_RUNS and min(ends) >= 0
    assert not list(tmp_path.glob("mutated/bad.*"))


def test_a_signal_is_noticed(tmp_path: pathlib.Path) -> None:
    """A run that a signal ends is told and kept."""
    broken = tmp_path / "broken"
    broken.write_text("#!/bin/sh\nkill -SEGV $$\n")
    broken.chmod(0o755)
    ran = run([sys.executable, MUTATE, "frames", broken, "2", "1"], cwd=tmp_path)
    assert (ran.status, ran.output) == (1, "-11: 2\n")
    assert ran.errors.count("ended by -11") == 2
    assert len(list(tmp_path.glob("mutated/bad.frames1.*"))) == 4
