"""Sessions in parts by tools/batch: the reports are those of mte_host, parts are made where they
pay, and what is lost, damaged or of another session is made again.

TOMBOLOPAN_DRAWN is how many sessions are drawn, of ten."""

import os
import pathlib
import re
import shlex
import shutil
import subprocess
import sys
import time

import pytest

from tests.support.batches import BATCH, Batch, script, summary
from tests.support.callgrind import instructions_of_all
from tests.support.drawn_sessions import MOST_STEPS, write_sessions, write_wanted
from tests.support.embedding import folders
from tests.support.host_sessions import admission
from tests.support.instructions import move, program, subtract_with_flags
from tests.support.library import shared_object
from tests.support.once import make_once
from tests.support.places import EXAMPLES
from tests.support.running import HANG, run, succeed
from tests.support.tools import give_up

DRAWN = int(os.environ.get("TOMBOLOPAN_DRAWN", "200")) // 10
# Sessions whose tenants end early, and how many tenants each has. A part is one of these: as many
# slices are as many steps as a part has.
COUNT, TENANTS, SLICES = 12, 3, 9
RIGHT = f"{COUNT} as wanted, 0 different"
PARTS = COUNT * TENANTS
# All long sessions are split where the share is the only one.
ALL = ("--split", "--share", "1/1", "--jobs", "2")
# How many short sessions are counted, and how many whose tenants end early; how often these run to
# learn in how many parts; how many times the instructions a run in parts may take.
SHORT, EARLY, RUNS, MOST = 150, 12, 3, 1.1


def write_long(folder: pathlib.Path, tenants: int, image: bytes) -> None:
    """A session whose slices allow many steps."""
    folder.mkdir(parents=True)
    (folder / "image").write_bytes(image)
    lines = [f"# {folder.name}", *(admission(number + 1) for number in range(tenants)), "stop 99"]
    lines += [f"slice {number + 1} {MOST_STEPS}" for number in range(tenants)] * SLICES
    (folder / "script").write_text("".join(f"{it}\n" for it in lines))
    (folder / "args").write_text(f"--frames\n{11 * tenants}\nscript\nimage\n")


@pytest.fixture
def made(host: pathlib.Path, shared: pathlib.Path, tmp_path: pathlib.Path) -> Batch:
    """Long sessions, all of which are run in parts."""
    folder = tmp_path / "sessions"
    for number in range(COUNT):
        write_long(folder / f"session-{number:06}", TENANTS, (EXAMPLES / "hi.elf").read_bytes())
    write_wanted(host, folder)
    return Batch(folder, {"TOMBOLOPAN": str(shared_object(shared))}, ALL)


def line(run: int, kept: int, parts: int = 0, parts_kept: int = 0) -> str:
    """The last line of what is said."""
    parted = f", in {parts} parts run, {parts_kept} parts kept" if parts or parts_kept else ""
    return f"{run} run, {kept} kept{parted}"


def faulty(batch: Batch, split: pathlib.Path, folder: pathlib.Path, act: str) -> Batch:
    """The same by a program that goes wrong: `act` may change what mte_split does."""
    program = script(folder, "faulty", f"""
        once() {{ mkdir "{folder}/$1" 2> /dev/null; }}
        split() {{ "{split}" "$@"; }}
        case "$*" in {act} esac
        split "$@"
        """)
    return Batch(batch.sessions, batch.extra, (*batch.options, "--program", str(program)))


# The same bytes as mte_host

@pytest.mark.parametrize("jobs", ["1", "2", "4"])
def test_sessions_of_every_kind(host: pathlib.Path, shared: pathlib.Path, tmp_path: pathlib.Path,
                                jobs: str) -> None:
    """In parts by any number of processes they have the reports, faulty lines and statuses of
    mte_host; so have drawn ones, with and without a faulty line."""
    folder = make_once(shared / "batch" / "sessions", lambda path: folders.make(host, path))
    drawn = tmp_path / "sessions"
    write_sessions(drawn, range(DRAWN), more=SLICES, steps=[0, 1, 60, MOST_STEPS])
    shutil.copytree(folder, drawn / "odd")
    for number, wrong in enumerate(("slice 1", "slice 1 1048577", "stop 1 1")):
        write_long(drawn / f"fault-{number}", TENANTS, b"")
        with open(drawn / f"fault-{number}" / "script", "a", encoding="utf-8") as file:
            file.write(f"{wrong}\n")
    for at in (drawn, drawn / "odd"):
        for it in sorted(at.iterdir()):
            if (it / "args").exists() and not (it / "want.out").exists():
                ran = run([host, *folders.words_of(it)], cwd=it)
                for part, text in (("out", ran.out), ("err", ran.err)):
                    (it / f"want.{part}").write_bytes(text)
    batch = Batch(drawn, {"TOMBOLOPAN": str(shared_object(shared))}, (*ALL[:3], "--jobs", jobs))
    ran = batch.run()
    count = len(list(drawn.glob("**/args")))
    assert (ran.status, summary(ran)[0]) == (0, f"{count} as wanted, 0 different"), ran.output
    found = re.search(r" in (\d+) parts run", summary(ran)[1])
    assert found and int(found[1]) >= DRAWN


def test_parts(made: Batch) -> None:
    """Each tenant of many steps is a part, and those of few steps are one together; what was put
    together is kept as a run without parts keeps it, and the other way round."""
    first = made.sessions / "session-000000"
    many = [f"slice {number} {MOST_STEPS}" for number in (1, 2) for _ in range(SLICES)]
    (first / "script").write_text("".join(f"{it}\n" for it in (
        *map(admission, range(1, 5)), "stop 9", f"slice 3 {MOST_STEPS}", "slice 4 7", *many)))
    (first / "args").write_text("--frames\n44\nscript\nimage\n")
    (first / "want.out").unlink()
    told = made.told("--jobs", "1")
    assert (told["work"]["parts_run"], told["verdicts"]) == (PARTS, {"as wanted": COUNT})
    whole = Batch(made.sessions, made.extra)
    assert summary(whole.run())[1] == line(0, COUNT)
    assert summary(made.run())[1] == line(0, COUNT)
    shutil.rmtree(made.store)
    assert summary(whole.run())[1] == line(COUNT, 0)
    assert summary(made.run())[1] == line(0, COUNT)


# Where they pay

def many_of(kind: str, folder: pathlib.Path) -> None:
    """Short sessions, long ones whose tenants end early, one of these, or one that uses its
    steps."""
    hi = (EXAMPLES / "hi.elf").read_bytes()
    if kind == "short":
        succeed([sys.executable, EXAMPLES / "many" / "make_sessions.py", folder, str(SHORT)])
    for number in range(EARLY if kind == "early" else 0):
        write_long(folder / str(number), 20, hi)
    if kind in ("one", "long"):
        # Counts down without end.
        endless = program(move(1, 1 << 40), subtract_with_flags(1, 1, 1), 0x17FFFFFF)
        write_long(folder / "one", 4, hi if kind == "one" else endless)


@pytest.mark.parametrize("kind", ["short", "early", "one", "long"])
def test_instructions(shared: pathlib.Path, tmp_path: pathlib.Path, kind: str) -> None:
    """Sessions take at most 1.1 times the instructions in parts that they take whole. These are
    counted where all long ones have parts, so that no clock decides how many; of those that end
    early so few have them as runs outside of callgrind say, by the half of these."""
    folder = tmp_path / "sessions"
    many_of(kind, folder)
    extra = {"TOMBOLOPAN": str(shared_object(shared)), "PYTHONDONTWRITEBYTECODE": "",
             "PYTHONPYCACHEPREFIX": str(tmp_path / "compiled")}
    batch = Batch(folder, extra, ("--jobs", "1"))
    parts = sorted(told_parts(batch, "--split") for _ in range(RUNS))[RUNS // 2]
    most = told_parts(batch, *ALL[:3])
    whole, split = (taken(batch, tmp_path / name, *options)
                    for name, options in (("whole", ()), ("split", ALL[:3])))
    if kind == "early":
        split = whole + (split - whole) * parts // most
    assert split <= MOST * whole, (kind, whole, split, parts, most)


def told_parts(batch: Batch, *options: str) -> int:
    """In how many parts sessions ran that nobody ran before."""
    shutil.rmtree(batch.store, ignore_errors=True)
    found: int = batch.told(*options)["work"]["parts_run"]
    return found


def taken(batch: Batch, folder: pathlib.Path, *options: str) -> int:
    """The instructions of a run."""
    shutil.rmtree(batch.store)
    return instructions_of_all(batch.words(*options), folder, batch.extra)


# What is lost or changed

def test_a_run_that_was_broken_off(made: Batch, split: pathlib.Path,
                                   tmp_path: pathlib.Path) -> None:
    """It goes on with the parts that are left."""
    slow = faulty(made, split, tmp_path, "*) sleep 0.05 ;;")
    with subprocess.Popen([str(it) for it in slow.words()], env={**os.environ, **slow.extra},
                          stdout=subprocess.DEVNULL) as begun:
        until = time.monotonic() + HANG
        while sum(it.stat().st_size for it in made.store.glob("*.answers")) < 3000:
            assert time.monotonic() < until and begun.poll() is None
            time.sleep(0.01)
        begun.kill()
    ran = slow.run()
    assert (ran.status, summary(ran)[0]) == (0, RIGHT)
    found = re.fullmatch(r"(\d+) run, (\d+) kept, in (\d+) parts run, (\d+) parts kept",
                         summary(ran)[1])
    assert found and int(found[1]) + int(found[2]) == COUNT and int(found[3]) < PARTS
    assert int(found[3]) + int(found[4]) == TENANTS * int(found[1]), summary(ran)


@pytest.mark.parametrize("act", [
    "*--tenant*) once lost && exit 1 ;;", "*--tenant*) once lost && kill -9 $$ ;;",
    "*--tenant*) once lost && exit 4 ;;",
    "*--tenant*) once lost && { split \"$@\" | sed 's/^steps ./steps 9/'; exit; } ;;",
    "*--tenant*) once lost && { split \"$@\" | head -n 3; exit; } ;;",
    "*--tenant*) once lost && { split --list \"${@:3}\"; exit; } ;;",
    "*--tenant*) once lost && { split --tenant \"$2\" --frames 9999 \"${@:5}\"; exit; } ;;",
])
def test_parts_elsewhere(made: Batch, split: pathlib.Path, tmp_path: pathlib.Path,
                         act: str) -> None:
    """Parts by another program: one that is lost, damaged, cut, or of another session is made
    again, and the report is right."""
    ran = faulty(made, split, tmp_path, act).run()
    assert (ran.status, summary(ran)) == (
        0, [RIGHT, f"{line(COUNT, 0, PARTS)}, 1 tried again"])


def test_a_part_that_never_comes(made: Batch, split: pathlib.Path,
                                 tmp_path: pathlib.Path) -> None:
    """It is named with its session, and takes no other with it; the next run makes what was
    not made of that session."""
    with open(made.sessions / "session-000002" / "image", "ab") as file:
        file.write(b"marked")
    ill = faulty(made, split, tmp_path, f"*'--tenant 1 '*) [[ ! -e {tmp_path}/well ]] "
                 "&& grep -q marked \"$6\" && exit 1 ;;")
    ran = ill.run("--tries", "1")
    assert ran.status == 1 and summary(ran)[0] == f"{COUNT - 1} as wanted, 0 different, 1 lost"
    assert ran.output.splitlines()[0] == (
        "lost: session-000002: tenant 1: status 1: nothing is said")
    (tmp_path / "well").touch()
    ran = ill.run()
    assert ran.status == 0 and summary(ran)[1].startswith(f"1 run, {COUNT - 1} kept, in ")


def test_a_part_that_was_changed(made: Batch) -> None:
    """A part of a share that was changed in the store is made anew, and so is one that is there
    under the key of another."""
    first = Batch(made.sessions, made.extra, ("--split", "--jobs", "2"))
    assert first.run("--share", "1/2").status == 0
    path = next(made.store.glob("*.answers"))
    parts = re.split(rb"(?=tombolopan answer )", path.read_bytes())[1:]
    path.write_bytes(b"".join([parts[0].replace(b"\nsteps ", b"\nsteps 9"), *parts[1:]]))
    ran = made.run()
    assert (ran.status, summary(ran)) == (0, [RIGHT, (
        f"{line(COUNT, 0, PARTS - len(parts) + 1, len(parts) - 1)}, 1 mended")])


def test_a_full_disk(made: Batch, tmp_path: pathlib.Path) -> None:
    """What cannot be stored is said; the reports are right."""
    ran = made.run("--store", tmp_path / "store", before=["prlimit", "--fsize=5000"])
    assert ran.status == 1 and summary(ran)[0] == RIGHT
    assert re.search(r"\d+ not stored: File too large$", summary(ran)[1])


# Elsewhere

def test_shares(made: Batch, tmp_path: pathlib.Path) -> None:
    """Shares of the parts may run anywhere, into one store; then nothing is left to run, and of
    each short session one share has the whole."""
    succeed([sys.executable, EXAMPLES / "many" / "make_sessions.py", made.sessions / "short", "9"])
    shares = Batch(made.sessions, made.extra, ("--split", "--jobs", "2"))
    ran_parts = ran_short = 0
    for number in (2, 3, 1):
        told = shares.told("--share", f"{number}/3")
        assert told["right"]
        ran_parts += told["work"]["parts_run"]
        ran_short += sum(it["source"] == "run" and "short" in it["name"]
                         for it in told["sessions"])
    assert (ran_parts, ran_short) == (PARTS, 9)
    ran = made.run()
    assert ran.output == f"{COUNT + 9} as wanted, 0 different\n{line(0, COUNT + 9, 0, PARTS)}\n"


def test_dask(made: Batch) -> None:
    """Parts run over Dask too."""
    if run([sys.executable, "-c", "import distributed"]).status:
        give_up("missing: distributed (Debian: python3-distributed)")
    ran = made.run("--dask")
    assert (ran.status, ran.output) == (0, f"{RIGHT}\n{line(COUNT, 0, PARTS)}\n"), ran.errors


def test_slurm(made: Batch, tmp_path: pathlib.Path) -> None:
    """An array job of Slurm runs shares of the parts into one store."""
    if shutil.which("sbatch") is None:
        pytest.skip("Slurm is not installed (Debian: slurm-wlm)")
    if "idle" not in run(["sinfo", "--noheader", "--format=%t"]).output:
        pytest.skip("no node of Slurm is idle")
    words = shlex.join([sys.executable, str(BATCH), str(made.sessions), "--split", "--jobs", "1"])
    succeed(["sbatch", "--wait", "--array=1-3", f"--output={tmp_path}/slurm-%a",
             f"--wrap={words} --share $SLURM_ARRAY_TASK_ID/3"], extra=made.extra)
    assert made.run().output == f"{RIGHT}\n{line(0, COUNT, 0, PARTS)}\n"


def test_usage(made: Batch) -> None:
    """Without the library nothing is run."""
    ran = Batch(made.sessions, {"TOMBOLOPAN": "/absent"}, made.options).run()
    assert (ran.status, ran.output) == (2, "") and "libtombolopan.so is not found" in ran.errors
