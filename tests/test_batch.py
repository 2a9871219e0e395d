"""Many sessions by tools/batch: the reports are those of mte_host, and what is lost, changed,
exchanged, falsified or cannot be written is noticed, and mended or named."""

import contextlib
import json
import os
import pathlib
import pty
import random
import re
import shlex
import shutil
import signal
import subprocess
import sys
import time
import xml.etree.ElementTree as xml

import pytest

from tests.support.batches import Batch, script, summary
from tests.support.embedding import folders
from tests.support.host_sessions import HI_REPORT, admission
from tests.support.library import shared_object
from tests.support.once import make_once
from tests.support.places import EXAMPLES, ROOT
from tests.support.running import HANG, Ran, run, succeed
from tests.support.slurm import cluster
from tests.support.tools import give_up

COUNT = 60
RIGHT = f"{COUNT} as wanted, 0 different"
# A session whose script has this is the one that goes wrong.
MARKED = "session-000017"
MARK = b"# the one that goes wrong\n"


@pytest.fixture
def made(shared: pathlib.Path, tmp_path: pathlib.Path) -> Batch:
    """Sessions of the generator, of which one is marked."""
    folder = tmp_path / "sessions"
    succeed([sys.executable, EXAMPLES / "many" / "make_sessions.py", folder, str(COUNT)])
    marked = folder / MARKED / "script"
    marked.write_bytes(marked.read_bytes() + MARK)
    return Batch(folder, {"TOMBOLOPAN": str(shared_object(shared))})


@pytest.fixture
def odd(host: pathlib.Path, shared: pathlib.Path) -> Batch:
    """Sessions of every kind, and what mte_host writes of each."""
    folder = make_once(shared / "batch" / "sessions", lambda path: folders.make(host, path))
    return Batch(folder, {"TOMBOLOPAN": str(shared_object(shared))})


def not_right(ran: Ran) -> list[str]:
    """The lines of sessions that are not right."""
    return ran.output.splitlines()[:-2]


def answers(batch: Batch) -> pathlib.Path:
    """The only file of a store."""
    found = list(batch.store.glob("*.answers"))
    assert len(found) == 1
    return found[0]


def is_running(process: str) -> bool:
    """Whether a process is there and has not ended."""
    with contextlib.suppress(OSError):
        stat = pathlib.Path(f"/proc/{process}/stat").read_text(encoding="utf-8")
        return stat.rpartition(")")[2].split()[0] not in "ZX"
    return False


# The same bytes as mte_host

@pytest.mark.parametrize("jobs", ["1", "2", "4"])
def test_as_mte_host(odd: Batch, tmp_path: pathlib.Path, jobs: str) -> None:
    """Reports, faulty lines and statuses are those of mte_host, byte for byte, by any number of
    workers."""
    count = len(list(odd.sessions.iterdir()))
    ran = odd.run("--jobs", jobs, "--store", tmp_path / "store")
    assert (ran.status, summary(ran)[0]) == (0, f"{count} as wanted, 0 different"), ran.output


def test_in_any_order(odd: Batch, tmp_path: pathlib.Path) -> None:
    """A table of the same sessions, in another order, has the same reports."""
    lines = []
    for at in sorted(odd.sessions.iterdir()):
        words = [str(at / it) for it in folders.words_of(at)[2:]]
        frames = folders.words_of(at)[1]
        lines.append("\t".join([at.name, frames, str(at / "want.out"), *words]))
    random.Random(3).shuffle(lines)
    table = tmp_path / "table"
    table.write_text("# a table\n\n" + "\n".join(lines) + "\n", encoding="utf-8")
    ran = Batch(table, odd.extra).run()
    assert (ran.status, summary(ran)[0]) == (0, f"{len(lines)} as wanted, 0 different"), ran.output


def test_what_is_the_same_runs_once(made: Batch, tmp_path: pathlib.Path) -> None:
    """Of sessions with the same bytes one is run, and none that has been run."""
    line = f"11\t-\t{EXAMPLES / 'hi.script'}\t{EXAMPLES / 'hi.elf'}"
    table = tmp_path / "table"
    table.write_text("".join(f"student {number}\t{line}\n" for number in range(30)))
    batch = Batch(table, made.extra)
    assert summary(batch.run()) == ["0 as wanted, 0 different, 30 answered", "1 run, 29 kept"]
    assert summary(batch.run())[1] == "0 run, 30 kept"
    with open(table, "a", encoding="utf-8") as file:
        file.write(f"another\t12\t-\t{EXAMPLES / 'hi.script'}\t{EXAMPLES / 'hi.elf'}\n")
    assert summary(batch.run())[1] == "1 run, 30 kept"


def test_a_class_of_students(made: Batch, tmp_path: pathlib.Path) -> None:
    """Of a table what tenants write may be wanted, and that they exit; the reports are files."""
    (tmp_path / "right").write_bytes(b"Hi")
    (tmp_path / "wrong").write_bytes(b"Ho")
    (tmp_path / "script").write_text(f"{admission(1)}\nslice 1 6\n")
    hi, script_of_hi = EXAMPLES / "hi.elf", EXAMPLES / "hi.script"
    rows = [f"{name}\t11\toutput:{wanted}\t{text}\t{hi}\n" for name, wanted, text in (
        ("ann/1", "right", script_of_hi), ("bob/1", "wrong", script_of_hi),
        ("cy/1", "right", "script"), ("di/1", "absent", "script"))]
    table = tmp_path / "table"
    table.write_text("".join(rows))
    batch = Batch(table, made.extra)
    ran = batch.run("--reports", tmp_path / "reports", "--json", tmp_path / "told")
    assert ran.output.splitlines() == [
        "different: bob/1: output", "different: cy/1: running",
        f"no session: di/1: cannot read {tmp_path}/absent: No such file or directory",
        "1 as wanted, 2 different, 1 no session", "2 run, 1 kept"]
    assert (tmp_path / "reports" / "ann" / "1.out").read_text() == HI_REPORT
    assert (tmp_path / "reports" / "cy" / "1.status").read_text() == "0\n"
    told = json.loads((tmp_path / "told").read_text())
    statuses = [[tenant["status"] for tenant in it.get("tenants", ())] for it in told["sessions"]]
    exited = {"kind": "exit", "code": 0}
    assert statuses == [[exited], [exited], [{"kind": "running"}], []]
    table.write_text(rows[0].replace("ann", ".."))
    ran = batch.run("--reports", tmp_path / "reports")
    assert (ran.status, ran.output) == (2, "") and "leads out" in ran.errors


def test_what_is_not_wanted_is_named(made: Batch) -> None:
    """A session that is not as wanted is named with the parts that differ, each time; and so are
    files that cannot be read, and words that are none of mte_host."""
    wrong = {"want.out": b"tenant 1\n", "want.err": b"mte_host: cannot write\n",
             "want.status": b"1\n"}
    for number, (part, text) in enumerate(wrong.items(), 20):
        (made.sessions / f"session-{number:06}" / part).write_bytes(text)
    (made.sessions / "session-000023" / "image").unlink()
    (made.sessions / "session-000024" / "args").write_text("--frames\n0\nscript\n")
    (made.sessions / "session-000025" / "args").write_text("script\nimage\n")
    for _ in range(2):
        ran = made.run()
        assert ran.status == 1
        assert not_right(ran) == [
            "different: session-000020: out", "different: session-000021: err",
            "different: session-000022: status", "different: session-000023: out, err, status",
            "no session: session-000024: its frames are not 1 to 65536: 0",
            "no session: session-000025: its words are not --frames N SCRIPT FILE..."]
        assert summary(ran)[0] == f"{COUNT - 6} as wanted, 4 different, 2 no session"


# What is lost

def test_a_killed_worker(made: Batch) -> None:
    """What a worker had that was killed is run again, by another."""
    ran = made.going_wrong(f"{MARK!r} in script and once('killed') and end()").run()
    assert (ran.status, summary(ran)[0]) == (0, RIGHT), ran.output
    assert re.fullmatch(rf"{COUNT} run, 0 kept, \d+ tried again", summary(ran)[1])


def test_a_session_that_ends_its_worker(made: Batch) -> None:
    """A session whose process ends each time is named, and takes no other with it; it is run again
    by the next run, and nothing else is."""
    ran = made.going_wrong(f"{MARK!r} in script and end()").run()
    assert ran.status == 1
    assert not_right(ran) == [f"lost: {MARKED}: the process that ran it ended by signal 9"]
    assert summary(ran)[0] == f"{COUNT - 1} as wanted, 0 different, 1 lost"
    ran = made.run()
    assert (ran.status, summary(ran)) == (0, [RIGHT, f"1 run, {COUNT - 1} kept"])


def test_a_session_that_takes_too_long(made: Batch) -> None:
    """A worker that takes too long is ended."""
    act = f"{MARK!r} in script and time.sleep(99)"
    ran = made.going_wrong(act).run("--timeout", "0.02", "--tries", "1")
    assert ran.status == 1
    assert f"lost: {MARKED}: it took longer than 0.02 seconds" in not_right(ran)


def test_want_of_memory_is_no_answer(made: Batch) -> None:
    """Want of memory, or an error of the module, says nothing of a session."""
    for act, why in (("raise MemoryError", "out of memory"), ("return b'end'", "status 0"),
                     ("raise KeyError('x')", "KeyError: 'x'")):
        wrong = Batch(made.sessions, made.extra).going_wrong(f"if {MARK!r} in script: {act}")
        ran = wrong.run("--tries", "1")
        assert ran.status == 1
        assert any(it.startswith(f"lost: {MARKED}: {why}") for it in not_right(ran)), ran.output
        (made.sessions.with_name("faulty") / "tombolopan.py").unlink()
        made.sessions.with_name("faulty").rmdir()
    assert made.run().output == f"{RIGHT}\n1 run, {COUNT - 1} kept\n"


def test_a_run_that_was_broken_off(made: Batch) -> None:
    """It goes on with the sessions that are left, and has left no process."""
    slow = made.going_wrong("time.sleep(0.01)")
    with subprocess.Popen(slow.words(), env={**os.environ, **slow.extra},
                          stdout=subprocess.DEVNULL) as begun:
        until = time.monotonic() + HANG
        while not any(it.stat().st_size for it in made.store.glob("*.answers")):
            assert time.monotonic() < until and begun.poll() is None
            time.sleep(0.005)
        children = pathlib.Path(f"/proc/{begun.pid}/task/{begun.pid}/children").read_text().split()
        begun.send_signal(signal.SIGKILL)
    assert len(children) == 2
    while any(is_running(it) for it in children):
        assert time.monotonic() < until
        time.sleep(0.01)
    ran = made.run()
    found = re.fullmatch(r"(\d+) run, (\d+) kept", summary(ran)[1])
    assert ran.status == 0 and summary(ran)[0] == RIGHT and found
    assert int(found[1]) + int(found[2]) == COUNT and int(found[2]) > 0


def test_shares(made: Batch) -> None:
    """Shares of the sessions run anywhere, into one store; then nothing is left."""
    for number in (3, 1, 2):
        assert made.run("--share", f"{number}/3").status == 0
    assert summary(made.run()) == [RIGHT, f"0 run, {COUNT} kept"]


def test_a_node_of_slurm_that_was_killed(made: Batch, tmp_path: pathlib.Path) -> None:
    """An array of Slurm by the page's command: what ran on a node that was killed is run again, on
    the other; then nothing is left."""
    line = re.findall(r"`(sbatch --array.*?)`", (ROOT / "docs" / "MANY_SESSIONS.md").read_text())[0]
    slow = made.going_wrong(f"{MARK!r} in script and once('begun') and wait()")
    words = {"SESSIONS": shlex.quote(str(made.sessions)),
             "tools/batch": shlex.quote(str(ROOT / "tools" / "batch")),
             "python3": f"{sys.executable}", "1-10": "1-4", "/10": "/4"}
    for word, other in words.items():
        line = line.replace(word, other)
    with cluster(tmp_path / "slurm") as slurm:
        assert slurm.run("bash", "-c", line, extra=slow.extra).status == 0
        begun = made.sessions.with_name("faulty") / "waits"
        until = time.monotonic() + HANG
        while not (begun.exists() and begun.read_text()):
            assert time.monotonic() < until
            time.sleep(0.1)
        while "PENDING" in slurm.run("squeue", "--noheader", "--format=%T").output:
            assert time.monotonic() < until
            time.sleep(0.1)
        slurm.kill_node(int(begun.read_text()))
        slurm.finish()
    ran = made.run()
    assert (ran.status, summary(ran)) == (0, [RIGHT, f"0 run, {COUNT} kept"])


# What is changed

def test_a_result_that_was_changed(made: Batch) -> None:
    """A changed digit, a lost end and a lost head are noticed, and made anew."""
    assert made.run().status == 0
    path = answers(made)
    sound = path.read_bytes()
    at = [it.start() for it in re.finditer(rb"\nsteps \d", sound)]
    changed = bytearray(sound)
    changed[at[40] + 7] ^= 1
    lost_head = sound.replace(b"tombolopan answer ", b"tombolopan_answer ", 1)
    for damaged, line in ((bytes(changed), f"1 run, {COUNT - 1} kept, 1 mended"),
                          (sound[:-9], f"1 run, {COUNT - 1} kept, 1 mended"),
                          (lost_head, f"1 run, {COUNT - 1} kept"), (b"", f"{COUNT} run, 0 kept")):
        for it in made.store.iterdir():
            it.unlink()
        path.write_bytes(damaged)
        assert made.run().output == f"{RIGHT}\n{line}\n"
        assert made.run().output == f"{RIGHT}\n0 run, {COUNT} kept\n"


def test_a_result_under_another_key(made: Batch) -> None:
    """Results that were exchanged are noticed: of the heads, and of the bodies."""
    assert made.run().status == 0
    path = answers(made)
    parts = re.split(rb"(?=tombolopan answer )", path.read_bytes())[1:]
    first, second = (next(it for it in parts if it.count(b"tenant") == count) for count in (2, 3))
    keys = [it.split(b" ")[2] for it in (first, second)]
    heads, bodies = zip(*(it.split(b"\n", 1) for it in (first, second)))
    for exchanged in ((first.replace(keys[0], keys[1]), second.replace(keys[1], keys[0])),
                      (heads[0] + b"\n" + bodies[1], heads[1] + b"\n" + bodies[0])):
        for it in made.store.iterdir():
            it.unlink()
        rest = [it for it in parts if it not in (first, second)]
        path.write_bytes(b"".join((*exchanged, *rest)))
        assert made.run().output == f"{RIGHT}\n2 run, {COUNT - 2} kept, 2 mended\n"


def test_results_that_differ(made: Batch) -> None:
    """Of two sound results of one session neither is taken."""
    assert made.run().status == 0
    told = made.told()
    key = next(it["key"] for it in told["sessions"] if it["name"] == MARKED)
    other = made.going_wrong(f"if {MARK!r} in script: return b'refused 1 Short\\n'")
    assert other.run("--store", made.store.with_name("other")).status == 1
    for it in made.store.with_name("other").iterdir():
        it.rename(made.store / it.name)
    assert made.run().output == f"{RIGHT}\n1 run, {COUNT - 1} kept, 1 mended\n"
    sound = f"tombolopan answer {key}".encode()
    assert sum(it.read_bytes().count(sound) for it in made.store.iterdir()) == 1
    assert made.run().output == f"{RIGHT}\n0 run, {COUNT} kept\n"


def test_what_was_written_is_no_result(made: Batch) -> None:
    """What a folder has of an earlier run is never taken for what came of it, and is put right."""
    assert made.run("--got").status == 0
    (made.sessions / MARKED / "got.out").write_text("wrong\n")
    (made.sessions / MARKED / "got.status").unlink()
    assert made.run("--got").output == f"{RIGHT}\n0 run, {COUNT} kept\n"
    for part in ("out", "err", "status"):
        wanted = (made.sessions / MARKED / f"want.{part}").read_bytes()
        assert (made.sessions / MARKED / f"got.{part}").read_bytes() == wanted


# What is falsified

def test_a_sample_elsewhere(made: Batch, host: pathlib.Path, tmp_path: pathlib.Path) -> None:
    """A run elsewhere that changes one digit of one session is named, and what it disputes is kept
    no more."""
    liar = script(tmp_path, "liar", f"""
        "{host}" "$@" > "$3.out"; status=$?
        if grep -q 'goes wrong' "$3"; then sed -i 's/^steps ./steps 9/' "$3.out"; fi
        cat "$3.out"; exit $status
        """)
    ran = made.run("--sample", "100", "--elsewhere", str(liar))
    assert ran.status == 1
    assert re.fullmatch(rf"disputed: {MARKED}: elsewhere it has line \d+ as 'steps 9', not "
                        r"'steps \d'", not_right(ran)[0])
    assert summary(ran)[0] == f"{COUNT - 1} as wanted, 0 different, 1 disputed"
    ran = made.run("--sample", "100", "--elsewhere", shlex.quote(str(host)))
    assert ran.status == 0
    assert summary(ran) == [RIGHT, f"1 run, {COUNT - 1} kept, {COUNT} run elsewhere too"]


def test_a_worker_that_falsifies(made: Batch, host: pathlib.Path) -> None:
    """A digit that a worker changes is different from what is wanted; where nothing is, a sample
    finds it, of a store too."""
    act = f"if {MARK!r} in script: return _real.session(frames, script, files).replace(b'0', b'1')"
    wrong = made.going_wrong(act)
    assert not_right(wrong.run()) == [f"different: {MARKED}: out"]
    for part in ("out", "err", "status"):
        (made.sessions / MARKED / f"want.{part}").unlink()
    assert summary(made.run())[0] == f"{COUNT - 1} as wanted, 0 different, 1 answered"
    ran = made.run("--sample", "100", "--elsewhere", shlex.quote(str(host)))
    assert ran.status == 1 and summary(ran)[0].endswith("0 different, 1 disputed")
    assert not_right(ran)[0].startswith(f"disputed: {MARKED}: elsewhere it has line ")
    ran = made.run("--sample", "100", "--elsewhere", shlex.quote(str(host)))
    assert ran.status == 0 and summary(ran)[1].startswith(f"1 run, {COUNT - 1} kept")


def test_a_sample_that_is_lost(made: Batch, host: pathlib.Path, tmp_path: pathlib.Path) -> None:
    """What ends elsewhere as mte_host never does is tried again, and said."""
    lost = script(tmp_path, "lost", "exit 255\n")
    ran = made.run("--sample", "100", "--elsewhere", str(lost), "--tries", "0")
    assert ran.status == 1 and summary(ran)[0] == RIGHT
    assert re.fullmatch(rf"{COUNT} run, 0 kept, {COUNT} lost elsewhere: .* status 255: .*",
                        summary(ran)[1])
    ran = made.run("--sample", "20", "--elsewhere", str(lost), "--elsewhere",
                   shlex.quote(str(host)))
    assert (ran.status, summary(ran)[0]) == (0, RIGHT), ran.output


@pytest.mark.parametrize("end", ["exit 1", "exit 4", "exit 139", "kill -9 $$", "echo end"])
def test_processes(made: Batch, host: pathlib.Path, tmp_path: pathlib.Path, end: str) -> None:
    """Sessions run as processes of a program too; an end that says nothing of them is tried
    again."""
    flaky = script(tmp_path, "flaky", f"""
        if mkdir "{tmp_path}/lost-once" 2> /dev/null; then {end}; exit; fi
        exec "{host}" "$@"
        """)
    ran = made.run("--program", str(flaky), "--store", tmp_path / "store")
    assert (ran.status, summary(ran)) == (0, [RIGHT, f"{COUNT} run, 0 kept, 1 tried again"])


# What cannot be written

def test_a_full_disk(made: Batch) -> None:
    """Results that cannot be stored are said, and what was stored of them is not taken."""
    ran = made.run(before=["prlimit", "--fsize=5000"])
    assert ran.status == 1
    found = re.fullmatch(rf"{COUNT} run, 0 kept, (\d+) not stored: File too large", summary(ran)[1])
    assert found and summary(ran)[0] == RIGHT
    ran = made.run()
    assert ran.status == 0 and summary(ran)[0] == RIGHT
    ran = made.run("--json", made.sessions / "absent" / "told.json")
    assert (ran.status, ran.output) == (1, "") and "No such file" in ran.errors


def test_a_full_disk_of_standard_output(made: Batch) -> None:
    """It is an error that what is said cannot be written."""
    with open("/dev/full", "wb") as full:
        ran = subprocess.run(made.words(), env={**os.environ, **made.extra}, stdout=full,
                             stderr=subprocess.PIPE, check=False)
    assert ran.returncode == 1 and b"No space left" in ran.stderr


# What is said

def test_documents(made: Batch, tmp_path: pathlib.Path) -> None:
    """JSON and JUnit say what the lines say."""
    (made.sessions / MARKED / "want.out").write_bytes(b"")
    ran = made.run("--junit", tmp_path / "told.xml", "--json", tmp_path / "told.json")
    assert not_right(ran) == [f"different: {MARKED}: out"]
    suite = xml.parse(tmp_path / "told.xml").getroot()
    assert (suite.get("tests"), suite.get("failures"), suite.get("errors")) == (
        str(COUNT), "1", "0")
    failed = [it.get("name") for it in suite if it.find("failure") is not None]
    assert failed == [MARKED]
    told = made.told()
    assert told["verdicts"] == {"as wanted": COUNT - 1, "different": 1}
    assert [it["name"] for it in told["sessions"]] == sorted(it["name"] for it in told["sessions"])


def test_a_terminal(made: Batch) -> None:
    """On a terminal it says how far it is."""
    main, other = pty.openpty()
    ran = subprocess.run(made.words(), env={**os.environ, **made.extra}, stderr=other,
                         stdout=subprocess.DEVNULL, check=False)
    os.close(other)
    said = b""
    with contextlib.suppress(OSError):
        while part := os.read(main, 4096):
            said += part
    os.close(main)
    assert ran.returncode == 0 and f"{COUNT} of {COUNT}, ".encode() in said


def test_usage(made: Batch, tmp_path: pathlib.Path) -> None:
    """What is wrong with a command is said, with status 2, and nothing is run."""
    empty, table = tmp_path / "empty", tmp_path / "table"
    empty.mkdir()
    table.write_text("one\t1\t-\tscript\none\t1\t-\tscript\n")
    for batch, options, said in (
            (Batch(tmp_path / "absent", made.extra), (), "is not there"),
            (Batch(empty, made.extra), (), "has no sessions"),
            (Batch(table, made.extra), (), "two sessions are named one"),
            (made, ("--share", "3/2"), "is not I/N"),
            (made, ("--sample", "3"), "needs --elsewhere"),
            (made, ("--sample", "101", "--elsewhere", "true"), "at most 100"),
            (made, ("--tries", "-1"), "from 1 on"), (made, ("--timeout", "nan"), "above 0"),
            (made, ("--program", "/absent"), "cannot run /absent"),
            (Batch(made.sessions, {"TOMBOLOPAN": "/absent"}), (), "libtombolopan.so is not found")):
        ran = batch.run(*options)
        assert (ran.status, ran.output) == (2, "") and said in ran.errors
    assert not made.store.exists() and run([sys.executable, "-c", ""]).status == 0


@pytest.mark.parametrize("folder", ["lib", "lib/x86_64-linux-gnu"])
def test_the_library_of_a_prefix(tmp_path: pathlib.Path, folder: str) -> None:
    """It is found in a prefix, also where a package of Debian has it."""
    tools = tmp_path / "share" / "tombolopan" / "tools"
    shutil.copytree(ROOT / "tools" / "batch", tools / "batch")
    library = tmp_path / folder / "libtombolopan.so.2"
    library.parent.mkdir(parents=True)
    library.touch()
    script = "from batch.runs import find_library; print(find_library())"
    ran = succeed([sys.executable, "-B", "-c", script], cwd=tools, extra={"TOMBOLOPAN": ""})
    assert ran.output == f"{library}\n"


# Dask

@pytest.fixture
def by_dask(made: Batch) -> Batch:
    """The same sessions, over Dask."""
    if run([sys.executable, "-c", "import distributed"]).status:
        give_up("missing: distributed (Debian: python3-distributed)")
    return Batch(made.sessions, made.extra, ("--jobs", "2", "--dask"))


def test_dask(by_dask: Batch) -> None:
    """Dask gives the sessions of a worker that was killed to another, and all are as wanted."""
    ran = by_dask.going_wrong(f"{MARK!r} in script and once('killed') and end()").run()
    assert (ran.status, summary(ran)[0]) == (0, RIGHT), ran.output + ran.errors


def test_dask_names_what_is_lost(by_dask: Batch) -> None:
    """A session that ends each worker is named, and no other is lost."""
    ran = by_dask.going_wrong(f"{MARK!r} in script and end()").run("--tries", "1")
    assert ran.status == 1
    assert [it.partition(": Dask")[0] for it in not_right(ran)] == [f"lost: {MARKED}"], ran.output
    assert summary(ran)[0] == f"{COUNT - 1} as wanted, 0 different, 1 lost"
