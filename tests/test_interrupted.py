"""The gate's script: what was built stays where it fails or is interrupted, and which cases run."""

import hashlib
import os
import pathlib
import re
import signal
import subprocess
import time

import pytest

from packing.gate_log import complaints, read_gate
from tests.support.checkout import commit_all, copy_files, make_stub
from tests.support.places import ROOT
from tests.support.running import HANG, run, succeed
from tests.support.tools import need

# Moves all that was built away, as the toolchain does before it proves; builds one program anew.
TOOLCHAIN = """\
mkdir -p .git/rt-aside
for folder in crates/*/out; do
    [[ ! -e $folder ]] || mv "$folder" ".git/rt-aside/$(basename "$(dirname "$folder")")"
done
mkdir -p crates/mte_host/out
echo anew >crates/mte_host/out/mte_host
touch moved
sleep "$SECONDS_OF_PROOF"
echo "3 passed, ${FAILED:-1} failed"
exit "${FAILED:-1}"
"""
# What comes before the proofs.
FIRST = re.findall(r"tests/test_(\w+)\.py", re.findall(
    r"^first=\((.*?)\)", (ROOT / "tests" / "run.sh").read_text(encoding="utf-8"), re.M | re.S)[0])
FILES = {"mte_host": "crates/mte_host/out/mte_host", "mte_run": "crates/mte_run/out/mte_run",
         "library": "crates/tombolopan_c/out/libtombolopan_c.a"}


@pytest.fixture
def clone(tmp_path: pathlib.Path) -> pathlib.Path:
    """A checkout with built programs, whose cases take no time."""
    need("bash", "find")
    top = copy_files(tmp_path / "clone", "tests/run.sh", "tools/sources.sh",
                     "tools/gate_cost.py", "crates.txt")
    for name in FIRST:
        (top / "tests" / f"test_{name}.py").write_text("def test(): pass\n", encoding="utf-8")
    (top / "tests" / "install.sh").write_text("#!/bin/sh\n", encoding="utf-8")
    (top / "tests" / "install.sh").chmod(0o755)
    for name, file in FILES.items():
        (top / file).parent.mkdir(parents=True)
        (top / file).write_text(f"{name}\n", encoding="utf-8")
    (top / f"{FILES['mte_run']}.unproved").write_text("mark\n", encoding="utf-8")
    return top


def take_interrupts() -> None:
    """A process that a shell has started in the background ignores them."""
    signal.signal(signal.SIGINT, signal.SIG_DFL)


def gate(clone: pathlib.Path, seconds: int) -> "subprocess.Popen[bytes]":
    """The gate over a toolchain that takes so long, in a process group of its own."""
    stub = make_stub(clone.parent / "stub", "rt", TOOLCHAIN)
    return subprocess.Popen([clone / "tests" / "run.sh"], stdout=subprocess.DEVNULL,
                            stderr=subprocess.DEVNULL, start_new_session=True,
                            preexec_fn=take_interrupts,
                            env={**os.environ, **stub, "SECONDS_OF_PROOF": str(seconds)})


def contents(clone: pathlib.Path) -> dict[str, str]:
    """What is built."""
    return {name: (clone / file).read_text(encoding="utf-8") for name, file in FILES.items()}


WANTED = {"mte_host": "anew\n", "mte_run": "mte_run\n", "library": "library\n"}


def test_a_gate_that_fails(clone: pathlib.Path) -> None:
    """What was built anew stays, and the rest is put back with its marks."""
    assert gate(clone, 0).wait(HANG) == 1
    assert contents(clone) == WANTED
    mark = clone / f"{FILES['mte_run']}.unproved"
    assert mark.read_text(encoding="utf-8") == "mark\n"


@pytest.mark.parametrize("number", [signal.SIGINT, signal.SIGTERM])
def test_a_gate_that_is_interrupted(clone: pathlib.Path, number: int) -> None:
    """So it is where a terminal interrupts it, or a signal ends it."""
    running = gate(clone, HANG)
    deadline = time.monotonic() + HANG
    while not (clone / "moved").exists() and time.monotonic() < deadline:
        assert running.poll() is None
        time.sleep(0.05)
    assert not (clone / FILES["mte_run"]).exists()
    os.killpg(running.pid, number)
    assert running.wait(HANG) != 0
    assert contents(clone) == WANTED


@pytest.mark.parametrize("is_changed", [False, True])
def test_the_log_of_a_gate(clone: pathlib.Path, is_changed: bool) -> None:
    """It has what tools/release.sh reads: the commit at its beginning and its end, whether files
    differ from it, the sums of what was proved, and the counts of all parts."""
    (clone / "tests" / "test_other.py").write_text("def test(): pass\n", encoding="utf-8")
    (clone / ".gitignore").write_text("out/\n__pycache__/\n.pytest_cache/\nmoved\n")
    commit = commit_all(clone)
    if is_changed:
        (clone / "new").touch()
    stub = make_stub(clone.parent / "stub", "rt", TOOLCHAIN)
    ran = run([clone / "tests" / "run.sh"],
              extra={**stub, "SECONDS_OF_PROOF": "0", "FAILED": "0"})
    assert ran.status == 0, ran.output + ran.errors
    gate = read_gate(ran.output)
    assert gate.counts == {"passed": len(FIRST) + 3 + 1, "failed": 0, "skipped": 0}
    assert gate.commits == (commit, commit) and gate.is_changed == is_changed
    assert gate.sums == {"mte_host": hashlib.sha256(b"anew\n").hexdigest()}
    assert len(complaints(gate, commit)) == is_changed


SKIPS = """import pytest
def test_one(): pass
def test_two(): pytest.skip("git is not installed")
"""


def test_files_of_the_suite(clone: pathlib.Path) -> None:
    """The cases of a file alone; what is built without proof and what is skipped is named."""
    (clone / "tests" / "test_style.py").write_text(SKIPS, encoding="utf-8")
    place = (clone / FILES["mte_run"]).parent
    succeed(["sh", "-c", "sha256sum mte_run >mte_run.unproved"], cwd=place)
    ran = succeed([clone / "tests" / "run.sh", "--suite", "tests/test_style.py"])
    assert ran.errors == f"run.sh: built without proof: {FILES['mte_run']}\n"
    assert "git is not installed" in ran.output
    assert ran.output.endswith("\n1 passed, 0 failed, 1 skipped\n")
