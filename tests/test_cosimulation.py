"""QEMU in lock-step with tb_step: they do the same, and a difference that is planted in QEMU is
told where it is."""

import pathlib
import re
import sys

import pytest

from tests.support.library import shared_object
from tests.support.once import make_once
from tests.support.places import EXAMPLES
from tests.support.running import Ran, run, succeed
from tests.support.tools import need

FOLDER = EXAMPLES / "golden"
FLAGS = ["-O2", "-mgeneral-regs-only", "-ffreestanding", "-fno-builtin", "-nostdlib", "-static"]


def sample(shared: pathlib.Path) -> pathlib.Path:
    """The program of cosimulated.c."""
    need("aarch64-linux-gnu-gcc", "qemu-aarch64")

    def link(path: pathlib.Path) -> None:
        succeed(["aarch64-linux-gnu-gcc", *FLAGS, "-o", path, FOLDER / "cosimulated.c"])

    return make_once(shared / "cosimulated", link)


def compare(shared: pathlib.Path, *words: str) -> Ran:
    """What the script says of it."""
    return run([sys.executable, FOLDER / "cosimulate.py", *words],
               extra={"TOMBOLOPAN": str(shared_object(shared))})


def test_both_do_the_same(shared: pathlib.Path) -> None:
    """Up to the exit, whose status is that of a run of QEMU alone."""
    ran = compare(shared, str(sample(shared)))
    status = run(["qemu-aarch64", sample(shared)]).status
    assert ran.status == 0, ran.output + ran.errors
    assert re.fullmatch(r"the same for 1\d{4} steps, 1 of them taken over; both end: "
                        rf"exit {status}\n", ran.output)


@pytest.mark.parametrize("step, register", [(1, "x11"), (700, "x3"), (1000, "x30")])
def test_a_planted_difference_is_told(shared: pathlib.Path, step: int, register: str) -> None:
    """At its step, with both states and the one before."""
    ran = compare(shared, "--plant", str(step), register, str(sample(shared)))
    lines = ran.output.splitlines()
    assert ran.status == 1, ran.output + ran.errors
    assert re.fullmatch(rf"step {step}: 0x[0-9a-f]+: [0-9a-f]{{8}}", lines[0])
    found = re.fullmatch(rf"{register} is (0x[0-9a-f]+) in QEMU, (0x[0-9a-f]+) by tb_step",
                         lines[1])
    assert found and int(found[1], 16) ^ int(found[2], 16) == 1
    assert [it for it in lines if it.endswith(":") and it.startswith("  ")] == [
        "  before:", "  tb_step:", "  QEMU:"]
    assert f"{register} {found[1]}" in " ".join(lines[-10:])


def test_words_beyond_the_profile(shared: pathlib.Path, tmp_path: pathlib.Path) -> None:
    """QEMU executes an addition of vectors: a difference, or taken over."""
    sample(shared)
    source, program = tmp_path / "vectors.s", tmp_path / "vectors"
    source.write_text(".globl _start\n_start:\nadd v0.4s, v0.4s, v0.4s\nmov x0, #5\n"
                      "mov x8, #93\nsvc #0\n")
    succeed(["aarch64-linux-gnu-gcc", "-nostdlib", "-static", "-o", program, source])
    ran = compare(shared, str(program))
    assert ran.status == 1
    assert "QEMU's step ends with next, tb_step's with illegal instruction\n" in ran.output
    ran = compare(shared, "--take-over", str(program))
    assert (ran.status, ran.output) == (
        0, "the same for 4 steps, 1 of them taken over; both end: exit 5\n")


def test_both_fault(shared: pathlib.Path, tmp_path: pathlib.Path) -> None:
    """A load from where nothing is mapped."""
    sample(shared)
    source, program = tmp_path / "null.s", tmp_path / "null"
    source.write_text(".globl _start\n_start:\nmov x1, #8\nldr x0, [x1]\n")
    succeed(["aarch64-linux-gnu-gcc", "-nostdlib", "-static", "-o", program, source])
    ran = compare(shared, str(program))
    assert (ran.status, ran.output) == (
        0, "the same for 2 steps, 0 of them taken over; both end: fault\n")


@pytest.mark.parametrize("words, said", [
    ([], "(--help)"), (["none"], "none is not there"), ([sys.executable], "is no static program"),
    (["--plant", "1", "w3", "none"], "--plant needs a number and x0 to x30"),
])
def test_words_that_are_refused(shared: pathlib.Path, words: list[str], said: str) -> None:
    """With a line."""
    ran = compare(shared, *words)
    assert ran.status in (1, 2) and said in ran.errors and "Traceback" not in ran.errors
