"""GDB over `mte_run --gdb --check`: it stops behind the instruction of what `--check` finds."""

import json
import pathlib
import random
from typing import Any

import pytest

from tests.support.debugger import Dialog, debugged, value_in
from tests.support.running import Ran, run
from tests.test_checks import image
from tests.test_user_frames import BUGS_OF

KINDS = "--check=all,places,arithmetic"
# What GDB calls the signal of an access, and of what is none.
ACCESS, OTHER = "SIGSEGV", "SIGABRT"
NEGATIVE_SIZES = range(1, 8)


def found(alone: pathlib.Path, path: pathlib.Path, *words: str) -> tuple[Ran, Any]:
    """What a run says, and its JSON."""
    told = path.parent / "told.json"
    ran = run([alone, *words, "--json", told, path])
    return ran, json.loads(told.read_text(encoding="utf-8"))


def in_gdb(
    alone: pathlib.Path, path: pathlib.Path, folder: pathlib.Path, commands: list[str],
    *words: str,
) -> Dialog:
    """A dialog over the same run."""
    return debugged(alone, path.read_bytes(), commands, folder, [KINDS, *words])


def report_of(text: str) -> list[str]:
    """The lines of a report up to those of the machine."""
    lines = text.splitlines()
    first = next(at for at, line in enumerate(lines) if line.startswith("mte_run: check"))
    last = next(at for at, line in enumerate(lines) if line.startswith("instruction at "))
    return lines[first:last]


@pytest.mark.parametrize("build", ["clang-O0", "gcc-O0"])
def test_a_stop_is_at_what_is_found(
    alone: pathlib.Path, tmp_path: pathlib.Path, build: str
) -> None:
    """Of a drawn bug of each source: the report, the number of steps, the signal, and the
    instruction in front of PC; it stays there, and comes back after it was moved back. Where the
    instruction also ends the tenant, it did nothing, and PC is still there. Every other run has a
    slice behind it."""
    drawn = random.Random(f"gdb {build}")
    sources = {**BUGS_OF, "argument_bugs.c": list(NEGATIVE_SIZES)}
    bugs = [(name, drawn.choice(numbers)) for name, numbers in sources.items()]
    given = tmp_path / "input"
    given.write_bytes(b"y" * 100)
    for number, (source, bug) in enumerate(bugs):
        path = image(tmp_path, build, source, f"BUG={bug}")
        ran, told = found(alone, path, KINDS, "--input", str(given))
        _, plain = found(alone, path, "--input", str(given))
        is_end = plain["steps"] == told["steps"]
        assert ran.status == 137, ran.errors
        commands = ["continue", "monitor why", "print $step", "print $pc", "continue",
                    "reverse-stepi", "print $pc", "stepi", "print $step", "monitor goto 0",
                    "maintenance flush register-cache", "continue", "print $step"]
        slices = ["--slices", ",".join([str(told["steps"] // 3 + 1)] * 4)] if number % 2 else []
        dialog = in_gdb(alone, path, tmp_path, commands, "--input", str(given), *slices)
        report = report_of(ran.errors)
        assert report_of(dialog[1]) == report, (source, bug)
        assert "\n".join(report) in dialog[0], dialog[0]
        is_access = told["status"]["kind"] == "check" and "bytes" in told["status"] and (
            told["status"]["bytes"] > 0 and " free of " not in report[0])
        signal = ACCESS if is_access else OTHER
        assert f"Program received signal {signal}" in dialog[0], (source, bug, dialog[0])
        at = int(told["status"]["pc"], 16)
        assert f"Program received signal {signal}" in dialog[4] and "has ended here" in dialog[4]
        assert value_in(dialog[3 if is_end else 6]) == at, (source, bug)
        assert signal in dialog[7] or is_end, (source, bug, dialog[7])
        assert signal in dialog[11], (source, bug, dialog[11])
        steps = {value_in(dialog[it]) for it in (2, 8, 12)}
        assert steps == {told["steps"] - is_end}, (source, bug, steps)


def test_a_breakpoint_and_a_watchpoint_come_before_it(
    alone: pathlib.Path, tmp_path: pathlib.Path
) -> None:
    """Points in front of what is found stop GDB as without `--check`, forwards and backwards."""
    path = image(tmp_path, "clang-O0", "pointer_bugs.c", "BUG=1")
    _, told = found(alone, path, KINDS)
    commands = ["break main", "continue", "print $step", "delete", "continue", "print $step",
                "break main", "reverse-continue", "print $step", "next 1000", "print $step"]
    dialog = in_gdb(alone, path, tmp_path, commands)
    assert "Breakpoint 1, " in dialog[1] and value_in(dialog[2]) < told["steps"]
    assert value_in(dialog[5]) == value_in(dialog[10]) == told["steps"], dialog[9]
    assert value_in(dialog[8]) == value_in(dialog[2])


def test_a_run_in_which_nothing_is_found(alone: pathlib.Path, tmp_path: pathlib.Path) -> None:
    """It stops in front of its exit, as without `--check`."""
    path = image(tmp_path, "clang-O0", "pointer_idioms.c", "IDIOM=1")
    commands = ["continue", "print $step", "continue"]
    plain = debugged(alone, path.read_bytes(), commands, tmp_path)
    checked = in_gdb(alone, path, tmp_path, commands)
    assert checked.answers == plain.answers and "exited" in plain[2], plain[2]


def test_what_a_suppression_hides_is_no_stop(alone: pathlib.Path, tmp_path: pathlib.Path) -> None:
    """GDB stops at what the run with the same file finds; `--exact` stops it too."""
    path = image(tmp_path, "clang-O0", "pointer_bugs.c", "BUG=1")
    lines = tmp_path / "suppressions"
    lines.write_text("provenance * pointer_bugs.c\n", encoding="utf-8")
    commands = ["continue", "print $step"]
    hidden = in_gdb(alone, path, tmp_path, commands, f"--suppressions={lines}")
    assert "SIGSEGV" not in hidden[0] or "[check]" not in hidden[0], hidden[0]
    ran = run([alone, "--exact", path])
    exact = debugged(alone, path.read_bytes(), commands, tmp_path, ["--exact"])
    cause = next(line for line in ran.errors.splitlines() if line.startswith("Cause: "))
    assert cause in exact[0] and "[exact]" in cause
