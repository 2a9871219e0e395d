"""Runs the commands of a page's blocks in a copy of the checkout."""

import pathlib
import re
import shlex
import shutil
from dataclasses import dataclass

from tests.support.checkout import link_built, make_stub
from tests.support.installed import variables
from tests.support.pages import FORM, Part, folder_of
from tests.support.running import HANG, Ran, run

# What is not run: what the command has in it, and why.
NOT_RUN = {
    r"^(rt ci|tests/(run|quick).sh)$": "proves everything, or is this suite",
    r"^apt-get ": "changes the machine; tests/packages.txt has what is needed",
    r"^pip install ":
        "changes the machine; tests/test_python_package.py installs the wheel into a folder",
    r"(^|/)build\.py( --c\+\+)?$":
        "fetches 131 MB and takes two minutes; the tests of the C and C++ libraries run it",
    r"(^|/)check\.sh$|^make check$": "takes minutes; the tests of its folder do the same",
    r"(^|/)build\.sh .*\.rs$": "builds Rust's core, for minutes; the tests of examples/rust run it",
    r"cargo\.sh run ": "builds Rust's core too; the tests of examples/rust run it",
    r"/(packages|profiled|compilers|suites)\.py ":
        "builds what others wrote, for minutes; tests/test_packages.py runs a sample",
    r" out/mine\.elf$": "runs what the command before it builds",
}
# What is put in place of a part of a command, and why.
CHANGED = {
    r"(?<=make_sessions\.py sessions )1000$": ("20", "a thousand sessions take a minute"),
    r"\bPREFIX(?=/)": ("PREFIX", "is the reader's: a folder that is installed into"),
}
# The toolchain in a copy: `rt run` in a crate is its built program, and nothing is proved.
TOOLCHAIN = """case $1 in
    run) shift; [[ $1 == -- ]] && shift; exec "out/$(basename "$PWD")" "$@" ;;
    doc) exec {rt} doc ;;
    *) echo "rt $*: not here" >&2; exit 99 ;;
esac
"""
# A program that a compiler leaves under a name of its own is run.
RUN_WHAT_WAS_MADE = """for made in ./a.out ./first; do
    if [[ -x $made ]]; then "$made"; rm "$made"; fi
done"""


def why_not(command: str) -> str:
    """Why a command is not run; empty where it is."""
    return next((why for it, why in NOT_RUN.items() if re.search(it, command)), "")


def is_form(command: str) -> bool:
    """Whether it is the form of a command, with words that are the reader's."""
    return bool(FORM.search(command))


def changed(command: str, prefix: str) -> str:
    """The command as it is run, where something is installed into a prefix."""
    for pattern, (text, _) in CHANGED.items():
        command = re.sub(pattern, prefix if text == "PREFIX" else text, command)
    return command


@dataclass(frozen=True)
class Result:
    """What came of the commands of a part, with the exit status of each that was run."""

    ran: Ran
    statuses: dict[str, int]


@dataclass(frozen=True)
class Copy:
    """A copy of the checkout, with the built programs in it and on the PATH."""

    folder: pathlib.Path
    prefix: str
    path: str

    def run(self, part: Part, seconds: float = HANG) -> Result:
        """Runs the commands of a part in one shell, in the folder of its page."""
        commands = [changed(command, self.prefix) for command in part.commands()
                    if not why_not(command) and not is_form(command)]
        told = self.folder / "statuses"
        lines = [f"exec 9>{shlex.quote(str(told))}"]
        for command in commands:
            lines += ["{", command, "}", "echo $? >&9", RUN_WHAT_WAS_MADE]
        ran = run(["bash", "-c", "\n".join(lines)], cwd=self.folder / folder_of(part.page),
                  seconds=seconds, extra=self.environment())
        statuses = [int(word) for word in told.read_text().split()]
        assert len(statuses) == len(commands), f"{part.place}: {ran.errors}"
        return Result(ran, dict(zip(commands, statuses)))

    def environment(self) -> dict[str, str]:
        """The variables of the commands."""
        found = variables(pathlib.Path(self.prefix))
        return {**found, "PATH": self.path, "PYTHONPATH": "", "TOMBOLOPAN_BUILT": ""}


def copy_with_programs(folder: pathlib.Path, prefix: str, *programs: pathlib.Path) -> Copy:
    """A copy that was made in a folder, with these programs built."""
    stub = make_stub(folder / "stub", "rt",
                     TOOLCHAIN.format(rt=shlex.quote(shutil.which("rt") or "false")))
    for program in programs:
        (folder / "stub" / program.name).symlink_to(program)
        link_built(folder, program)
    at_home = pathlib.Path.home() / ".cargo" / "bin"
    return Copy(folder, prefix, f"{stub['PATH']}:{at_home}")
