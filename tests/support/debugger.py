"""GDB over the tenants that `mte_run --gdb` runs: a dialog, what each of its commands printed."""

import pathlib
import re
import shlex
from collections.abc import Sequence
from dataclasses import dataclass

from tests.support.places import EXAMPLES
from tests.support.running import HANG, run
from tests.support.tools import need

GDB = "gdb-multiarch"
QUIET = ("set pagination off", "set style enabled off", "set confirm off", "set width 0",
         "set sysroot")
MARK = "@@"


@dataclass(frozen=True)
class Dialog:
    """What GDB printed behind each command, as lines; `first` is what it printed on connecting."""

    first: str
    answers: list[str]

    def __getitem__(self, number: int) -> str:
        return self.answers[number]


def gdb(words: Sequence[str], cwd: pathlib.Path, seconds: float = HANG) -> str:
    """What GDB prints, standard error among it; it reads no file of the user's."""
    need(GDB)
    before = [part for it in QUIET for part in ("-iex", it)]
    shell = 'exec "$@" 2>&1'
    ran = run(["bash", "-c", shell, "gdb", GDB, "-nx", "-batch", *before, *words], cwd=cwd,
              seconds=seconds, extra={"LC_ALL": "C", "HOME": str(cwd)})
    assert ran.status in (0, 1), ran.output
    return ran.output


def target(program: pathlib.Path, options: Sequence[str], kind: str = "remote") -> str:
    """The command that connects GDB to a front; of the kind `extended-remote` it runs it too."""
    words = " ".join(shlex.quote(it) for it in (str(program), "--gdb", *options))
    return f"target {kind} | {words}"


def asked(words: Sequence[str], commands: Sequence[str], cwd: pathlib.Path) -> Dialog:
    """What GDB prints of commands, behind what it prints at first."""
    more: list[str] = []
    for number, command in enumerate(commands):
        more += ["-ex", f"echo \\n{MARK}{number}\\n", "-ex", command]
    parts = re.split(rf"\n?{MARK}\d+\n", gdb([*words, *more], cwd))
    assert len(parts) == len(commands) + 1, parts
    return Dialog(parts[0], parts[1:])


def debugged(program: pathlib.Path, image: bytes, commands: Sequence[str], cwd: pathlib.Path,
             options: Sequence[str] = ()) -> Dialog:
    """A dialog over a tenant of an image, with options of mte_run."""
    (cwd / "tenant.elf").write_bytes(image)
    words = ["-ex", target(program, [*options, "tenant.elf"])]
    return asked(words, commands, cwd)


def extended(alone: pathlib.Path, image: bytes, commands: Sequence[str],
             folder: pathlib.Path) -> Dialog:
    """A dialog over a tenant that GDB may run anew, with the settings of examples/gdb."""
    (folder / "tenant.elf").write_bytes(image)
    words = ["-x", str(EXAMPLES / "gdb" / "tenant.gdb"),
             "-ex", target(alone, ["tenant.elf"], "extended-remote")]
    return asked(words, commands, folder)


def numbers_in(text: str) -> dict[str, int]:
    """The registers that `info registers` printed, by name."""
    rows = re.findall(r"^(\w+) +0x([0-9a-f]+)", text, re.M)
    return {name: int(value, 16) for name, value in rows}


def value_in(text: str) -> int:
    """The number that `print` printed."""
    found = re.search(r"= .*?(-?0x[0-9a-f]+|-?\d+)\s*(?:<.*>|\".*\")?\s*\Z", text)
    assert found, text
    return int(found[1], 0)
