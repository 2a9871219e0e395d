"""Runs of commands and what they cost, for the scripts of this folder."""
import argparse
import os
import pathlib
import re
import resource
import shutil
import subprocess
import sys
from collections.abc import Iterable, Mapping, Sequence
from typing import NoReturn, Optional, Union

# The words of a command.
Command = Sequence[Union[str, pathlib.Path]]
# The most steps of a slice.
SLICE = 1048576


def leave(text: str) -> NoReturn:
    print(f"{pathlib.Path(sys.argv[0]).name}: {text}", file=sys.stderr)
    sys.exit(2)


def need_tools(tools: Mapping[str, str]) -> None:
    """Ends unless all tools are there, which are given with their Debian packages."""
    for tool, package in tools.items():
        if not shutil.which(tool):
            leave(f"{tool} is not there (Debian: {package})")


def need_hosts(hosts: Iterable[str]) -> None:
    """Ends unless all hosts are there."""
    for host in hosts:
        if not os.access(host, os.X_OK):
            leave(f"{host} is not there: build it by rt run in crates/mte_host")


def need_outside(folder: pathlib.Path) -> None:
    """Ends where a folder is in the repository."""
    folder = folder.resolve()
    if pathlib.Path(__file__).resolve().parents[2] in [folder, *folder.parents]:
        leave(f"{folder} is in the repository")


def parse_hosts(parser: argparse.ArgumentParser) -> argparse.Namespace:
    """The options with those of a measurement of hosts: a folder for its work outside the
    repository, and hosts that are there."""
    parser.add_argument("--work", metavar="FOLDER", type=pathlib.Path)
    parser.add_argument("hosts", metavar="HOST", nargs="+")
    options = parser.parse_args()
    need_hosts(options.hosts)
    if options.work:
        need_outside(options.work)
    return options


def run_tool(command: Command) -> None:
    """Runs a tool, and ends with what it says where it fails."""
    ran = subprocess.run(command, stdout=subprocess.PIPE, stderr=subprocess.STDOUT, text=True)
    if ran.returncode:
        leave(f"{' '.join(map(str, command))}\n{ran.stdout}")


def version(command: str) -> str:
    ran = subprocess.run([command, "--version"], stdout=subprocess.PIPE, text=True)
    return ran.stdout.partition("\n")[0]


def user_time(command: Command, times: int, stdin: Optional[pathlib.Path] = None,
              ) -> tuple[float, str]:
    """Nanoseconds of user time of a run, the mean of so many, and what the last one wrote."""
    before = resource.getrusage(resource.RUSAGE_CHILDREN).ru_utime
    wrote = b""
    for _ in range(times):
        with open(stdin or os.devnull, "rb") as file:
            wrote = subprocess.run(command, stdin=file, stdout=subprocess.PIPE, check=True).stdout
    spent = resource.getrusage(resource.RUSAGE_CHILDREN).ru_utime - before
    return spent * 1e9 / times, wrote.decode()


def number_in(pattern: str, text: str) -> int:
    """The number that a pattern finds in a text."""
    found = re.search(pattern, text, re.M)
    if found is None:
        leave(f"nothing is {pattern} in:\n{text}")
    return int(found[1].replace(",", ""))


def instructions(command: Command) -> int:
    """Instructions of a run under callgrind."""
    run = subprocess.run(
        ["valgrind", "--tool=callgrind", "--callgrind-out-file=/dev/null", *command],
        stdout=subprocess.DEVNULL, stderr=subprocess.PIPE, text=True, check=True,
    )
    return number_in(r"Collected : (\d+)", run.stderr)
