"""Watched runs, for `--watched`: each HOST is a built mte_run. The real programs run as tenants of
each, plain and with --statistics, --profile, --exact, each kind of --check, all kinds, given up
shortly before their end (two runs then), and under --gdb with a watchpoint that is never met; and
as programs of this machine, alone, under AddressSanitizer, memcheck and callgrind. A figure is the
best user time of a whole run less the best of a start, in seconds and as a ratio to a plain run.
With `--ir` it has the host's instructions a step of a short run less a start, but for --gdb.
"""
import json
import resource
import subprocess
from argparse import Namespace
from pathlib import Path

from commands import Command, number_in
from real_programs import PAGES, PROGRAMS, START, Builder, Run, make_input

KINDS = ("provenance", "frees", "leaks", "undefined", "arithmetic", "places")
ASKED = ["", "--statistics", "--profile=/dev/null", "--exact",
         *(f"--check={kind}" for kind in KINDS), "--check", "--check=all,places"]
GIVEN_UP, GDB = "given up", "--gdb"
# A watchpoint where nothing is, and on to the exit.
PACKETS = ("Z2,100,8", "vCont;c", "k")
# The steps that are left where a run is given up.
LEFT = 10_000
MOST = 10 ** 12


# A run over the whole input, and one over next to nothing.
Ways = dict[str, tuple[Command, Command]]


def seconds(command: Command, data: Path) -> float:
    """User time of a run. A finding, or a run that is given up, is no failure here."""
    before = resource.getrusage(resource.RUSAGE_CHILDREN).ru_utime
    with open(data, "rb") as file:
        subprocess.run(command, stdin=file, stdout=subprocess.DEVNULL, stderr=subprocess.DEVNULL)
    return resource.getrusage(resource.RUSAGE_CHILDREN).ru_utime - before


def instructions(command: Command) -> int:
    """Instructions of a run under callgrind."""
    run = subprocess.run(
        ["valgrind", "--tool=callgrind", "--callgrind-out-file=/dev/null", *command],
        stdin=subprocess.DEVNULL, stdout=subprocess.DEVNULL, stderr=subprocess.PIPE, text=True,
    )
    return number_in(r"Collected : (\d+)", run.stderr)


def steps_of(runner: str, work: Path, image: Path, data: Path) -> int:
    """The steps of a plain run, which has to come to its end with status 0."""
    report = work / "watched.json"
    words: Command = [runner, "--pages", str(PAGES), "--steps", str(MOST), "--json", report,
                      "--input", data, image]
    subprocess.run(words, stdout=subprocess.DEVNULL, check=True)
    steps: int = json.loads(report.read_text())["steps"]
    return steps


def packet(text: str) -> str:
    """A packet of GDB's remote protocol, after what acknowledges the one before."""
    return f"+${text}#{sum(text.encode()) % 256:02x}"


def command(runner: str, asked: str, image: Path, data: Path, steps: int) -> Command:
    """A run with an option, or one that is given up."""
    words = [] if asked in ("", GIVEN_UP) else [asked]
    most = max(steps - LEFT, 1) if asked == GIVEN_UP else MOST
    return [runner, *words, "--pages", str(PAGES), "--steps", str(most), "--input", data, image]


class Watched:
    """One program and input: a whole run, and a start that is taken off."""

    def __init__(self, name: str, builder: Builder, image: Path, run: Run) -> None:
        self.name, self.builder, self.image = name, builder, image
        start = START if run[1] else (0, 0)
        self.data = [make_input(builder.work, name, it) for it in (run, start)]
        self.packets = builder.work / "packets"
        self.packets.write_text("".join(packet(it) for it in PACKETS))

    def best(self, ways: Ways, turns: int) -> dict[str, float]:
        """Seconds of user time of each, without the start."""
        found: dict[tuple[str, int], float] = {}
        for who, kind in [(who, kind) for who in ways for kind in (0, 1)] * turns:
            time = seconds(ways[who][kind], self.packets if who == GDB else self.data[kind])
            found[who, kind] = min(time, found.get((who, kind), time))
        return {who: found[who, 0] - found[who, 1] for who in ways}

    def ways_of(self, runner: str) -> tuple[Ways, int]:
        """The runs by one mte_run, with the steps between them."""
        steps = [steps_of(runner, self.builder.work, self.image, it) for it in self.data]
        ways: Ways = {}
        for asked in [*ASKED, GIVEN_UP, GDB]:
            whole, start = [command(runner, asked, self.image, data, count)
                            for data, count in zip(self.data, steps)]
            ways[asked] = whole, start
        return ways, steps[0] - steps[1]

    def natives(self) -> Ways:
        """The programs of this machine."""
        commands = self.builder.natives(self.name)
        alone = commands["native"][0]
        commands["callgrind"] = ["valgrind", "-q", "--tool=callgrind",
                                 "--callgrind-out-file=/dev/null", alone]
        return {who: (words, words) for who, words in commands.items()}


def show_times(watched: Watched, runner: str, rounds: int) -> None:
    """The seconds of each way, compared with a plain run."""
    ways, steps = watched.ways_of(runner)
    found = watched.best({**ways, **watched.natives()}, rounds)
    print(f"{watched.data[0].name}: {steps / 1e6:.1f} million steps, {runner}")
    for who, time in found.items():
        print(f"  {who or 'plain':22}{time:8.3f} s {time / found['']:7.2f} times", flush=True)


def show_instructions(watched: Watched, runner: str) -> None:
    """The instructions a step of each watched run."""
    ways, steps = watched.ways_of(runner)
    print(f"{watched.data[0].name}: {steps / 1e6:.1f} million steps, {runner}")
    for who, (whole, start) in ways.items():
        if who == GDB:
            continue
        spent = (instructions(whole) - instructions(start)) / steps
        print(f"  {who or 'plain':22}{spent:8.1f} instructions a step", flush=True)


def measure_program(name: str, builder: Builder, _heap: list[Path], options: Namespace) -> None:
    """The lines of a program."""
    image, program = builder.tenant(name), PROGRAMS[name]
    for runner in options.hosts:
        if options.ir:
            show_instructions(Watched(name, builder, image, program.short), runner)
        else:
            for run in program.whole:
                show_times(Watched(name, builder, image, run), runner, options.rounds)
