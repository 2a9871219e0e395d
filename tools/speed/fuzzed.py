#!/usr/bin/env python3
"""What a step of a tenant costs that is fuzzed, beside the same run alone.

    fuzzed.py [OPTION...] IMAGE INPUT
    fuzzed.py [OPTION...] --real NAME

IMAGE yields where its snapshot is to be taken (docs/FUZZING.md); with `--setup 0` it is taken at
its first instruction. `--real` takes a program of measure.py and the input of its short run, or one
round of `--bytes N`, with its snapshot there. By callgrind, instructions of the machine for each
step of the tenant behind its snapshot: a run alone by each `--host` (a built mte_host) and by the
library (tb_alone), and runs from the snapshot (tb_fuzz_run), with their edges counted and with what
restores the machine, also with what is compared entered and told (COMPARE=1). They are counted when
the table of instructions, which stays from run to run, has grown.

    --library FILE   libtombolopan_c.a (crates/tombolopan_c/out)
    --host FILE      a built mte_host; may come again
    --setup N        how many steps the setup may take (1000000)
    --pages N        the reservation (256; of --real 2000)
    --time R N       times R rounds of N runs in place of counting: nanoseconds of processor time
    --work FOLDER    keeps the sources of --real there
    --bytes N        the size of the input of --real

Needed (Debian): clang, valgrind, and what measure.py says for --real.
"""
import argparse
import os
import pathlib
import re
import subprocess
import tempfile

import real_programs
from commands import SLICE, Command, instructions, leave, need_hosts, run_tool

HERE = pathlib.Path(__file__).resolve().parent
ROOT = HERE.parents[1]
FUZZ = ROOT / "examples/fuzz"
LIBRARY = ROOT / "crates/tombolopan_c/out/libtombolopan_c.a"
STEPS = 0xFFFFFFFF
SLICES = 100
# Before the runs that are counted the table of instructions has grown, in this many steps.
GROWN = 1_100_000


def build(library: pathlib.Path, work: pathlib.Path, name: str, *more: pathlib.Path) -> str:
    """A program of this folder over the library."""
    page = subprocess.run(["rt", "doc"], stdout=subprocess.PIPE, text=True, check=True).stdout
    heap = pathlib.Path(page.splitlines()[0]).resolve().parent / "c/liblibc_c.a"
    out = work / name
    run_tool(["clang", "-O2", f"-I{ROOT}/include", f"-I{FUZZ}", "-o", out, HERE / f"{name}.c",
              *more, library, heap])
    return str(out)


class Run:
    """A tenant, its input, and how it is run."""

    def __init__(self, options: argparse.Namespace, work: pathlib.Path) -> None:
        self.image, self.data = options.image, options.input
        self.setup, self.pages, self.work = options.setup, options.pages, work
        parts = (FUZZ / f"{name}.c" for name in ("kept_tenant", "compared"))
        self.fuzz = build(options.library, work, "fuzz_runs", *parts)
        self.alone = build(options.library, work, "alone_run")
        # Variables and no command `env`, which callgrind would count in its child's place.
        os.environ.update(TENANT=str(self.image), SETUP=str(self.setup), PAGES=str(self.pages),
                          STEPS=str(STEPS))

    def fuzzed(self, rounds: int, runs: int) -> Command:
        """The command of runs from the snapshot."""
        return [self.fuzz, self.data, str(rounds), str(runs)]

    def plain(self, steps: int) -> Command:
        """The command of a run alone, by the library."""
        return [self.alone, self.image, self.data, str(self.setup), str(steps), str(self.pages)]

    def session(self, host: str, has_run: bool) -> Command:
        """The command of a session with the setup, and the run if it is to be there."""
        path = self.work / f"script.{has_run}"
        admit = "admit 1 image 1 input 2 seed 0000000000000001 frames {} out 65536\n"
        slices = SLICES * has_run + (self.setup > 0)
        path.write_text(admit.format(self.pages) + f"slice 1 {SLICE}\n" * slices)
        return [host, "--frames", str(2 * self.pages + 1), path, self.image, self.data]


def said(command: Command) -> dict[str, float]:
    """The numbers that a program tells by name."""
    told = subprocess.run(command, stdout=subprocess.PIPE, text=True, check=True).stdout
    return {name: float(number) for name, number in re.findall(r"(\w+) ([\d.]+)", told)}


def times(run: Run, rounds: int, runs: int) -> None:
    """Prints what a run takes."""
    found = said(run.fuzzed(rounds, runs))
    each = found["median"]
    print(f"{found['steps']:.0f} steps, {found['edges']:.0f} counts: {each:.0f} ns a run (the "
          f"least {found['least']:.0f}), {1e9 / each:.0f} a second, {each / found['steps']:.2f} ns "
          f"a step; at most {found['first']:.0f} KiB after a round, {found['last']:.0f} at the end")


def counts(run: Run, hosts: list[str]) -> None:
    """Prints the instructions of a step."""
    steps = int(said(run.fuzzed(1, 1))["steps"])
    whole = int(said(run.plain(STEPS))["steps"])
    if whole - int(said(run.plain(0))["steps"]) != steps:
        leave("the run alone has other steps")
    plain = {host: instructions(run.session(host, True)) - instructions(run.session(host, False))
             for host in hosts}
    plain["the library"] = instructions(run.plain(STEPS)) - instructions(run.plain(0))
    print(f"{steps} steps, {whole - steps} before them")
    for who, count in plain.items():
        print(f"  alone, {who}: {count / steps:.2f} instructions a step", flush=True)
    before, more = -(-GROWN // steps), max(1, GROWN // steps)
    each = {}
    for compared in ("0", "1"):
        os.environ["COMPARE"] = compared
        few, many = (instructions(run.fuzzed(1, it)) for it in (before, before + more))
        each[compared] = (many - few) / more
    print(f"  with edges and restores: {each['0'] / steps:.2f} instructions a step")
    for who, count in plain.items():
        print(f"    {each['0'] / count:.3f} times that of {who}")
    print(f"  with what is compared: {each['1'] / steps:.2f} instructions a step")
    print(f"    {each['1'] / each['0']:.3f} times that with edges")


def real(options: argparse.Namespace, work: pathlib.Path) -> None:
    """Makes the options those of a program of measure.py."""
    sources = real_programs.fetch_sources([options.real], options.work or work / "source")
    if options.real not in sources:
        leave("there is no source")
    builder = real_programs.Builder(None, sources, work)
    options.image = builder.tenant(options.real)
    run = real_programs.PROGRAMS[options.real].short if options.bytes is None else (
        1, options.bytes)
    options.input = real_programs.make_input(work, options.real, run)
    options.setup, options.pages = 0, real_programs.PAGES


def main() -> None:
    """The command line."""
    parser = argparse.ArgumentParser(usage=__doc__)
    parser.add_argument("image", nargs="?", type=pathlib.Path)
    parser.add_argument("input", nargs="?", type=pathlib.Path)
    parser.add_argument("--real", choices=sorted(set(real_programs.PROGRAMS) - {"lua"}))
    parser.add_argument("--bytes", type=int)
    parser.add_argument("--library", type=pathlib.Path, default=LIBRARY)
    parser.add_argument("--host", action="append", default=[])
    parser.add_argument("--setup", type=int, default=1000000)
    parser.add_argument("--pages", type=int, default=256)
    parser.add_argument("--time", nargs=2, type=int)
    parser.add_argument("--work", type=pathlib.Path)
    options = parser.parse_args()
    need_hosts(options.host)
    if not options.real and not options.input:
        parser.error("an IMAGE and its INPUT, or --real")
    with tempfile.TemporaryDirectory() as name:
        work = pathlib.Path(name)
        if options.real:
            real(options, work)
        run = Run(options, work)
        if options.time:
            times(run, *options.time)
        else:
            counts(run, options.host)


if __name__ == "__main__":
    main()
