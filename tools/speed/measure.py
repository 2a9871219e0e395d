#!/usr/bin/env python3
"""How long a step of a tenant takes.

    measure.py [--ir] [--qemu] [--unicorn] [--rounds N] HOST...
    measure.py --real [--ir] [--scudo] [--native] [--only NAME] [--work FOLDER] [--rounds N] HOST...
    measure.py --watched [--ir] [--only NAME] [--work FOLDER] [--rounds N] HOST...

Each HOST is a built mte_host. All of them run the same tenants in turns, N times (5), and each
workload's line has the best user time of each in nanoseconds a step, the time of a start with a
short session taken off. `--ir` counts host instructions a step under callgrind instead. `--qemu`
adds, for the first three, what `qemu-aarch64` takes for the same instructions as a Linux program,
whose pages have PROT_MTE; the two that end its round count as well. `--unicorn` adds, for `alu` and
`mix`, what Unicorn takes for the same image, which compares no tags: with its own count of steps,
and with a hook on each instruction or on each block.

Workloads: `alu`, a loop of 16 instructions between registers; `memory`, one of 16 with 4 loads and
4 stores through tagged pointers; `offsets`, one of 9 with a load and a store at register offsets
over 64 KiB through a tagged pointer, the loads one after the other and each store on another page
than the one before; `mix`, compiled code (SHA-256, heap sort, search, CRC, a tree), again and
again; `svc18` and `svc243`, a service each 18 and each 243 steps; `slices16`, `alu` in slices of 16
steps.

REAL

WATCHED

Needed (Debian): clang, lld; valgrind for `--ir`; qemu-user and gcc-aarch64-linux-gnu for `--qemu`;
libunicorn-dev for `--unicorn`;
for `--real` all of them, libc6-dev-arm64-cross, libc6-dev and what apt-get needs to fetch sources.
"""
import argparse
import pathlib
import subprocess
import sys
import tempfile
from collections.abc import Sequence

import real_programs
import watched
from commands import SLICE, Command, instructions, parse_hosts, run_tool, user_time

HERE = pathlib.Path(__file__).resolve().parent
sys.path.insert(0, str(HERE.parents[1] / "examples"))
from build_image import image  # noqa: E402

# Name, image, slices of a long and of a short session, steps of a slice.
Workload = tuple[str, bytes, int, int, int]
# The commands of a long and of a short run, and the steps between them.
Runs = tuple[list[Command], int]

CONSTANTS = [0xD2800060, 0xD299BDE1, 0xF2B13561, 0xF2C8ACE1, 0xF2E02461]
REGISTERS = [
    0x8B010000, 0xCB030002, 0xCA001C44, 0xD343FC85, 0xAA0100A6, 0x91048CC7, 0x92403CE8, 0xD37BE909,
    0xEB02012A, 0x93CA254B, 0x8A24016C, 0x8B25498D, 0xCA0001A1, 0xD1000463, 0x9342FC6E,
]
STACK = [
    0xD2980000, 0xF2A7FFE0, 0x91801400, 0xAA0003E2, 0xD2802003, 0xD9E02442, 0xD1000463, 0xB5FFFFC3,
    0x91400401, 0xD2800003,
]
ACCESSES = [
    0xF9400002, 0x8B020063, 0xF9000403, 0xCA020064, 0xF9400825, 0xCB0400A6, 0xF9000C26, 0xD345FCC7,
    0xF9440008, 0x8B070109, 0xF9040809, 0xAA03012A, 0xF947F82B, 0x91001D6C, 0xF907FC2C,
]
TAGGED_BYTES = 0x800000, 0x10000
TAGS = [0xD2A01000, 0xF2E0A000, 0xAA0003E2, 0xD2820003, 0xD9201442, 0xD1000463, 0xB5FFFFC3]
INDICES = [0xD2800001, 0xD2800002, 0xD2800003, 0xD2820106]
OFFSETS = [0xF8616804, 0x8B040063, 0xF8226803, 0xCA040065, 0x91002021, 0x927D3021, 0x8B060042,
           0x927D3042]
PAGES_LEFT = [0xD2800168, 0xD4000001]
# The Linux programs' loops, which count in place of the tenant's branch: instructions of a round,
# and rounds.
LINUX_LOOPS = {"alu": (17, 40_000_000), "memory": (17, 2_000_000), "offsets": (10, 8_000_000)}
FEW_ROUNDS = 100_000
# The workloads that Unicorn runs, what counts its steps, and how many it runs.
UNICORN_LOOPS = {"alu", "mix"}
UNICORN_COUNTS = ("count", "instructions", "blocks")
UNICORN_STEPS = 50_000_000, 1_000_000


def loop(start: list[int], body: list[int], data: Sequence[tuple[int, int]] = ()) -> bytes:
    """An image: `start`, and then `body` for ever; `data` are further segments."""
    back = 0x14000000 | (-len(body) & 0x3FFFFFF)
    return image(start + body + [back], data)


def mix(work: pathlib.Path) -> bytes:
    """The image of the compiled mix, by clang."""
    out = work / "mix.elf"
    subprocess.run(
        ["clang", "--target=aarch64-linux-gnu", "-fuse-ld=lld", "-O2", "-ffreestanding",
         "-nostdlib", "-static", "-mgeneral-regs-only", "-fno-builtin", "-o", out,
         HERE / "mix_loop.c"],
        check=True,
    )
    return out.read_bytes()


def script(slices: int, steps: int) -> str:
    admit = "admit 1 image 1 input 0 seed 0000000000000001 frames 64 out 16\n"
    return admit + f"slice 1 {steps}\n" * slices


def workloads(work: pathlib.Path) -> list[Workload]:
    """The workloads."""
    alu = loop(CONSTANTS, REGISTERS)
    return [
        ("alu", alu, 33, 1, SLICE),
        ("memory", loop(STACK, ACCESSES), 33, 1, SLICE),
        ("offsets", loop(TAGS + INDICES, OFFSETS, [TAGGED_BYTES]), 33, 1, SLICE),
        ("mix", mix(work), 33, 1, SLICE),
        ("svc18", loop(CONSTANTS, REGISTERS + PAGES_LEFT), 17, 1, SLICE),
        ("svc243", loop(CONSTANTS, REGISTERS * 16 + PAGES_LEFT), 17, 1, SLICE),
        ("slices16", alu, 9900, 100, 16),
    ]


def session(host: str, work: pathlib.Path, name: str, slices: int) -> Command:
    return [host, "--frames", "129", work / f"{name}.{slices}", work / f"{name}.image"]


def qemu(work: pathlib.Path, name: str) -> Runs:
    """The runs of a loop as a Linux program."""
    commands: list[Command] = []
    steps, many = LINUX_LOOPS[name]
    for rounds in (many, FEW_ROUNDS):
        out = work / f"loop.{name}.{rounds}"
        subprocess.run(
            ["aarch64-linux-gnu-gcc", "-nostdlib", "-static", f"-DROUNDS={rounds}",
             f"-D{name.upper()}", "-o", out, HERE / "linux_loops.S"],
            check=True,
        )
        commands.append(["qemu-aarch64", "-cpu", "max", out])
    return commands, (many - FEW_ROUNDS) * steps


def unicorn(work: pathlib.Path, name: str) -> dict[str, Runs]:
    """The runs of a workload in Unicorn, by what counts its steps."""
    out = work / "unicorn_loops"
    run_tool(["clang", "-O2", "-o", out, HERE / "unicorn_loops.c", "-lunicorn"])
    many, few = UNICORN_STEPS
    return {
        f"Unicorn, {how}": ([[out, work / f"{name}.image", str(steps), how]
                             for steps in UNICORN_STEPS], many - few)
        for how in UNICORN_COUNTS
    }


def sessions(hosts: list[str], work: pathlib.Path, name: str, counts: tuple[int, int],
             steps: int) -> dict[str, Runs]:
    """The runs of the sessions of each host, by its path."""
    for slices in counts:
        (work / f"{name}.{slices}").write_text(script(slices, steps))
    many, few = counts
    return {
        host: ([session(host, work, name, slices) for slices in counts], (many - few) * steps)
        for host in hosts
    }


def costs(options: argparse.Namespace, runs: dict[str, Runs], times: int) -> dict[str, float]:
    """What a step of each run costs: the best long run less the best short one, taken in turns."""
    best: dict[tuple[str, int], float] = {}
    each = [(who, kind, command) for who, (commands, _) in runs.items()
            for kind, command in enumerate(commands)]
    for who, kind, command in each * (1 if options.ir else options.rounds):
        cost = instructions(command) if options.ir else user_time(command, times)[0]
        best[who, kind] = min(cost, best.get((who, kind), cost))
    return {who: (best[who, 0] - best[who, 1]) / count for who, (_, count) in runs.items()}


def measure_loops(options: argparse.Namespace, work: pathlib.Path) -> None:
    unit = "instructions" if options.ir else "ns"
    for name, body, many, few, steps in workloads(work):
        if options.ir and many < 1000:
            many = 3
        (work / f"{name}.image").write_bytes(body)
        runs = sessions(options.hosts, work, name, (many, few), steps)
        if options.qemu and not options.ir and name in LINUX_LOOPS:
            runs["qemu"] = qemu(work, name)
        if options.unicorn and not options.ir and name in UNICORN_LOOPS:
            runs.update(unicorn(work, name))
        times = 50 if steps < SLICE else 1  # a session has at most 10,000 events
        found = costs(options, runs, times).items()
        line = "  ".join(f"{who}: {cost:.2f} {unit}" for who, cost in found)
        print(f"{name:9}{line}", flush=True)


def arguments() -> argparse.Namespace:
    text = (__doc__ or "").replace("REAL\n", real_programs.__doc__ or "")
    text = text.replace("WATCHED\n", watched.__doc__ or "")
    parser = argparse.ArgumentParser(description=text,
                                     formatter_class=argparse.RawDescriptionHelpFormatter)
    parser.add_argument("--ir", action="store_true")
    parser.add_argument("--qemu", action="store_true")
    parser.add_argument("--unicorn", action="store_true")
    parser.add_argument("--rounds", type=int, default=5)
    parser.add_argument("--real", action="store_true")
    parser.add_argument("--watched", action="store_true")
    parser.add_argument("--scudo", action="store_true")
    parser.add_argument("--native", action="store_true")
    parser.add_argument("--only", choices=real_programs.PROGRAMS)
    return parse_hosts(parser)


def main() -> None:
    options = arguments()
    with tempfile.TemporaryDirectory() as name:
        work = pathlib.Path(name)
        if options.watched:
            real_programs.measure(options, work, watched.measure_program)
        elif options.real:
            real_programs.measure(options, work, real_programs.measure_program)
        else:
            measure_loops(options, work)


if __name__ == "__main__":
    main()
