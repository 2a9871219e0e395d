#!/usr/bin/env python3
"""How long a pair of malloc and free takes, beside other heaps.

    heap_anchors.py [--turns N] [--work FOLDER] HOST...

Each HOST is a built mte_host. The same loop runs as a tenant of each, as a Linux program on LLVM's
own Scudo with memory tagging (FEAT_MTE) under `qemu-aarch64 -cpu max`, and on this machine's C
library, in turns, N times (5). A figure is the best user time of a long run less that of a short
one, in nanoseconds a round: the calls, and the few instructions of the loop. Behind it, what each
HOST takes as a multiple of Scudo and of the C library.

Scudo is the one of Debian's source package llvm-toolchain-14 (130 MB), which apt-get fetches from
where apt's own configuration says; nothing is installed, and the system's own lists of packages
stay as they are. FOLDER, outside the repository, keeps it for the next time (a temporary one).
Where it can't be fetched, the rest is measured. The program on Scudo is refused unless its pointers
have tags and a read of a freed chunk ends it.

Needed (Debian): clang, lld, gcc-aarch64-linux-gnu, qemu-user, libc6-dev, tar, xz-utils.
"""
import argparse
import os
import pathlib
import platform
import subprocess
import tempfile

import scudo
from commands import (
    SLICE, Command, leave, need_tools, parse_hosts, run_tool, user_time, version,
)

HERE = pathlib.Path(__file__).resolve().parent
TENANTS = HERE.parents[1] / "examples" / "c"
TOOLS = {**scudo.TOOLS, "ld.lld": "lld"}
TENANT = [*scudo.AARCH64, "-fuse-ld=lld", "-ffreestanding", "-nostdlib", "-static",
          "-mgeneral-regs-only"]
# A call of the heap is HEAP(name): an own name for each heap, so that a compiler knows none of
# them.
CALLS = {
    "malloc(24), free": "p = HEAP(malloc)(24);",
    "malloc(1024), free": "p = HEAP(malloc)(1024);",
    "calloc(3, 8), free": "p = HEAP(calloc)(3, 8);",
    "malloc(24), realloc(200), free":
        "p = HEAP(malloc)(24); first = (uintptr_t)p; p = HEAP(realloc)(p, 200);",
}
# `q` lies behind the chunk that each round takes first, so that a reallocation moves in every heap;
# status 3 says that it did not. The empty assembly keeps the calls: it may read and write p and
# what it points to.
LOOP = """
int main(void)
{
    void *p = HEAP(malloc)(24), *q = HEAP(malloc)(24);
    uintptr_t first = 0;
    HEAP(free)(p);
    for (unsigned long i = 0; i < ROUNDS; i++) {
        %s
        __asm__ volatile("" : "+r"(p), "+r"(q), "+r"(first) :: "memory");
        HEAP(free)(p);
    }
    return (uintptr_t)p == first ? 3 : 0;
}
"""
PREAMBLES = {
    "tenant": '#include "tenant.h"\n#define HEAP(name) tenant_##name\n',
    "scudo": scudo.DECLARATIONS + "#define HEAP(name) scudo_##name\n",
    "libc": "#include <stdint.h>\n#include <stdlib.h>\n#define HEAP(name) name\n",
}
# Rounds of a short and of a long run.
ROUNDS = {"tenant": (100_000, 5_000_000), "scudo": (100_000, 3_000_000),
          "libc": (1_000_000, 30_000_000)}

Paths = list[pathlib.Path]
Subject = tuple[str, str]  # a kind, and a name: of a tenant its host
Run = tuple[Subject, int]  # with the number of rounds


def build_program(kind: str, text: str, rounds: int, objects: Paths, out: pathlib.Path) -> None:
    """A program over the heap of a kind: a tenant, a Linux program on Scudo's objects, one of this
    machine."""
    source, flags = out.with_suffix(".c"), ["-fno-builtin", f"-DROUNDS={rounds}UL"]
    source.write_text(PREAMBLES[kind] + text)
    if kind == "tenant":
        run_tool(["clang", *TENANT, *flags, f"-I{TENANTS}", "-o", out, TENANTS / "start.c", source])
    elif kind == "scudo":
        part = out.with_suffix(".o")
        run_tool(["clang", *scudo.AARCH64, *flags, *scudo.HEADERS, "-c", "-o", part, source])
        scudo.link([part, *objects], out)
    else:
        run_tool(["clang", "-O2", *flags, "-o", out, source])


def run_command(subject: Subject, program: pathlib.Path, rounds: int,
                work: pathlib.Path) -> Command:
    """The command that runs a program of a kind, a tenant in the host of that name."""
    kind, name = subject
    if kind == "libc":
        return [program]
    if kind == "scudo":
        return scudo.command(program)
    session = work / f"script.{rounds}"
    admit = "admit 1 image 1 input 0 seed 0000000000000001 frames 300 out 16\n"
    session.write_text(admit + f"slice 1 {SLICE}\n" * (rounds * 20 // SLICE + 1))
    return [name, "--frames", "601", session, program]


def check_run(kind: str, command: Command) -> None:
    """Ends unless the program comes to its end with status 0."""
    ran = subprocess.run(command, stdout=subprocess.PIPE, text=True)
    if ran.returncode or kind == "tenant" and "\nstatus exit 0\n" not in ran.stdout:
        leave(f"{' '.join(map(str, command))}: status {ran.returncode}\n{ran.stdout}")


def prepare(text: str, subjects: list[Subject], objects: Paths,
            work: pathlib.Path) -> dict[Run, Command]:
    """The command of each subject and number of rounds."""
    for kind, rounds in {(kind, rounds) for kind, _ in subjects for rounds in ROUNDS[kind]}:
        build_program(kind, text, rounds, objects, work / f"{kind}.{rounds}")
    commands: dict[Run, Command] = {}
    for subject, rounds in [(it, rounds) for it in subjects for rounds in ROUNDS[it[0]]]:
        command = run_command(subject, work / f"{subject[0]}.{rounds}", rounds, work)
        check_run(subject[0], command)
        commands[subject, rounds] = command
    return commands


def measure(commands: dict[Run, Command], subjects: list[Subject],
            turns: int) -> dict[Subject, float]:
    """Nanoseconds a round of each subject."""
    best = dict.fromkeys(commands, float("inf"))
    for _ in range(turns):
        for run, command in commands.items():
            best[run] = min(user_time(command, 1)[0], best[run])
    figures = {}
    for subject in subjects:
        few, many = ROUNDS[subject[0]]
        figures[subject] = (best[subject, many] - best[subject, few]) / (many - few)
    return figures


def show(call: str, figures: dict[Subject, float]) -> None:
    """A line of a call's figures, and one for each host of what it takes as a multiple of each
    other heap."""
    figures_of_all = (f"{name}: {each:.1f} ns" for (_, name), each in figures.items())
    print(f"{call:32}" + "  ".join(figures_of_all), flush=True)
    others = {name: each for (kind, name), each in figures.items() if kind != "tenant"}
    for (kind, host), each in figures.items():
        if kind == "tenant":
            multiples = (f"{host} / {name}: {each / other:.2f}"
                         for name, other in others.items())
            print(" " * 32 + "  ".join(multiples), flush=True)


def arguments() -> argparse.Namespace:
    parser = argparse.ArgumentParser(description=__doc__,
                                     formatter_class=argparse.RawDescriptionHelpFormatter)
    parser.add_argument("--turns", type=int, default=5)
    options = parse_hosts(parser)
    need_tools(TOOLS)
    return options


def main() -> None:
    options = arguments()
    for name in ("SCUDO_OPTIONS", "GLIBC_TUNABLES", "LD_PRELOAD"):
        os.environ.pop(name, None)
    subjects = [("tenant", host) for host in options.hosts]
    objects: Paths = []
    with tempfile.TemporaryDirectory() as name:
        work = pathlib.Path(name)
        folder = (options.work or work / "source").resolve()
        folder.mkdir(parents=True, exist_ok=True)
        libraries = scudo.fetch(folder)
        if libraries:
            objects = scudo.build(libraries, work)
            subjects.append(("scudo", "Scudo"))
        subjects.append(("libc", "libc"))
        print(f"{version('clang')}; {version('qemu-aarch64')}; {' '.join(platform.libc_ver())}")
        print(f"load {os.getloadavg()[0]:.1f} at the start")
        for call, body in CALLS.items():
            commands = prepare(LOOP % body, subjects, objects, work)
            show(call, measure(commands, subjects, options.turns))
        print(f"load {os.getloadavg()[0]:.1f} at the end")


if __name__ == "__main__":
    main()
