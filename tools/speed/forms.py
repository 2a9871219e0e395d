#!/usr/bin/env python3
"""Which share of the steps of compiled programs is executed in a form of its own.

    forms.py HOST

HOST is a built mte_host. Builds each tenant of examples/c by clang and gcc at -O0, -O2 and -Os (the
hash over 32 KiB and the sort of 4,096 numbers), runs each to its end under callgrind, and counts
the calls of `execute_other`, by which an instruction without a form is executed. A line a compiler
and level: steps, and the share of them with a form.
"""
import itertools
import pathlib
import subprocess
import sys
import tempfile

from commands import number_in

HERE = pathlib.Path(__file__).resolve().parent
TENANTS = HERE.parents[1] / "examples" / "c"
FLAGS = ["-ffreestanding", "-nostdlib", "-static", "-mgeneral-regs-only"]
COMPILERS = {"clang": ["clang", "--target=aarch64-linux-gnu", "-fuse-ld=lld"],
             "gcc": ["aarch64-linux-gnu-gcc"]}
SMALLER = [("1 << 20", "1 << 15"), ("131072", "4096")]


def build(command: list[str], level: str, source: str, work: pathlib.Path) -> None:
    """The image of a tenant, its count made smaller."""
    text = (TENANTS / source).read_text()
    for count, less in SMALLER:
        text = text.replace(f"COUNT = {count}", f"COUNT = {less}")
    (work / source).write_text(text)
    sources = [TENANTS / "start.c", work / source]
    subprocess.run([*command, level, *FLAGS, "-I", TENANTS, "-o", work / "image", *sources],
                   check=True, stderr=subprocess.DEVNULL)


def calls_of_other(profile: str) -> int:
    """How many calls of `execute_other` callgrind counted."""
    names: dict[str, str] = {}
    other, calls = False, 0
    for line in profile.splitlines():
        kind, _, rest = line.partition("=")
        number, _, name = rest.partition(" ")
        if kind in ("cfn", "fn"):
            names.setdefault(number, name)
        if kind == "cfn":
            other = "execute_other" in names[number]
        elif kind == "calls" and other:
            calls += int(number)
    return calls


def count(host: str, work: pathlib.Path) -> tuple[int, int]:
    """The steps of the image, and how many of them have no form."""
    (work / "input").write_bytes(b"an input of some bytes")
    admit = "admit 1 image 1 input 2 seed 0000000000000001 frames 300 out 64\n"
    (work / "script").write_text(admit + "slice 1 1048576\n" * 40)
    report = subprocess.run(
        ["valgrind", "--tool=callgrind", f"--callgrind-out-file={work}/calls", host, "--frames",
         "601", work / "script", work / "image", work / "input"],
        stdout=subprocess.PIPE, stderr=subprocess.DEVNULL, text=True, check=True,
    ).stdout
    if "status running" in report:
        sys.exit("forms.py: a tenant did not end")
    return number_in(r"^steps (\d+)$", report), calls_of_other((work / "calls").read_text())


def count_all(host: str, command: list[str], level: str, work: pathlib.Path) -> tuple[int, int]:
    """The steps of all tenants by a compiler at a level, and how many of them have no form."""
    steps = calls = 0
    for source in sorted(path.name for path in TENANTS.glob("*.c") if path.name != "start.c"):
        build(command, level, source, work)
        more, without = count(host, work)
        steps, calls = steps + more, calls + without
    return steps, calls


def share(steps: int, calls: int) -> str:
    return f"{steps:9} steps  {100 - 100 * calls / steps:.2f} %"


def main() -> None:
    if len(sys.argv) != 2:
        sys.exit(__doc__)
    all_steps = all_calls = 0
    with tempfile.TemporaryDirectory() as name:
        work = pathlib.Path(name)
        for compiler, level in itertools.product(COMPILERS, ("-O0", "-O2", "-Os")):
            steps, calls = count_all(sys.argv[1], COMPILERS[compiler], level, work)
            print(f"{compiler:5} {level}  {share(steps, calls)}", flush=True)
            all_steps, all_calls = all_steps + steps, all_calls + calls
    print(f"all        {share(all_steps, all_calls)}")


if __name__ == "__main__":
    main()
