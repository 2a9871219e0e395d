#!/usr/bin/env python3
"""Compares programs that test compilers, as tenants and natively, by clang and gcc.

    compilers.py csmith [--count N] [--first SEED]    programs that csmith draws, by their seeds
    compilers.py torture [--count N]                  programs of gcc's torture tests (execute)
    compilers.py --write                              writes what came of all into the page

Each program is compiled natively and by tenant-cc, by clang and by gcc at a level that changes from
program to program, and its output and exit status are compared. One that doesn't end natively (it
isn't compiled, ends by a signal or another status than 0, or not in a second of the processor) is
left out, as is one that takes more than 300 million steps.
A line says what differs, and what tenant-cc refuses; the exit status is 1 where something differs.
The torture tests are of Debian's source of gcc-12 (87 MB, fetched once), N of them evenly chosen.

Other options: --jobs N, --out FOLDER, --library FOLDER, --alone PATH, as packages.py has them.
Needed (Debian): clang, gcc, gcc-aarch64-linux-gnu; csmith and libcsmith-dev.
"""
import argparse
import concurrent.futures
import json
import pathlib
import re
import subprocess
import sys
import tarfile
import tempfile
from collections import Counter
from collections.abc import Sequence
from dataclasses import dataclass
from typing import Optional

HERE = pathlib.Path(__file__).resolve().parent
sys.path[:0] = [str(HERE), str(HERE.parent)]
import debian_source  # noqa: E402
import packages  # noqa: E402
from command_line import Parser  # noqa: E402
from page_part import write_part  # noqa: E402

TENANT_CC = HERE.parent / "libc" / "tenant-cc"
COMPILERS = {"clang": "clang", "gcc": "gcc"}
# gcc refuses a function of floating point at -O0, also one of a header that nothing calls.
LEVELS = {"clang": ("-O0", "-O1", "-O2", "-Os"), "gcc": ("-O1", "-O2", "-Os", "-O3")}
NATIVE_SECONDS, TENANT_SECONDS, STEPS, OUT_OF_STEPS = 60, 300, "300000000", 134
SAME, REFUSED, DIFFERENT = "the same", "refused", "different"
LEFT_OUT, TOO_LONG = "not ended natively", "too long"
RESULTS = (SAME, REFUSED, DIFFERENT, TOO_LONG, LEFT_OUT)
# What a test that asks for the size of the stack is told.
STACK = 32768
SCRIPT = "examples/packages/compilers.py"
TITLES = {"csmith": "csmith", "torture": "gcc's torture tests"}


@dataclass(frozen=True)
class Program:
    """A program: its name, its source, the compiler's words, the number that chooses a level, and
    whether it writes the same each time."""

    name: str
    source: pathlib.Path
    words: tuple[str, ...]
    number: int
    is_steady: bool = True


@dataclass(frozen=True)
class Finding:
    """What came of a program by a compiler, and why."""

    program: str
    compiler: str
    result: str
    reason: str = ""


Ended = tuple[int, bytes, str]


def run(command: Sequence[object], seconds: int,
        folder: Optional[pathlib.Path] = None) -> Optional[Ended]:
    """Exit status, output and the line that names an error, or None where it takes too long."""
    try:
        ran = subprocess.run([str(word) for word in command], cwd=folder, stdin=subprocess.DEVNULL,
                             stdout=subprocess.PIPE, stderr=subprocess.PIPE, timeout=seconds,
                             check=False)
    except subprocess.TimeoutExpired:
        return None
    lines = ran.stderr.decode(errors="replace").splitlines() or [""]
    named = [line for line in lines if "error:" in line or "undefined reference" in line]
    return ran.returncode, ran.stdout, (named or lines)[0]


def ended_natively(program: Program, words: Sequence[str], folder: pathlib.Path,
                   compiler: str) -> Optional[Ended]:
    """How it ends natively, or None where that is not by status 0."""
    image = folder / "native"
    made = run([COMPILERS[compiler], *words, "-o", image, program.source, "-lm"], 120)
    if not made or made[0]:
        return None
    ended = run(["prlimit", "--cpu=1", image], NATIVE_SECONDS)
    return ended if ended and ended[0] == 0 else None


def compare(program: Program, compiler: str, place: packages.Place) -> Finding:
    """What came of a program by a compiler."""
    level = LEVELS[compiler][program.number % len(LEVELS[compiler])]
    words = [level, "-w", *program.words]
    with tempfile.TemporaryDirectory() as name:
        folder = pathlib.Path(name)
        wanted = ended_natively(program, words, folder, compiler)
        if not wanted:
            return Finding(program.name, compiler, LEFT_OUT)
        image = folder / "tenant"
        own = [f"--library={place.library}", f"--compiler={compiler}"]
        made = run([TENANT_CC, *own, *words, "-o", image, program.source], 300)
        if not made or made[0]:
            return Finding(program.name, compiler, REFUSED, made[2] if made else "too long")
        ended = run([place.alone, "--steps", STEPS, image], TENANT_SECONDS)
    if ended and ended[0] == wanted[0] and (ended[1] == wanted[1] or not program.is_steady):
        return Finding(program.name, compiler, SAME)
    if not ended or ended[0] == OUT_OF_STEPS:
        return Finding(program.name, compiler, TOO_LONG)
    reason = f"{level}: status {ended[0]}: {ended[2]}"
    return Finding(program.name, compiler, DIFFERENT, reason)


def drawn_programs(folder: pathlib.Path, first: int, count: int) -> list[Program]:
    """Programs of csmith, by their seeds."""
    made = []
    for seed in range(first, first + count):
        source = folder / f"{seed}.c"
        # It leaves a file in the folder where it runs.
        ran = run(["csmith", "--seed", seed], 60, folder)
        if ran and not ran[0]:
            source.write_bytes(ran[1])
            made.append(Program(f"seed {seed}", source, ("-I/usr/include/csmith",), seed))
    return made


def torture_folder(out: pathlib.Path) -> pathlib.Path:
    """The folder of the torture tests, of the archive within Debian's archive."""
    folder = out / "torture"
    tests = folder / "gcc-12.2.0/gcc/testsuite/gcc.c-torture/execute"
    if tests.exists():
        return tests
    inner = "gcc-12-12.2.0/gcc-12.2.0-dfsg.tar.xz"
    archive = debian_source.download_once(out / "sources", "gcc-12")
    folder.mkdir(parents=True, exist_ok=True)
    with tarfile.open(archive) as outer:
        part = outer.extractfile(inner)
        assert part
        with tarfile.open(fileobj=part, mode="r:xz") as whole:
            for member in whole:
                if "/gcc.c-torture/execute/" in member.name and member.isfile():
                    whole.extract(member, folder)
    return tests


def torture_programs(out: pathlib.Path, count: int) -> list[Program]:
    """So many of the torture tests, evenly chosen, with the options that they name."""
    files = sorted(torture_folder(out).glob("*.c"))
    chosen = [files[at * len(files) // count] for at in range(min(count, len(files)))]
    made = []
    for number, file in enumerate(chosen):
        text = file.read_text(encoding="utf-8", errors="replace")
        options = re.findall(r'dg-(?:additional-)?options "([^"]*)"', text)
        words = ("-std=gnu17", *(word for each in options for word in each.split()))
        if "dg-add-options stack_size" in text:
            words += (f"-DSTACK_SIZE={STACK}",)
        made.append(Program(file.stem, file, words, number, "%p" not in text))
    return made


def compared(programs: list[Program], place: packages.Place, jobs: int) -> list[Finding]:
    """What came of all programs by both compilers; what is not the same is written as it comes."""
    found = []
    with concurrent.futures.ThreadPoolExecutor(jobs) as pool:
        running = [pool.submit(compare, program, compiler, place)
                   for program in programs for compiler in COMPILERS]
        for done in concurrent.futures.as_completed(running):
            finding = done.result()
            found.append(finding)
            if finding.result in (REFUSED, DIFFERENT):
                print(f"{finding.program}, {finding.compiler}: {finding.result}: {finding.reason}",
                      flush=True)
    return found


def table(kept: dict[str, list[dict[str, str]]]) -> str:
    """What the page has of all programs."""
    heads = ["Programs", "Compiler", *(result.capitalize() for result in RESULTS)]
    text = "".join(f"| {' | '.join(row)} |\n" for row in (heads, ["---"] * len(heads)))
    for kind, title in TITLES.items():
        for compiler in COMPILERS:
            counts = Counter(each["result"] for each in kept.get(kind, ())
                             if each["compiler"] == compiler)
            row = (counts[result] for result in RESULTS)
            text += f"| {title} | {compiler} | " + " | ".join(map(str, row)) + " |\n"
    return text


def keep(path: pathlib.Path, kind: str, found: list[Finding]) -> None:
    """Keeps what was found, beside what earlier calls found of other programs."""
    kept = json.loads(path.read_text(encoding="utf-8")) if path.exists() else {}
    known = {(each["program"], each["compiler"]): each for each in kept.get(kind, ())}
    known |= {(each.program, each.compiler): vars(each) for each in found}
    kept[kind] = list(known.values())
    path.parent.mkdir(parents=True, exist_ok=True)
    path.write_text(json.dumps(kept, indent=1), encoding="utf-8")


def arguments() -> argparse.Namespace:
    parser = Parser(__doc__)
    parser.add_argument("kind", nargs="?", choices=TITLES)
    parser.add_argument("--count", type=int, default=100)
    parser.add_argument("--first", type=int, default=1)
    packages.add_common(parser)
    return parser.parse_args()


def main() -> int:
    options = arguments()
    place = packages.place_of(options)
    path = place.out / "compilers.json"
    if options.write or not options.kind:
        kept = json.loads(path.read_text(encoding="utf-8"))
        write_part(packages.PAGE, SCRIPT, table(kept))
        return 0
    with tempfile.TemporaryDirectory() as name:
        if options.kind == "csmith":
            programs = drawn_programs(pathlib.Path(name), options.first, options.count)
        else:
            programs = torture_programs(place.out, options.count)
        found = compared(programs, place, options.jobs)
    keep(path, options.kind, found)
    counts = Counter(each.result for each in found)
    print(", ".join(f"{count} {result}" for result, count in counts.items()))
    return 1 if counts[DIFFERENT] else 0


if __name__ == "__main__":
    sys.exit(main())
