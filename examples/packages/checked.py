#!/usr/bin/env python3
"""Runs programs of others by mte_run --check, and says of which of them something is told.

    checked.py torture [--every N]     500 of gcc's torture tests, as compilers.py takes them
    checked.py csmith [--count N] [--first SEED]    programs that csmith draws, a build of each
    checked.py packages                the packages of packages.toml
    checked.py --write                 writes what came of all into docs/project/CHECKED.md

Each program is built as a tenant by clang and by gcc, at -O0 and at -O2, with -g; one of csmith by
one of the two at -O0 to -O3, as its seed chooses. It runs plain, with --check, and with
--check=all,places; one of csmith also with --exact beside that. Its output
and its exit status have to be the same each time, and nothing may be told. A torture test counts
where it is compiled and its plain run ends with the status 0 within 100 million steps; a package,
or a program of csmith, where its plain runs do what they do natively.
A line says what is told, or differs. What is a fault of the program is in faults.toml, with the
reason. The exit status is 1 where anything else is told, or something differs.

--every N takes one of N programs, --only NAME,.. these alone, and --builds BUILD,.. these builds
(as clang-O0). Other options are those of packages.py. Images stay in FOLDER/checked/torture.
"""
import argparse
import concurrent.futures
import dataclasses
import functools
import itertools
import json
import pathlib
import re
import shutil
import subprocess
import sys
import tempfile
import tomllib
from collections.abc import Callable, Iterator
from dataclasses import dataclass
from typing import Any

HERE = pathlib.Path(__file__).resolve().parent
sys.path[:0] = [str(HERE), str(HERE.parent)]
import compilers  # noqa: E402
import packages  # noqa: E402
from command_line import Parser  # noqa: E402
from page_part import write_part  # noqa: E402

PAGE = HERE.parents[1] / "docs" / "project" / "CHECKED.md"
SCRIPT = "examples/packages/checked.py"
BUILDS = {f"{name}{level}": (name, level)
          for name in compilers.COMPILERS for level in ("-O0", "-O1", "-O2", "-O3")}
USUAL = [name for name, (_, level) in BUILDS.items() if level in ("-O0", "-O2")]
PLAIN, WAYS = "", ("--check", "--check=all,places")
EXACT = "--check=all,places --exact"
TORTURE, STEPS, SECONDS = 500, "100000000", 1200
NOTHING = "nothing"
KEY = ("kind", "program", "build")
TITLES = {"torture": "gcc's torture tests", "csmith": "csmith", "packages": "packages"}
# What mte_run says of a run in which nothing is wrong.
NOTES = re.compile(r"mte_run: (?:exited with \d+|no tag differed; .*|a request of .*)")
# Runs mte_run with a way of checking, and keeps what it says.
WRAPPER = """#!/bin/sh
said=$(mktemp "$SAID/XXXXXXXX")
"$ALONE" $WAY "$@" 2> "$said"
status=$?
cat "$said" >&2
exit $status
"""


@dataclass(frozen=True)
class Build:
    """A program and a build of it."""

    kind: str
    program: str
    build: str

    @property
    def level(self) -> str:
        """The option of the compiler."""
        return BUILDS[self.build][1]

    @property
    def compiler(self) -> str:
        """What `--compiler` of tenant-cc takes."""
        return BUILDS[self.build][0]


@dataclass(frozen=True)
class Finding:
    """What came of a build of a program, by each way of checking."""

    kind: str
    program: str
    build: str
    results: dict[str, str]
    reason: str = ""


@dataclass(frozen=True)
class Ran:
    """What came of a run: its exit status (-1: it took too long), its output, what was said."""

    status: int
    output: bytes
    said: str


Work = Callable[[], Finding]


def left_out(build: Build, reason: str) -> Finding:
    """A build that is not counted."""
    return Finding(build.kind, build.program, build.build, {}, reason)


def told_of(said: str, plain: str = "") -> str:
    """What the text of a run has beside notes and beside the text of the plain run: its first
    lines, and the cause where one is named."""
    known = plain.splitlines()
    lines = [line for line in said.splitlines()
             if line and line not in known and not NOTES.fullmatch(line)]
    cause = [line for line in lines if line.startswith("Cause: ")]
    return " | ".join([*lines[:2], *cause[:1]])


def run(words: list[object]) -> Ran:
    """Exit status (-1: it took too long), output and what is said."""
    try:
        ran = subprocess.run([str(word) for word in words], stdin=subprocess.DEVNULL,
                             stdout=subprocess.PIPE, stderr=subprocess.PIPE, timeout=SECONDS,
                             check=False)
    except subprocess.TimeoutExpired:
        return Ran(-1, b"", "")
    return Ran(ran.returncode, ran.stdout, ran.stderr.decode(errors="replace"))


def result_of(plain: Ran, checked: Ran) -> str:
    """What a way of checking tells, or how its run differs from the plain one."""
    told = told_of(checked.said, plain.said)
    if told:
        return told
    if checked.status == -1:
        return "too long"
    if checked.status != plain.status:
        return f"status {checked.status}, not {plain.status}"
    return NOTHING if checked.output == plain.output else "another output"


def image_of(program: compilers.Program, build: Build,
             place: packages.Place) -> tuple[pathlib.Path, str]:
    """The image of a program in a build, and why it is not compiled. Both stay."""
    image = place.out / "checked" / build.kind / build.build / program.name
    refused = image.with_name(f"{program.name}.refused")
    if image.exists() or refused.exists():
        return image, first_error(refused.read_text()) if refused.exists() else ""
    image.parent.mkdir(parents=True, exist_ok=True)
    own = [f"--library={place.library}", f"--compiler={build.compiler}"]
    part = image.with_name(f"{program.name}.part")
    made = run([compilers.TENANT_CC, *own, build.level, "-g", "-w", *program.words, "-o", part,
                program.source])
    if made.status:
        refused.write_text(made.said)
        return image, first_error(made.said)
    part.rename(image)
    return image, ""


def tried_program(program: compilers.Program, build: Build, place: packages.Place) -> Finding:
    """What came of a torture test or a program of csmith in a build."""
    image, reason = image_of(program, build, place)
    if reason:
        return left_out(build, f"not compiled: {reason}")
    command = ["--steps", STEPS, image]
    plain = run([place.alone, *command])
    if plain.status:
        return left_out(build, f"status {plain.status}: {told_of(plain.said)}")
    if build.kind == "csmith":
        words = [build.level, "-w", *program.words]
        with tempfile.TemporaryDirectory() as name:
            ended = compilers.ended_natively(program, words, pathlib.Path(name), build.compiler)
        if not ended or ended[1] != plain.output:
            return left_out(build, "not as natively")
    ways = (*WAYS, EXACT) if build.kind == "csmith" else WAYS
    results = {way: result_of(plain, run([place.alone, *way.split(), *command])) for way in ways}
    return Finding(build.kind, build.program, build.build, results)


def first_error(said: str) -> str:
    """The line of a compiler that names an error."""
    lines = said.splitlines() or [""]
    return next((line for line in lines if "error:" in line or "undefined" in line), lines[0])


def torture_work(options: argparse.Namespace, place: packages.Place) -> Iterator[Work]:
    """What is to do for the torture tests, in the builds that are wanted."""
    programs = compilers.torture_programs(place.out, TORTURE)[::options.every]
    for program, name in itertools.product(programs, options.builds):
        build = Build("torture", program.name, name)
        if not options.only or program.name in options.only:
            yield functools.partial(tried_program, program, build, place)


def csmith_work(options: argparse.Namespace, place: packages.Place) -> Iterator[Work]:
    """What is to do for programs of csmith: a build of each."""
    folder = place.out / "checked" / "csmith"
    folder.mkdir(parents=True, exist_ok=True)
    for program in compilers.drawn_programs(folder, options.first, options.count):
        build = Build("csmith", program.name, options.builds[program.number % len(options.builds)])
        yield functools.partial(tried_program, program, build, place)


def words_of(package: packages.Package, build: Build, place: packages.Place,
             wrapper: pathlib.Path) -> dict[str, str]:
    """The environment of a package's build, and of its runs by the wrapper."""
    words = packages.tenant_words(package, dataclasses.replace(place, alone=wrapper))
    words["CC"] += f" --compiler={build.compiler}"
    flags = f"{build.level} -g -w"
    return {**words, "CFLAGS": flags, "CXXFLAGS": flags, "ALONE": str(place.alone)}


def runs_of(package: packages.Package, folder: pathlib.Path, words: dict[str, str]) -> Ran:
    """The runs of a package in a copy of a folder, as one: the statuses are in the output. Standard
    error of a native program is where that of a tenant is, in its output."""
    error = subprocess.PIPE if "WAY" in words else subprocess.STDOUT
    with tempfile.TemporaryDirectory() as name:
        copy, said = pathlib.Path(name) / "copy", pathlib.Path(name) / "said"
        shutil.copytree(folder, copy, symlinks=True)
        said.mkdir()
        output = b""
        for line in package.run:
            status, written, _ = packages.shell(line, copy, {**words, "SAID": str(said)},
                                                packages.RUN_SECONDS, error)
            output += written + b"status %d\n" % status
        texts = [path.read_text(errors="replace") for path in sorted(said.iterdir())]
    return Ran(0, output, "".join(texts))


def built(package: packages.Package, folder: pathlib.Path, words: dict[str, str],
          place: packages.Place) -> str:
    """Builds a package in a folder; the last line that is said where it is not built."""
    shutil.rmtree(folder, ignore_errors=True)
    shutil.copytree(place.out / "sources" / package.name, folder, symlinks=True)
    status, said, _ = packages.shell(package.build, folder, words, packages.BUILD_SECONDS)
    folder.with_suffix(".log").write_bytes(said)
    return first_error(said.decode(errors="replace")) or f"status {status}" if status else ""


def tried_package(package: packages.Package, build: Build, place: packages.Place) -> Finding:
    """What came of a package in a build."""
    work = place.out / "checked" / package.name
    wrapper, folder = work / "run.sh", work / build.build
    words = words_of(package, build, place, wrapper)
    reason = built(package, folder, words, place)
    if reason:
        return left_out(build, f"not built: {reason}")
    plain = runs_of(package, folder, {**words, "WAY": ""})
    if plain.output != (work / "natively").read_bytes():
        return left_out(build, "not as natively")
    results = {way: result_of(plain, runs_of(package, folder, {**words, "WAY": way}))
               for way in WAYS}
    return Finding(build.kind, build.program, build.build, results)


def run_natively(package: packages.Package, place: packages.Place) -> None:
    """Builds a package natively, and keeps what it writes."""
    work = place.out / "checked" / package.name
    work.mkdir(parents=True, exist_ok=True)
    words = packages.native_words(place)
    reason = built(package, work / "native", words, place)
    ran = runs_of(package, work / "native", words)
    (work / "natively").write_bytes(ran.output if not reason else b"not built: %a" % reason)
    (work / "run.sh").write_text(WRAPPER)
    (work / "run.sh").chmod(0o755)


def package_work(options: argparse.Namespace, place: packages.Place) -> Iterator[Work]:
    """What is to do for packages, in the builds that are wanted."""
    wanted = [each for each in packages.read_packages()
              if not options.only or each.name in options.only]
    packages.fetch_all(place.out / "sources", wanted)
    for package in wanted:
        run_natively(package, place)
    for package, name in itertools.product(wanted, options.builds):
        build = Build("packages", package.name, name)
        yield functools.partial(tried_package, package, build, place)


def faults() -> dict[str, dict[str, str]]:
    """The programs that have faults of their own, with the reasons, by kinds of programs."""
    return tomllib.loads((HERE / "faults.toml").read_text(encoding="utf-8"))


def wrong(finding: Finding) -> list[str]:
    """What is told of a program that has no fault, or differs, by the ways."""
    if finding.program in faults().get(finding.kind, {}):
        return []
    return [f"{way}: {result}" for way, result in finding.results.items() if result != NOTHING]


def tried(work: list[Work], jobs: int) -> Iterator[Finding]:
    """What came of all, as it comes; what is wrong is written."""
    with concurrent.futures.ThreadPoolExecutor(jobs) as pool:
        for done in concurrent.futures.as_completed([pool.submit(each) for each in work]):
            finding = done.result()
            for line in wrong(finding):
                print(f"{finding.program}, {finding.build}: {line}", flush=True)
            yield finding


def keep(path: pathlib.Path, finding: Finding) -> Finding:
    """Keeps a finding beside those of other builds."""
    kept = json.loads(path.read_text(encoding="utf-8")) if path.exists() else []
    own = vars(finding)
    others = [each for each in kept if any(each[it] != own[it] for it in KEY)]
    beside = path.with_suffix(".part")
    beside.write_text(json.dumps([*others, own], indent=1), encoding="utf-8")
    beside.replace(path)
    return finding


def ways_that_tell(row: dict[str, Any]) -> list[str]:
    """The ways by which something is told of a build, or by which a run of it differs."""
    return [way for way, result in row["results"].items() if result != NOTHING]


def cells(rows: list[dict[str, Any]]) -> list[str]:
    """How many builds of programs count, and of how many something is told by each way, and of how
    many that is no fault of the program."""
    counted = [each for each in rows if each["results"]]
    told = [sum(way in ways_that_tell(each) for each in counted) for way in WAYS]
    false = sum(bool(wrong(Finding(**each))) for each in counted)
    return [str(it) for it in (len(counted), *told, false)]


def counts_of(kept: list[dict[str, Any]]) -> str:
    """The table of all programs by their builds."""
    heads = ["Programs", "Build", "Run", *(f"`{way}` tells of" for way in WAYS), "False"]
    lines = [heads, ["---"] * len(heads)]
    for kind, name in itertools.product(TITLES, BUILDS):
        rows = [each for each in kept if (each["kind"], each["build"]) == (kind, name)]
        if any(each["results"] for each in rows):
            lines.append([TITLES[kind], name, *cells(rows)])
    return "".join(f"| {' | '.join(row)} |\n" for row in lines)


def faults_of(kept: list[dict[str, Any]]) -> str:
    """The table of what is told and is a fault of the program."""
    lines = ["| Program | Told in | What is wrong |", "|---|---|---|"]
    told = {(each["kind"], each["program"], each["build"]) for each in kept if ways_that_tell(each)}
    reasons = [(kind, *each) for kind, known in faults().items() for each in known.items()]
    for kind, program, reason in reasons:
        builds = ", ".join(name for name in BUILDS if (kind, program, name) in told)
        lines += [f"| {program} | {builds} | {reason} |"] * bool(builds)
    return "\n".join(lines) + "\n"


def arguments() -> argparse.Namespace:
    parser = Parser(__doc__)
    listed = functools.partial(str.split, sep=",")
    parser.add_argument("kind", nargs="?", choices=TITLES)
    parser.add_argument("--every", type=int, default=1)
    parser.add_argument("--count", type=int, default=100)
    parser.add_argument("--first", type=int, default=1)
    parser.add_argument("--only", type=listed, default=[])
    parser.add_argument("--builds", type=listed, default=[])
    packages.add_common(parser)
    options = parser.parse_args()
    options.builds = options.builds or (list(BUILDS) if options.kind == "csmith" else USUAL)
    return options


def main() -> int:
    options = arguments()
    place = packages.place_of(options)
    path = place.out / "checked.json"
    if options.write or not options.kind:
        kept = json.loads(path.read_text(encoding="utf-8"))
        write_part(PAGE, SCRIPT, f"{counts_of(kept)}\n{faults_of(kept)}")
        return 0
    work = {"torture": torture_work, "csmith": csmith_work, "packages": package_work}[options.kind]
    found = [keep(path, it) for it in tried(list(work(options, place)), options.jobs)]
    counted = [each for each in found if each.results]
    is_wrong = any(map(wrong, counted))
    print(f"{len(counted)} builds run, {len(found) - len(counted)} left out")
    return 1 if is_wrong else 0


if __name__ == "__main__":
    sys.exit(main())
