#!/usr/bin/env python3
"""Builds packages that others wrote, unchanged, as tenants and natively, and compares what they do.

    packages.py [--only NAME,..] [--jobs N] [--out FOLDER] [--library FOLDER] [--alone PATH]
    packages.py --write

Each package of packages.toml is fetched as Debian's archive has its source (debian_source.py; no
change of Debian's). It is built twice, in copies of its own, by the same lines of shell: with clang
and clang++, and with tenant-cc and tenant-c++. Then each of its commands runs in both, and its
output, which has standard error too, and its exit status are compared. A source of the package that
is another one after the build is named, and the package doesn't count then.

A line says what came of each; FOLDER (out, beside this script) keeps sources, copies and results.
`--write` writes what came of all into docs/project/PACKAGES.md. The exit status is 1 where a
package does something else than packages.toml says. In its lines are CC, CXX, CFLAGS, AR, RANLIB,
CONFIGURE (./configure, with --host for tenants), CMAKE, SOURCES (the folder of all sources),
PROGRAMS (that of the programs beside this script) and RUN, by which programs run.
Needed: what build.py --c++ makes, mte_run, and Debian's clang, llvm, lld, g++, make, cmake; for
some packages autoconf, automake, libtool, bison, perl, tcl, python3-six and unicode-data too.
"""
import argparse
import concurrent.futures
import contextlib
import filecmp
import json
import os
import pathlib
import re
import shlex
import shutil
import subprocess
import sys
import tomllib
from dataclasses import dataclass, field

HERE = pathlib.Path(__file__).resolve().parent
LIBC = HERE.parent / "libc"
sys.path.insert(0, str(HERE.parent))
import debian_source  # noqa: E402
from command_line import Parser  # noqa: E402
from page_part import write_part  # noqa: E402

PAGE = HERE.parents[1] / "docs" / "project" / "PACKAGES.md"
SCRIPT = "examples/packages/packages.py"
BUILD_SECONDS, RUN_SECONDS = 1500, 900
SAME = "the same"
# What a build may write anew: files of build systems. Sources stay as they are.
SOURCES = (".c", ".h", ".cc", ".cpp", ".cxx", ".hh", ".hpp", ".inc", ".y", ".l", ".S")
FLAGS = "-O1 -w"
CMAKE = "cmake -DCMAKE_BUILD_TYPE=None -DBUILD_SHARED_LIBS=OFF"


@dataclass(frozen=True)
class Package:
    """A package: its lines of shell, the commands that are compared, the files and folders that a
    tenant finds, and why it is not the same, where it isn't."""

    name: str
    language: str
    what: str
    build: str
    run: tuple[str, ...]
    files: tuple[str, ...] = ()
    writes: bool = False
    options: tuple[str, ...] = ()
    needs: tuple[str, ...] = ()
    not_the_same: str = ""


@dataclass
class Outcome:
    """What came of a package."""

    name: str
    version: str
    result: str
    log: list[str] = field(default_factory=list)


@dataclass(frozen=True)
class Place:
    """Where all is: the folder of the work, the library of tenants, mte_run."""

    out: pathlib.Path
    library: pathlib.Path
    alone: pathlib.Path


def read_packages(path: pathlib.Path = HERE / "packages.toml") -> list[Package]:
    """All packages, in order of their names."""
    data = tomllib.loads(path.read_text(encoding="utf-8"))
    packages = [
        Package(name, given["language"], given["what"], given["build"], tuple(given["run"]),
                tuple(given.get("files", ())), given.get("writes", False),
                tuple(given.get("options", ())), tuple(given.get("needs", ())),
                given.get("not_the_same", ""))
        for name, given in data.items()
    ]
    return sorted(packages, key=lambda package: package.name)


def version_of(sources: pathlib.Path, name: str) -> str:
    """The version, as the archive's name has it."""
    archive = debian_source.archives_of(sources, name)[0].name
    found = re.fullmatch(rf"{re.escape(name)}_(.*?)(?:\.orig)?\.tar\.\w+", archive)
    return found[1] if found else "?"


def native_words(place: Place) -> dict[str, str]:
    """The environment of a native build. Standard output is written a line at a time, so that
    standard error is where a tenant has it."""
    return {"CC": "clang", "CXX": "clang++", "AR": "ar", "RANLIB": "ranlib",
            "CONFIGURE": "./configure", "CMAKE": CMAKE, "RUN": "env HOME=/tmp stdbuf -oL",
            "SOURCES": str(place.out / "sources"),
            "PROGRAMS": without_blanks(HERE / "programs", place)}


def without_blanks(path: pathlib.Path, place: Place) -> str:
    """The path, or that of a link to it where it has a blank: makefiles and lines of shell take a
    path for one word."""
    if not re.search(r"\s", str(path)):
        return str(path)
    link = place.out / "links" / path.name
    link.parent.mkdir(parents=True, exist_ok=True)
    with contextlib.suppress(FileExistsError):
        link.symlink_to(path)
    return str(link)


def tenant_words(package: Package, place: Place) -> dict[str, str]:
    """The environment of a build of tenants."""
    cc, cxx, runner, programs, alone = (without_blanks(path, place) for path in (
        LIBC / "tenant-cc", LIBC / "tenant-c++", LIBC / "tenant-run", HERE / "programs",
        place.alone))
    run = [runner, f"--alone={alone}", "--env=HOME=/tmp"]
    run += [f"--files={name}" for name in package.files] + ["--out-files"] * package.writes
    run += [f"--option={word}" for word in package.options]
    return {
        "CC": cc, "CXX": cxx, "AR": "llvm-ar",
        "RANLIB": "llvm-ranlib", "RUN": shlex.join(run), "TENANT_LIBRARY": str(place.library),
        "SOURCES": str(place.out / "sources"), "PROGRAMS": programs,
        "CONFIGURE": "./configure --host=aarch64-linux-gnu",
        "CMAKE": f"{CMAKE} -DCMAKE_SYSTEM_NAME=Linux -DCMAKE_SYSTEM_PROCESSOR=aarch64",
    }


def shell(line: str, folder: pathlib.Path, words: dict[str, str], seconds: int,
          error: int = subprocess.STDOUT) -> tuple[int, bytes, bytes]:
    """Runs a line of shell; its exit status (-1: it took too long), its output and error."""
    environment = {**os.environ, "CFLAGS": FLAGS, "CXXFLAGS": FLAGS, "CC_FOR_BUILD": "clang",
                   "LC_ALL": "C", **words}
    try:
        ran = subprocess.run(["sh", "-e", "-c", line], cwd=folder, env=environment,
                             stdin=subprocess.DEVNULL, stdout=subprocess.PIPE, stderr=error,
                             timeout=seconds, check=False)
    except subprocess.TimeoutExpired as late:
        return -1, late.stdout or b"", late.stderr or b""
    return ran.returncode, ran.stdout, ran.stderr or b""


def changed_files(source: pathlib.Path, copy: pathlib.Path) -> list[str]:
    """The sources of a package that are others in a copy, but for what is made from a template
    beside it."""
    names = [str(path.relative_to(source)) for path in source.rglob("*")
             if path.suffix in SOURCES and path.is_file() and not path.is_symlink()
             and not path.with_name(f"{path.name}.in").exists()]
    return sorted(name for name in names
                  if not filecmp.cmp(source / name, copy / name, shallow=False))


def first_difference(native: bytes, tenant: bytes) -> str:
    """The first line in which two outputs differ."""
    lines = [each.splitlines() for each in (native, tenant)]
    for at, (one, other) in enumerate(zip(*lines)):
        if one != other:
            return f"line {at + 1}\n  natively: {one[:300]!r}\n  a tenant: {other[:300]!r}"
    return f"{len(lines[0])} lines, and {len(lines[1])} of the tenant"


def differences(package: Package, folders: tuple[pathlib.Path, pathlib.Path],
                words: tuple[dict[str, str], dict[str, str]], log: list[str]) -> str:
    """What differs of the runs of a package, or nothing."""
    native, tenant = folders
    for line in package.run:
        status, output, _ = shell(line, native, words[0], RUN_SECONDS)
        other, written, said = shell(line, tenant, words[1], RUN_SECONDS, subprocess.PIPE)
        log.append(f"$ {line}\n{status} {len(output)} bytes, {other} {len(written)} bytes\n"
                   + said.decode(errors="replace")[:3000])
        if (status, output) == (other, written):
            continue
        log.append(first_difference(output, written))
        first = said.decode(errors="replace").strip().partition("\n")[0]
        what = f"status {other}, natively {status}" if status != other else "another output"
        return f"{what}: {line}" + (f": {first}" if first else "")
    return ""


def outcome_of(package: Package, place: Place) -> Outcome:
    """Builds and runs a package both ways."""
    sources, work = place.out / "sources", place.out / "work" / package.name
    source = debian_source.fetch(sources, package.name)
    outcome = Outcome(package.name, version_of(sources, package.name), SAME)
    words = native_words(place), tenant_words(package, place)
    folders = work / "native", work / "tenant"
    shutil.rmtree(work, ignore_errors=True)
    for folder, own in zip(folders, words):
        shutil.copytree(source, folder, symlinks=True)
        status, said, _ = shell(package.build, folder, own, BUILD_SECONDS)
        (work / f"{folder.name}.log").write_bytes(said)
        changed = changed_files(source, folder)
        if status or changed:
            reason = f"other files: {' '.join(changed[:5])}" if changed else "is not built"
            outcome.result = f"{folder.name}: {reason}"
            outcome.log.append(said.decode(errors="replace")[-1500:])
            return outcome
    outcome.result = differences(package, folders, words, outcome.log) or SAME
    return outcome


def tried(package: Package, place: Place) -> Outcome:
    """What came of a package, also where its source is not to be had."""
    try:
        return outcome_of(package, place)
    except debian_source.NotFetched as error:
        return Outcome(package.name, "?", f"not fetched: {error}")


def row(package: Package, outcome: dict[str, str]) -> str:
    """A row of the page's table."""
    is_same = outcome["result"] == SAME
    result = "yes" if is_same else f"no: {package.not_the_same or outcome['result']}"
    return (f"| {package.name} | {outcome['version']} | {package.language} | {package.what} "
            f"| {result} |\n")


def table(packages: list[Package], results: dict[str, dict[str, str]]) -> str:
    """What the page has of all packages."""
    known = [package for package in packages if package.name in results]
    count = sum(results[package.name]["result"] == SAME for package in known)
    text = (f"Of {len(known)} packages {count} are built unchanged, run, and write what they write "
            "natively.\n\n| Package | Version | Language | What runs | As natively |\n"
            "|---|---|---|---|---|\n")
    return text + "".join(row(package, results[package.name]) for package in known)


def read_results(out: pathlib.Path) -> dict[str, dict[str, str]]:
    """The results of earlier runs."""
    path = out / "results.json"
    found: dict[str, dict[str, str]] = {}
    if path.exists():
        found = json.loads(path.read_text(encoding="utf-8"))
    return found


def keep(out: pathlib.Path, outcome: Outcome) -> None:
    """Keeps a result beside those of other packages."""
    results = read_results(out)
    results[outcome.name] = {"version": outcome.version, "result": outcome.result}
    (out / "results.json").write_text(json.dumps(results, indent=1), encoding="utf-8")


def fetch_all(sources: pathlib.Path, wanted: list[Package]) -> None:
    """Fetches what all need, one after the other, since apt keeps one set of lists."""
    for package in wanted:
        for name in (package.name, *package.needs):
            try:
                debian_source.fetch(sources, name)
            except debian_source.NotFetched as error:
                print(f"packages.py: {error}", file=sys.stderr)


def add_common(parser: argparse.ArgumentParser) -> None:
    """Options that compilers.py has too."""
    parser.add_argument("--jobs", type=int, default=1)
    parser.add_argument("--out", type=pathlib.Path, default=HERE / "out")
    parser.add_argument("--library", type=pathlib.Path, default=LIBC / "out")
    parser.add_argument("--alone", type=pathlib.Path,
                        default=HERE.parents[1] / "crates/mte_run/out/mte_run")
    parser.add_argument("--write", action="store_true")


def place_of(options: argparse.Namespace) -> Place:
    """Where all is."""
    return Place(options.out.resolve(), options.library.resolve(), options.alone.resolve())


def arguments() -> argparse.Namespace:
    parser = Parser(__doc__)
    parser.add_argument("--only", default="")
    add_common(parser)
    return parser.parse_args()


def main() -> int:
    options = arguments()
    packages = read_packages()
    place = place_of(options)
    if options.write:
        write_part(PAGE, SCRIPT, table(packages, read_results(place.out)))
        return 0
    names = [name for name in options.only.split(",") if name]
    wanted = [package for package in packages if not names or package.name in names]
    fetch_all(place.out / "sources", wanted)
    status = 0
    with concurrent.futures.ThreadPoolExecutor(options.jobs) as pool:
        running = {pool.submit(tried, package, place): package for package in wanted}
        for done in concurrent.futures.as_completed(running):
            outcome = done.result()
            print(f"{outcome.name} {outcome.version}: {outcome.result}", flush=True)
            if (outcome.result == SAME) == bool(running[done].not_the_same):
                status = 1
                print("\n".join(outcome.log), file=sys.stderr, flush=True)
            keep(place.out, outcome)
    return status


if __name__ == "__main__":
    sys.exit(main())
