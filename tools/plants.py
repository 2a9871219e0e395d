#!/usr/bin/env python3
"""Plants wrong bodies, and says what of the test command notices each.

    plants.py [--built FOLDER] [--jobs N] [--whole] [--only WORD] [FILE.toml..]
    plants.py --drawn N [--seed N] [--built FOLDER] [--jobs N] [--whole]
    plants.py --share | --sample

A file (tools/wrong_bodies/*.toml) has a table for each body: the crate, the file, the text that is
there once (`old`), the text in its place (`new`), and what a user then sees (`shows`). One build
without proof (unproved.py) of each program has all its bodies, each behind a byte (switches.py).
The cases of the suite that look at the program are tried on each, the quickest first
(tests/support/quick_cases.py), and with --whole all cases on those that pass. A body of the library
is planted in a copy of the checkout, and the border to C is checked.

With --drawn N bodies are drawn by rule instead, in the machine code of mte_run of all its crates
without exact contracts. FOLDER has the right programs (mte_host, mte_run,
libtombolopan_c.a); they are those of crates/*/out where none is named. Exit status 1 where a body
is not noticed.

--share tries those of files and drawn ones, as many as tools/noticed.toml has, and --sample fewer,
by the quickest cases alone: status 1 where a smaller share is noticed than that file says.
"""
import argparse
import concurrent.futures
import functools
import os
import pathlib
import re
import shutil
import subprocess
import sys
import tempfile
import tomllib
from collections.abc import Mapping, Sequence
from dataclasses import dataclass
from typing import Any, Optional

import switches
import unproved
from switches import Body

ROOT = pathlib.Path(__file__).resolve().parent.parent
STORED = ROOT / "tools" / "noticed.toml"
PYTHON = "/usr/bin/python3"
# Of a processor, for a run of cases and for each of their programs.
SECONDS, QUICK_SECONDS = 600, 10
# What notices a wrong body, by its name.
Answers = dict[str, Optional[str]]
# The cases that look at each program, the quickest first.
SUITES = {
    "mte_run": [
        "tests/test_causes.py", "tests/test_explanations.py", "tests/test_run_statuses.py",
        "tests/test_checks.py", "tests/test_gdb.py", "tests/test_run_files.py",
        "tests/test_sarif.py", "tests/test_report_lines.py",
        "tests/test_explanations_beside_tools.py",
        "tests/test_explanations_in_gdb.py",
    ],
    "mte_host": ["tests/test_host.py"],
}
PROGRAMS = (*SUITES, "libtombolopan_c.a")
# The crates whose bodies another program than mte_run shows.
SHOWN_BY = {"mte_host": "mte_host"}


@dataclass(frozen=True)
class Plant:
    """A wrong body."""

    name: str
    crate: str
    file: str
    shows: str
    old: str
    new: str

    @property
    def program(self) -> Optional[str]:
        """The program that shows it; the library for C has none."""
        if self.crate == "tombolopan_c":
            return None
        return SHOWN_BY.get(self.crate, "mte_run")

    @functools.cached_property
    def functions(self) -> "re.Pattern[str]":
        """The functions that it changes, by their names in a module: one, and those within it, or
        any where it changes a constant."""
        text = (ROOT / self.file).read_text(encoding="utf-8")
        at = text.index(self.old) + len(os.path.commonprefix([self.old, self.new]))
        named = re.findall(r"\bfn (\w+)|^[}\]]", text[:at], re.M)[-1:] or [""]
        return re.compile(rf'@"{self.crate}::(.*::)?{named[0]}\b' if named[0] else "")

    def apply(self, checkout: pathlib.Path) -> None:
        """Changes the file of a checkout."""
        path = checkout / self.file
        text = path.read_text(encoding="utf-8")
        if text.count(self.old) != 1:
            count = text.count(self.old)
            sys.exit(f"plants.py: {self.name}: its text is {count} times in {self.file}")
        path.write_text(text.replace(self.old, self.new), encoding="utf-8")


def read_plants(files: list[pathlib.Path], word: str) -> list[Plant]:
    """The plants of some files whose names have a word."""
    tables = [(name, table) for file in files
              for name, table in tomllib.loads(file.read_text(encoding="utf-8")).items()]
    return [Plant(name=name, **table) for name, table in tables if word in name]


def copy_checkout(to: pathlib.Path) -> None:
    """Copies the files of this checkout that git knows or does not ignore."""
    names = subprocess.run(
        ["git", "ls-files", "-co", "--exclude-standard"], cwd=ROOT, stdout=subprocess.PIPE,
        text=True, check=True,
    ).stdout.splitlines()
    for name in names:
        source, path = ROOT / name, to / name
        if source.is_file():
            path.parent.mkdir(parents=True, exist_ok=True)
            shutil.copy2(source, path)
    subprocess.run(["git", "init", "-q"], cwd=to, check=True)
    subprocess.run(["git", "add", "-A"], cwd=to, check=True)


def first_line(text: str, pattern: str) -> str:
    """The first line that has a pattern, or the last line."""
    lines = [line for line in text.splitlines() if re.search(pattern, line)]
    return (lines or text.strip().splitlines() or ["?"])[0][:140]


def by_border(checkout: pathlib.Path) -> Optional[str]:
    """What the check of the border to C says, where it is red."""
    ran = subprocess.run(
        [PYTHON, "tools/border.py", "--check"], cwd=checkout, stdout=subprocess.PIPE,
        stderr=subprocess.STDOUT, text=True, check=False,
    )
    return None if ran.returncode == 0 else f"tools/border.py: {first_line(ran.stdout, '.')}"


def right_programs(folder: Optional[pathlib.Path]) -> list[pathlib.Path]:
    """The right programs and the library: of a folder, or of this checkout."""
    found = folder.iterdir() if folder else (ROOT / "crates").glob("*/out/*")
    return [path.resolve() for path in found if path.name in PROGRAMS]


def by_cases(checkout: pathlib.Path, programs: pathlib.Path, cases: list[str]) -> Optional[str]:
    """The first of some cases that is red over a folder of programs."""
    with tempfile.TemporaryDirectory(prefix="cases-") as base:
        ran = subprocess.run(
            ["prlimit", f"--cpu={SECONDS}", PYTHON, "-m", "pytest", "-x", "-p", "no:cacheprovider",
             f"--basetemp={base}/cases", *cases],
            cwd=checkout, stdout=subprocess.PIPE, stderr=subprocess.STDOUT, text=True, check=False,
            env={**os.environ, "TOMBOLOPAN_BUILT": str(programs)},
        )
    return None if ran.returncode == 0 else first_line(ran.stdout, "^(FAILED|ERROR)")


def link_programs(programs: pathlib.Path, given: argparse.Namespace, but: str) -> None:
    """Makes a folder of links to the right programs, but for one."""
    programs.mkdir()
    for path in right_programs(given.built):
        if path.name != but:
            (programs / path.name).symlink_to(path)


def try_library(plant: Plant) -> Optional[str]:
    """What notices a body of the library."""
    with tempfile.TemporaryDirectory(prefix="plant-") as folder:
        checkout = pathlib.Path(folder)
        copy_checkout(checkout)
        plant.apply(checkout)
        return by_border(checkout)


def module_parts(checkout: pathlib.Path, work: pathlib.Path, name: str) -> dict[str, str]:
    """The parts of the module of a program of a checkout."""
    work.mkdir()
    text = unproved.make_module(checkout, name, work).read_text(encoding="utf-8")
    shutil.rmtree(work)
    return switches.parts_of(text)


def groups_of(plants: Sequence[Plant]) -> list[list[Plant]]:
    """The plants in groups, in which no two change one function; one of a constant is alone."""
    groups: list[list[Plant]] = []
    for plant in plants:
        fitting = [group for group in groups if all(
            "" != it.functions.pattern != plant.functions.pattern != "" for it in group)]
        if fitting:
            fitting[0].append(plant)
        else:
            groups.append([plant])
    return groups


def with_plants(work: pathlib.Path, name: str, plants: Sequence[Plant]) -> list[Body]:
    """Builds a program with bodies of files behind switches."""
    right = module_parts(ROOT, work / "right", name)
    bodies: dict[str, tuple[dict[str, str], list[str]]] = {}
    for number, group in enumerate(groups_of(plants)):
        checkout = work / f"group-{number}"
        copy_checkout(checkout)
        for plant in group:
            plant.apply(checkout)
        wrong = module_parts(checkout, work / "wrong", name)
        changed = switches.changed(right, wrong)
        for plant in group:
            bodies[plant.name] = (wrong, list(filter(plant.functions.match, changed)))
        left = set(changed).difference(*(names for _, names in bodies.values()))
        if left or not all(names for _, names in bodies.values()):
            sys.exit(f"plants.py: {[it.name for it in group]}: of no body: {left}")
    module = work / f"{name}.ll"
    module.write_text(switches.with_bodies(right, list(bodies.values())), encoding="utf-8")
    unproved.compile_module(module, work / name)
    return switches.switches_of((work / name).read_bytes(), list(bodies))


def by_quick_cases(program: pathlib.Path, images: pathlib.Path) -> Optional[str]:
    """The first of the quickest cases that is red over a program."""
    words = ["prlimit", f"--cpu={QUICK_SECONDS}", PYTHON, "-m", "tests.support.quick_cases"]
    ran = subprocess.run(
        [*words, program, images], cwd=ROOT, stdout=subprocess.DEVNULL, stderr=subprocess.PIPE,
        text=True, check=False, env={**os.environ, "PYTHONPATH": "tools"},
    )
    return None if ran.returncode == 0 else f"quick cases: {first_line(ran.stderr, '.')}"


def by_body(path: pathlib.Path, body: Optional[Body], images: pathlib.Path,
            given: argparse.Namespace) -> Optional[str]:
    """The first case that is red over a program with a wrong body, or without one."""
    with tempfile.TemporaryDirectory(prefix="body-") as folder:
        programs, right = pathlib.Path(folder) / "built", path.read_bytes()
        link_programs(programs, given, path.name)
        # Runs write beside the images: each body has images of its own.
        own = shutil.copytree(images, pathlib.Path(folder) / "images") if body else images
        program = programs / path.name
        program.write_bytes(body.put(right) if body else right)
        program.chmod(0o755)
        found = by_quick_cases(program, own) if path.name == "mte_run" else None
        if found is None and not given.sample:
            found = by_cases(ROOT, programs, SUITES[path.name])
        if found is None and given.whole:
            found = by_cases(ROOT, programs, ["-n", str(given.jobs), "tests"])
        return found


def try_bodies(path: pathlib.Path, bodies: list[Body], given: argparse.Namespace) -> Answers:
    """What notices each body of a program, without which all is green."""
    with tempfile.TemporaryDirectory(prefix="images-") as folder, \
            concurrent.futures.ThreadPoolExecutor(given.jobs) as pool:
        images = pathlib.Path(folder)
        if (right := by_body(path, None, images, given)) is not None:
            sys.exit(f"plants.py: {path} with no wrong body: {right}")
        jobs = {pool.submit(by_body, path, it, images, given): it.name for it in bodies}
        return {jobs[job]: said(jobs[job], job.result())
                for job in concurrent.futures.as_completed(jobs)}


def said(name: str, found: Optional[str]) -> Optional[str]:
    """What notices a body, as it is written."""
    print(f"{name}: {found or 'NOT NOTICED'}", flush=True)
    return found


def try_drawn(given: argparse.Namespace) -> Answers:
    """Tries bodies that are drawn."""
    path = next(it for it in right_programs(given.built) if it.name == "mte_run")
    crates = switches.crates_that_explain(ROOT)
    return try_bodies(path, switches.draw(path, crates, given.drawn, given.seed), given)


def try_files(given: argparse.Namespace) -> Answers:
    """Tries bodies of files."""
    files = given.files or sorted((ROOT / "tools" / "wrong_bodies").glob("*.toml"))
    plants = read_plants(files, given.only)
    answers = {it.name: said(it.name, try_library(it)) for it in plants if it.program is None}
    for name in SUITES:
        own = [it for it in plants if it.program == name]
        with tempfile.TemporaryDirectory(prefix="plants-") as folder:
            work = pathlib.Path(folder)
            answers |= try_bodies(work / name, with_plants(work, name, own), given) if own else {}
    return answers


def falls_short(answers: Answers, stored: Mapping[str, Any]) -> bool:
    """Whether a smaller share is noticed than is stored; says how many are."""
    noticed = sum(it is not None for it in answers.values())
    print(f"{noticed} of {len(answers)} noticed; stored: {stored['noticed']} of {stored['count']}")
    return noticed * stored["count"] < stored["noticed"] * len(answers)


def compare(given: argparse.Namespace) -> bool:
    """Whether a stored share has fallen."""
    stored = tomllib.loads(STORED.read_text(encoding="utf-8"))
    drawn = stored["sample" if given.sample else "drawn"]
    given.drawn, given.seed = drawn["count"], drawn["seed"]
    is_less = falls_short(try_drawn(given), drawn)
    return is_less if given.sample else falls_short(try_files(given), stored["files"]) or is_less


def main() -> None:
    """Tries the plants, and counts what was noticed."""
    parser = argparse.ArgumentParser(description=__doc__.split("\n", 1)[0])
    parser.add_argument("files", nargs="*", type=pathlib.Path)
    parser.add_argument("--built", type=pathlib.Path)
    parser.add_argument("--jobs", type=int, default=1)
    parser.add_argument("--only", default="")
    parser.add_argument("--drawn", type=int)
    parser.add_argument("--seed", type=int, default=1)
    for option in ("--whole", "--share", "--sample"):
        parser.add_argument(option, action="store_true")
    given = parser.parse_args()
    if given.share or given.sample:
        sys.exit(compare(given))
    answers = try_drawn(given) if given.drawn else try_files(given)
    noticed = sum(it is not None for it in answers.values())
    print(f"{noticed} of {len(answers)} noticed")
    sys.exit(noticed < len(answers))


if __name__ == "__main__":
    main()
