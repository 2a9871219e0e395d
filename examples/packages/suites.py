#!/usr/bin/env python3
"""Runs the test suites that packages bring, by their own makefiles or ctest, with tenant-run as the
runner of what they built, and natively; and counts what passes.

    suites.py [--only NAME,..] [--jobs N] [--out FOLDER] [--library FOLDER] [--alone PATH]
    suites.py --write

Each suite of suites.toml is built twice, as packages.py builds a package, and its line `check` runs
in both copies. In its lines are the words of packages.py and EMULATOR, RUN as a list of CMake
(empty natively). Where a suite starts its programs by their paths, `wraps` puts a script that runs
it by RUN in the place of each program that was built. `passed` and `failed` are patterns of the
lines of a test: each match counts, or the number in its group does; `total` in place of `passed`
counts those that fail too. `large_blocks` is the area of tenant-cc's --large-blocks. A line says
what came of each; `--write` writes the table of docs/project/PACKAGES.md. The exit status is 1
where the counts differ and suites.toml doesn't say why, or are the same and it does.
"""
import argparse
import concurrent.futures
import json
import pathlib
import re
import shlex
import shutil
import sys
import tomllib
from dataclasses import dataclass

HERE = pathlib.Path(__file__).resolve().parent
sys.path[:0] = [str(HERE), str(HERE.parent)]
import debian_source  # noqa: E402
import packages  # noqa: E402
from command_line import Parser  # noqa: E402
from page_part import write_part  # noqa: E402

SCRIPT = "examples/packages/suites.py"
SECONDS = 3000
# What ctest and GoogleTest write of a test.
KINDS = {
    "ctest": (r"^ *\d+/\d+ Test .* Passed ", r"^ *\d+/\d+ Test .*\*\*\*"),
    "googletest": (r"\[       OK \] ", r"\[  FAILED  \] [\w/.]+ \("),
    "automake": (r"^# PASS: +(\d+)$", r"^# (?:FAIL|ERROR): +(\d+)$"),
}
Counts = tuple[int, int]  # passed and failed


@dataclass(frozen=True)
class Suite:
    """A suite: its lines of shell, what counts, the files that tenants find, why it differs, and
    the area for large blocks of its programs."""

    name: str
    how: str
    build: str
    check: str
    passed: str
    failed: str
    total: str
    files: tuple[str, ...]
    writes: bool
    wraps: bool
    needs: tuple[str, ...]
    why: str
    large_blocks: int


def read_suites(path: pathlib.Path = HERE / "suites.toml") -> list[Suite]:
    """All suites, in order of their names."""
    made = []
    for name, given in tomllib.loads(path.read_text(encoding="utf-8")).items():
        passed, failed = KINDS.get(given.get("kind", ""), ("", ""))
        made.append(Suite(
            name, given["how"], given["build"], given["check"], given.get("passed", passed),
            given.get("failed", failed), given.get("total", ""), tuple(given.get("files", ())),
            given.get("writes", False), given.get("wraps", False),
            tuple(given.get("needs", ())), given.get("why", ""), given.get("large_blocks", 0)))
    return sorted(made, key=lambda suite: suite.name)


def counted(pattern: str, text: str) -> int:
    """How many tests the lines of a pattern have."""
    found = list(re.finditer(pattern, text, re.M))
    return sum(int(it[1]) if it.re.groups else 1 for it in found)


def tenant_words(suite: Suite, place: packages.Place, folder: pathlib.Path) -> dict[str, str]:
    """The environment of a suite over tenants, which find files by their absolute names."""
    paths = [folder / name for name in suite.files]
    files = tuple(f"{it}={it}" if it.is_file() else str(it) for it in paths)
    package = packages.Package(suite.name, "", "", "", (), files, suite.writes)
    words = packages.tenant_words(package, place)
    if suite.large_blocks:
        words |= {it: f"{words[it]} --large-blocks={suite.large_blocks}" for it in ("CC", "CXX")}
    return {**words, "EMULATOR": "" if suite.wraps else ";".join(shlex.split(words["RUN"]))}


def is_program(path: pathlib.Path) -> bool:
    """Whether a file is a program for AArch64 (ELF64: e_type EXEC, e_machine)."""
    if path.is_symlink() or not path.is_file():
        return False
    with path.open("rb") as file:
        head = file.read(20)
    return head[:4] == b"\x7fELF" and head[16:20] == b"\x02\x00\xb7\x00"


def wrap(folder: pathlib.Path, run: str) -> None:
    """Puts a script that runs it in the place of each program in a folder."""
    for path in [it for it in folder.rglob("*") if is_program(it)]:
        image = path.with_name(f"{path.name}.image")
        path.rename(image)
        path.write_text(f'#!/bin/sh\nexec {run} {shlex.quote(str(image))} "$@"\n', "utf-8")
        path.chmod(0o755)


def counts_of(suite: Suite, place: packages.Place, kind: str) -> tuple[str, Counts]:
    """Builds a suite in one way and runs it: what kept it, or nothing, and the counts."""
    work = place.out / "suites" / suite.name
    folder = work / kind
    source = debian_source.fetch(place.out / "sources", suite.name)
    shutil.rmtree(folder, ignore_errors=True)
    shutil.copytree(source, folder, symlinks=True)
    if kind == "tenant":
        words = tenant_words(suite, place, folder)
    else:
        words = {**packages.native_words(place), "EMULATOR": "", "RUN": "env HOME=/tmp"}
    status, said, _ = packages.shell(suite.build, folder, words, SECONDS)
    (work / f"{kind}.build.log").write_bytes(said)
    if status:
        return f"{kind}: is not built", (0, 0)
    if kind == "tenant" and suite.wraps:
        wrap(folder, words["RUN"])
    _, said, _ = packages.shell(suite.check, folder, words, SECONDS)
    (work / f"{kind}.check.log").write_bytes(said)
    text = said.decode(errors="replace")
    changed = packages.changed_files(source, folder)
    kept = f"{kind}: other files: {' '.join(changed[:5])}" if changed else ""
    failed = counted(suite.failed, text)
    if suite.total:
        return kept, (counted(suite.total, text) - failed, failed)
    return kept, (counted(suite.passed, text), failed)


def outcome_of(suite: Suite, place: packages.Place) -> dict[str, object]:
    """What came of a suite."""
    found: dict[str, object] = {"kept": ""}
    try:
        for kind in ("native", "tenant"):
            kept, found[kind] = counts_of(suite, place, kind)
            found["kept"] = found["kept"] or kept
        found["version"] = packages.version_of(place.out / "sources", suite.name)
    except debian_source.NotFetched as error:
        found["kept"] = f"not fetched: {error}"
    return found


def text_of(counts: object) -> str:
    """Counts as the page has them."""
    assert isinstance(counts, (list, tuple))
    passed, failed = counts
    return f"{passed} of {passed + failed}"


def table(suites: list[Suite], results: dict[str, dict[str, object]]) -> str:
    """What the page has of all suites."""
    known = [it for it in suites if it.name in results]
    same = sum(results[it.name]["native"] == results[it.name]["tenant"] for it in known)
    text = (f"Of {len(known)} suites {same} pass and fail the same tests natively and as tenants.\n"
            "\n| Package | Version | Its suite | Natively | As tenants | What differs |\n"
            "|---|---|---|---|---|---|\n")
    for it in known:
        of = results[it.name]
        text += (f"| {it.name} | {of['version']} | {it.how} | {text_of(of['native'])} "
                 f"| {text_of(of['tenant'])} | {it.why or 'nothing'} |\n")
    left = ", ".join(it.name for it in suites if it.name not in results)
    return text + (f"\nNot run since they were entered: {left}.\n" if left else "")


def read_results(out: pathlib.Path) -> dict[str, dict[str, object]]:
    """The results of earlier runs."""
    path = out / "suites.json"
    found: dict[str, dict[str, object]] = {}
    if path.exists():
        found = json.loads(path.read_text(encoding="utf-8"))
    return found


def keep(out: pathlib.Path, name: str, outcome: dict[str, object]) -> None:
    """Keeps what came of a suite beside the others."""
    results = {**read_results(out), name: outcome}
    (out / "suites.json").write_text(json.dumps(results, indent=1), encoding="utf-8")


def is_explained(suite: Suite, outcome: dict[str, object]) -> bool:
    """Whether the counts are as suites.toml has it."""
    if outcome["kept"]:
        return False
    return (outcome["native"] == outcome["tenant"]) == (not suite.why)


def fetch_all(place: packages.Place, suites: list[Suite]) -> None:
    """Fetches what all need, one after the other."""
    for suite in suites:
        for name in (suite.name, *suite.needs):
            try:
                debian_source.fetch(place.out / "sources", name)
            except debian_source.NotFetched as error:
                print(f"suites.py: {error}", file=sys.stderr)


def arguments() -> argparse.Namespace:
    parser = Parser(__doc__)
    parser.add_argument("--only", default="")
    packages.add_common(parser)
    return parser.parse_args()


def main() -> int:
    options = arguments()
    suites, place = read_suites(), packages.place_of(options)
    if options.write:
        write_part(packages.PAGE, SCRIPT, table(suites, read_results(place.out)))
        return 0
    names = [name for name in options.only.split(",") if name]
    wanted = [it for it in suites if not names or it.name in names]
    fetch_all(place, wanted)
    status = 0
    with concurrent.futures.ThreadPoolExecutor(options.jobs) as pool:
        running = {pool.submit(outcome_of, it, place): it for it in wanted}
        for done in concurrent.futures.as_completed(running):
            suite, outcome = running[done], done.result()
            print(f"{suite.name}: natively {outcome.get('native')}, as tenants "
                  f"{outcome.get('tenant')} {outcome['kept']}", flush=True)
            status |= not is_explained(suite, outcome)
            if not outcome["kept"]:
                keep(place.out, suite.name, outcome)
    return status


if __name__ == "__main__":
    sys.exit(main())
