#!/usr/bin/env python3
"""Profiles packages by mte_run --profile, has the tools of others read the forms of the counts, and
compares the lines that were executed with those of gcov.

    profiled.py [--only NAME,..] [--jobs N] [--out FOLDER] [--library FOLDER] [--alone PATH]
    profiled.py --write

Each package of packages.toml is built as a tenant at -O0 with -g, and natively by the same lines of
shell with clang's --coverage. Its commands run in both. Of each image the counts of its runs are
added up: the sums over functions and over calls have to be the steps. callgrind_annotate, genhtml,
pprof and ms_print have to read the forms, with the same totals and without a warning, of the images
with the most steps.

A line of the package's sources that one has and the other has not, or that one says was executed
and the other that it was not, counts by a reason (gcov_lines.py): for the latter callgrind counts
the native build in one more run. A line says what came of each package; FOLDER keeps copies and
results. `--write` writes pictures of zlib and Lua into docs/pictures, and parts of
docs/PROFILING.md and docs/project/PACKAGES.md. The exit status is 1 where something is wrong, or a
line differs without a reason. Needed beside what packages.py needs: llvm, lcov, valgrind, golang.
"""
import concurrent.futures
import datetime
import functools
import itertools
import json
import pathlib
import shlex
import shutil
import subprocess
import sys
from collections import Counter
from dataclasses import dataclass, field

HERE = pathlib.Path(__file__).resolve().parent
sys.path[:0] = [str(HERE), str(HERE.parent), str(HERE.parent / "embed")]
import checked  # noqa: E402
import gcov_lines  # noqa: E402
import packages  # noqa: E402
import profile_tools  # noqa: E402
from command_line import Parser  # noqa: E402
from page_part import write_part  # noqa: E402
from tombolopan_profile import counts as run_counts  # noqa: E402
from tombolopan_profile import flame, forms  # noqa: E402

ROOT = HERE.parents[1]
PAGE, PICTURES = ROOT / "docs" / "PROFILING.md", ROOT / "docs" / "pictures"
REASONS = ROOT / "docs" / "project" / "PACKAGES.md"
SCRIPT = "examples/packages/profiled.py"
FLAGS, NATIVE_FLAGS = "-O0 -g -w", "-O0 -gdwarf-4 -w"  # which valgrind reads
READ = 1  # of how many images of a package the tools read the forms
DRAWN = {"zlib": "minigzip", "lua5.4": "lua"}
COVERED = "libb64"
COMPARED = "compared"
# Keeps the exit status of a program, whose output goes on when it has ended: a closed pipe ends no
# program, since such an end leaves no counts.
WRAPPER = """#!/bin/sh
output=$(mktemp)
"$@" > "$output"
status=$?
echo $status >> "$SAID"
cat "$output" 2> /dev/null
rm "$output"
exit $status
"""


@dataclass
class Result:
    """What came of a package."""

    name: str
    commands: Counter[str] = field(default_factory=Counter)
    images: int = 0
    runs: int = 0
    steps: int = 0
    lines: int = 0
    reasons: Counter[str] = field(default_factory=Counter)
    unexplained: list[str] = field(default_factory=list)
    wrong: list[str] = field(default_factory=list)
    files: dict[str, list[int]] = field(default_factory=dict)
    date: str = ""
    build: str = ""


@dataclass(frozen=True)
class Ran:
    """A command that ends alike in both builds: the statuses of its programs, and their counts."""

    command: str
    statuses: Counter[str]
    files: list[pathlib.Path]


Images = dict[str, tuple[run_counts.Counts, list[pathlib.Path]]]


def counted(paths: list[pathlib.Path]) -> Images:
    """The counts of each image, with their files."""
    files: dict[str, list[pathlib.Path]] = {}
    for file in paths:
        with file.open(encoding="utf-8") as lines:
            name = next(itertools.islice(lines, 1, None)).rstrip("\n").split("\t")[1]
        files.setdefault(name, []).append(file)
    return {name: (run_counts.read_files(some), some) for name, some in files.items()}


def environments(package: packages.Package, place: packages.Place,
                 work: pathlib.Path) -> tuple[dict[str, str], dict[str, str]]:
    """The environments of the builds and runs: of tenants, and natively."""
    wrapper = work / "run.sh"
    wrapper.write_text(WRAPPER)
    wrapper.chmod(0o755)
    short = packages.without_blanks(wrapper, place)
    tenant, native = packages.tenant_words(package, place), packages.native_words(place)
    for words, flags in ((tenant, FLAGS), (native, NATIVE_FLAGS)):
        words |= {"CFLAGS": flags, "CXXFLAGS": flags, "RUN": f"{short} {words['RUN']}"}
    native |= {"CC": "clang --coverage", "CXX": "clang++ --coverage"}
    return tenant, native


def run_both(package: packages.Package, work: pathlib.Path, result: Result,
             words: tuple[dict[str, str], dict[str, str]]) -> list[Ran]:
    """Runs the commands of a package in both builds; those that end alike."""
    ran = []
    for number, line in enumerate(package.run):
        folder = work / "counts" / str(number)
        folder.mkdir(parents=True)
        profile = {"TENANT_OPTIONS": f"--profile={folder}"}
        wanted = gcov_lines.run_of(work / "tenant", line, {**words[0], **profile})
        reason = gcov_lines.ran_natively(work / "native", line, words[1], wanted)
        result.commands.update([reason or COMPARED])
        if not reason:
            ran.append(Ran(line, wanted, sorted(folder.iterdir())))
    return ran


def read_forms(images: Images, work: pathlib.Path, result: Result) -> None:
    """Checks the sums of all images, and the forms of those with the most steps."""
    for name, (counts, files) in images.items():
        (work / f"{pathlib.Path(name).name}.svg").write_text(flame.flame(counts))
        # It was named as it was given to tenant-run.
        counts.image = str(found_image(work / "tenant", name))
        result.images, result.runs = result.images + 1, result.runs + len(files)
        result.steps += counts.steps
        result.wrong += [f"{name}: {it}" for it in profile_tools.wrong_sums(counts)]
    most = sorted(images.values(), key=lambda one: -one[0].steps)[:READ]
    result.wrong += [wrong for number, (counts, files) in enumerate(most)
                     for wrong in profile_tools.wrong_tools(
                         counts, run_counts.read_files(files[:1]), work / f"forms.{number}")]


def run_natively_again(commands: list[Ran], work: pathlib.Path,
                       words: dict[str, str]) -> gcov_lines.Witness:
    """The lines that the native build executes, by callgrind; ValueError where it ends otherwise
    there."""
    folder = work / "callgrind"
    folder.mkdir()
    tool = shlex.join([*gcov_lines.CALLGRIND, f"--callgrind-out-file={folder}/%p"])
    for ran in commands:
        ended = gcov_lines.run_of(work / "native", ran.command,
                                  {**words, "RUN": f"{words['RUN']} {tool}"})
        if ended != ran.statuses:
            raise ValueError(f"callgrind: {dict(ended)}, not {dict(ran.statuses)}: {ran.command}")
    return gcov_lines.by_callgrind(folder.iterdir(), work / "native")


def profiled(package: packages.Package, place: packages.Place) -> Result:
    """What came of a package."""
    is_proved = not place.alone.with_name(f"{place.alone.name}.unproved").exists()
    result = Result(package.name, date=datetime.date.today().isoformat(),
                    build="a proved build" if is_proved else "an unproved build")
    work = place.out / "profiled" / package.name
    shutil.rmtree(work, ignore_errors=True)
    work.mkdir(parents=True)
    words = environments(package, place, work)
    reasons = [checked.built(package, work / name, own, place)
               for name, own in zip(("tenant", "native"), words)]
    if any(reasons):
        result.wrong.append(f"not built: {' '.join(reasons)}")
        return result
    commands = run_both(package, work, result, words)
    images = counted([file for ran in commands for file in ran.files])
    read_forms(images, work, result)
    mine = gcov_lines.by_tenants((counts for counts, _ in images.values()), work / "tenant")
    found = gcov_lines.difference(gcov_lines.natively(work / "native"), mine, work / "native")
    if found.doubtful:
        found.settle(run_natively_again(commands, work, words[1]), gcov_lines.by_llvm(
            (counts for counts, _ in images.values()), work / "tenant"))
    result.lines, result.reasons = found.lines, found.reasons
    result.unexplained = list(found.unexplained.values())
    result.files = {name: [len(source.lines), forms.hits(source.lines)]
                    for name, source in sorted(mine.items())}
    return result


def found_image(folder: pathlib.Path, name: str) -> pathlib.Path:
    """The file of an image, as a command names it in some folder of a build."""
    path = folder / name
    return path if path.is_file() else next(folder.rglob(pathlib.Path(name).name), path)


def tried(package: packages.Package, place: packages.Place) -> Result:
    """What came of a package; what is wrong is written."""
    try:
        result = profiled(package, place)
    except (OSError, ValueError, LookupError, subprocess.SubprocessError) as error:
        result = Result(package.name, wrong=[f"{type(error).__name__}: {error}"])
    (place.out / "profiled" / f"{package.name}.json").write_text(json.dumps(vars(result), indent=1))
    print(f"{package.name}: {dict(result.commands)}, {result.images} images, {result.steps} steps, "
          f"{result.lines} lines, {sum(result.reasons.values())} differ by reasons, "
          f"{len(result.unexplained)} without", *result.wrong, *result.unexplained, sep="\n  ",
          flush=True)
    return result


def kept(place: packages.Place) -> list[Result]:
    """What came of all packages in which lines were compared."""
    files = sorted((place.out / "profiled").glob("*.json"))
    found = [Result(**json.loads(file.read_text(encoding="utf-8"))) for file in files]
    return [it for it in found if it.lines]


def coverage_rows(result: Result) -> str:
    """The coverage of a package's files."""
    rows = [f"| {pathlib.PurePath(name).name} | {hit} of {lines} | {100 * hit / lines:.1f} % |\n"
            for name, (lines, hit) in result.files.items()]
    return "| File | Lines executed | |\n|---|---|---|\n" + "".join(rows)


def compared_rows(results: list[Result]) -> str:
    """How many lines of packages differ, by the reasons."""
    reasons = sum((Counter(it.reasons) for it in results), Counter[str]())
    rows = [*reasons.most_common(), ("no reason", sum(len(it.unexplained) for it in results))]
    last = max(results, key=lambda it: it.date)
    return (f"Of {len(results)} packages {sum(it.lines for it in results):,} lines were compared "
            f"({last.date}, {last.build}):\n\n| Lines that differ | |\n|---|---|\n"
            + "".join(f"| {reason} | {count} |\n" for reason, count in rows))


def write(place: packages.Place) -> None:
    """Writes the pictures and the parts of both pages."""
    results = kept(place)
    for package, program in DRAWN.items():
        picture = place.out / "profiled" / package / f"{program}.svg"
        shutil.copyfile(picture, PICTURES / f"profile_{program}.svg")
    pictures = "".join(f"![Steps of {program} by calls](pictures/profile_{program}.svg)\n\n"
                       for program in DRAWN.values())
    covered = next(it for it in results if it.name == COVERED)
    write_part(PAGE, SCRIPT, f"{pictures}{COVERED} by its commands:\n\n{coverage_rows(covered)}")
    write_part(REASONS, SCRIPT, compared_rows(results))


def main() -> int:
    parser = Parser(__doc__)
    parser.add_argument("--only", type=functools.partial(str.split, sep=","), default=[])
    packages.add_common(parser)
    options = parser.parse_args()
    place = packages.place_of(options)
    if options.write:
        write(place)
        return 0
    wanted = [it for it in packages.read_packages() if not options.only or it.name in options.only]
    packages.fetch_all(place.out / "sources", wanted)
    with concurrent.futures.ThreadPoolExecutor(options.jobs) as pool:
        results = list(pool.map(functools.partial(tried, place=place), wanted))
    return 1 if any(it.wrong or it.unexplained for it in results) else 0


if __name__ == "__main__":
    sys.exit(main())
