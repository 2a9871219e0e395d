"""Profiles: the counts of a run and its calls beside its trace, and their forms beside the tools
that read them."""

import bisect
import copy
import json
import os
import pathlib
import random
import re
import shutil
import subprocess
import sys
import xml.etree.ElementTree
from collections import Counter, defaultdict
from collections.abc import Iterator
from dataclasses import astuple, dataclass, field

import pytest

from tests.reference import programs
from tests.reference.runs import Runner
from tests.support import drawn_blocks
from tests.support import instructions as a64
from tests.support.cache import tenant_library
from tests.support.places import EXAMPLES
from tests.support.programs import compiled
from tests.support.running import HANG, Word, run, succeed
from tests.support.tools import need
from tests.support.traces import Step, read_trace

sys.path[:0] = [str(EXAMPLES / name) for name in ("embed", "packages")]
import gcov_lines  # noqa: E402
from tombolopan_profile import counts as run_counts  # noqa: E402
from tombolopan_profile import forms, heap  # noqa: E402

TOOL = EXAMPLES / "libc" / "tenant-profile"
IMAGES = sorted((pathlib.Path(__file__).parent / "images").glob("*.elf"))
PROGRAMS = sorted((EXAMPLES / "libc" / "tests" / "programs").glob("*.c"))[:8]
ACTS = "afmu"
DRAWN = int(os.environ.get("TOMBOLOPAN_DRAWN", "200")) // 4
WAYS: list[list[Word]] = [[], ["--slices", "1,7,1000,1000000"], ["--exact"], ["--check"],
                          ["--steps", "150"], ["--statistics", "--leaks"]]
BYTES = 4
SLICE, CANNOT_WRITE, CLOSED = 1 << 20, 6, 141
PLAIN = 1 << 56
CALL = re.compile(r"(malloc|calloc|realloc|memalign|free)\(([^)]*)\) = (\w+)$")
Symbols = list[tuple[int, int, str]]


# ---- a model of the calls, by the trace


def symbols_of(path: pathlib.Path) -> Symbols:
    """The functions of an image: first address, bytes and name."""
    text = succeed(["llvm-nm", "-n", "-S", "--defined-only", path]).output
    rows = re.findall(r"^([0-9a-f]{16}) ([0-9a-f]{16}) [tTwW] (\S+)$", text, re.M)
    return [(int(start, 16), int(size, 16), name) for start, size, name in rows]


def function_of(symbols: Symbols, address: int) -> int:
    """The first address of the function that an address is in, 0 for none."""
    at = bisect.bisect_right(symbols, address, key=lambda one: one[0]) - 1
    return symbols[at][0] if at >= 0 and address < symbols[at][0] + symbols[at][1] else 0


Stack = tuple[int, ...]


def stacks(steps: list[Step], symbols: Symbols) -> list[Stack]:
    """For each step the stack of first addresses that it is in."""
    found: list[Stack] = []
    first = steps[0].pc
    calls: list[tuple[int, int]] = []
    for step, after in zip(steps, [*steps[1:], None], strict=True):
        found.append((first, *(entry for entry, _ in calls)))
        if after is None or after.pc == step.pc + BYTES:
            continue
        name = step.text.split()[0]
        if name in ("bl", "blr"):
            calls.append((after.pc, step.pc + BYTES))
            continue
        target = function_of(symbols, after.pc)
        if name != "ret" and (not target or target == function_of(symbols, step.pc)):
            continue
        if name != "ret" and target == after.pc:
            calls[-1:] = [(after.pc, calls[-1][1] if calls else 0)]
            continue
        backs = [number for number, call in enumerate(calls) if call[1] == after.pc]
        same = [number for number, call in enumerate(calls) if call[0] == target]
        if backs:
            del calls[backs[-1]:]
        elif same:
            del calls[same[-1] + 1:]
    return found


def own_steps(counts: run_counts.Counts) -> Counter[Stack]:
    """The own steps of each stack of a profile."""
    found: Counter[Stack] = Counter()
    for number, call in enumerate(counts.calls):
        if call.steps:
            found[tuple(counts.calls[one].entry for one in counts.stack(number))] += call.steps
    return found


@dataclass
class Heap:
    """A model of the heap: of each stack the numbers that a profile has, live chunks, the peak."""

    sums: dict[Stack, list[int]] = field(default_factory=lambda: defaultdict(lambda: [0] * 6))
    chunks: dict[int, tuple[Stack, int, int]] = field(default_factory=dict)
    peak: tuple[int, int] = (0, 0)
    at_peak: Counter[Stack] = field(default_factory=Counter)

    def free(self, address: int, step: int) -> None:
        """A chunk is freed."""
        if address in self.chunks:
            stack, size, made = self.chunks.pop(address)
            self.add(stack, (0, 0, 1, step - made, -1, -size))

    def make(self, address: int, chunk: tuple[Stack, int, int]) -> None:
        """A chunk is made."""
        self.chunks[address] = chunk
        stack, size, step = chunk
        self.add(stack, (1, size, 0, 0, 1, size))
        live = sum(one for _, one, _ in self.chunks.values())
        if live > self.peak[1]:
            self.peak = step, live
            self.at_peak = Counter()
            for owner, one, _ in self.chunks.values():
                self.at_peak[owner] += one

    def add(self, stack: Stack, row: tuple[int, ...]) -> None:
        """Numbers of a stack grow."""
        self.sums[stack] = [had + more for had, more in zip(self.sums[stack], row, strict=True)]


def heap_of(steps: list[Step], owners: list[Stack]) -> Heap:
    """The heap of a run by the calls in its trace."""
    heap = Heap()
    for step, owner in zip(steps, owners, strict=True):
        found = CALL.match(step.service or "")
        if found is None:
            continue
        given = [int(word, 0) for word in found[2].split(", ")]
        answer = int(found[3], 0)
        if found[1] == "free" or (found[1] == "realloc" and (answer or not given[1])):
            heap.free(given[0] % PLAIN, step.number)
        if found[1] != "free" and answer:
            size = given[0] * given[1] % 2 ** 64 if found[1] == "calloc" else given[-1]
            heap.make(answer % PLAIN, (owner, size, step.number))
    return heap


def heap_by_stack(counts: run_counts.Counts) -> dict[Stack, list[int]]:
    """The sums of a profile's heap by stack."""
    found: dict[Stack, list[int]] = defaultdict(lambda: [0] * 7)
    for number, sums in counts.heap.items():
        stack = tuple(counts.calls[one].entry for one in counts.stack(number))
        found[stack] = [had + more for had, more in zip(found[stack], astuple(sums), strict=True)]
    return dict(found)


def services_of(counts: run_counts.Counts) -> list[tuple[int, str]]:
    """The services after which the tenant went on. Slices begin one after another; an end is the
    last event."""
    slices = [it.step for it in counts.events if it.kind == "slice"]
    assert slices[0] == 0 and slices == sorted(slices) and counts.missed == 0
    ends = [it for it in counts.events if it.kind == "end"]
    assert ends in ([], [counts.events[-1]]) and all(it.step == counts.steps for it in ends)
    return [(it.step, it.what) for it in counts.events if it.kind == "service"]


def compare(alone: pathlib.Path, folder: pathlib.Path, path: pathlib.Path,
            words: list[Word]) -> int:
    """Compares the profile of a run with its trace; how many steps there were."""
    file, trace = folder / "counts", folder / "trace"
    plain = run([alone, *words, path])
    traced = run([alone, *words, "--trace", "--trace-file", trace, path])
    told = run([alone, *words, "--profile", file, path])
    assert told == plain and (told.status, told.out) == (traced.status, traced.out)
    steps = list(read_trace(trace.read_text()))
    counts = run_counts.read_files([file])
    assert counts.is_complete and counts.steps == len(steps)
    assert counts.executions() == Counter(step.pc for step in steps)
    owners = stacks(steps, symbols_of(path))
    assert own_steps(counts) == Counter(owners)
    heap = heap_of(steps, owners)
    assert (counts.peak.step, counts.peak.bytes) == heap.peak
    assert heap_by_stack(counts) == {stack: [*row, heap.at_peak[stack]]
                                     for stack, row in heap.sums.items()}
    has_ended = any(it.kind == "end" for it in counts.events)
    assert services_of(counts) == [(step.number, step.service.split("(")[0])
                                   for step in steps[:len(steps) - has_ended] if step.service]
    assert sum(call.steps for call in counts.calls) == counts.inclusive()[0] == counts.steps
    assert all(0 <= one.first < one.last <= counts.steps for one in counts.long_calls)
    return len(steps)


@pytest.mark.parametrize("path", IMAGES, ids=[path.stem for path in IMAGES])
def test_images(alone: pathlib.Path, tmp_path: pathlib.Path, path: pathlib.Path) -> None:
    """Each instruction and each stack has as many steps as in the trace."""
    need("llvm-nm")
    for number, act in enumerate(ACTS):
        given = tmp_path / "input"
        given.write_text(act)
        compare(alone, tmp_path, path, ["--input", given, *WAYS[number % len(WAYS)]])


def test_drawn_programs(alone: pathlib.Path, tmp_path: pathlib.Path) -> None:
    """The same of drawn programs, each in one of the ways in turn."""
    need("llvm-nm")
    runner = Runner(alone, tmp_path)
    steps = 0
    for seed in range(DRAWN):
        *words, path = runner.prepare(programs.draw(seed).words)
        given = [*words, *WAYS[seed % len(WAYS)]]
        steps += compare(alone, tmp_path, pathlib.Path(str(path)), given)
    assert DRAWN < 50 or steps > 10_000


@pytest.mark.parametrize("path", IMAGES, ids=[path.stem for path in IMAGES])
def test_functions_and_lines(alone: pathlib.Path, tmp_path: pathlib.Path,
                             path: pathlib.Path) -> None:
    """Names, lines and inlined calls are those of the image's tables."""
    need("llvm-nm", "llvm-symbolizer")
    (tmp_path / "input").write_text(ACTS[0])
    run([alone, "--input", tmp_path / "input", "--profile", tmp_path / "counts", path])
    counts = run_counts.read_files([tmp_path / "counts"])
    names = {(start, name) for start, _, name in symbols_of(path)}
    assert {start for start, _ in names} <= {start for start, _ in counts.functions}
    starts = {start for start, _ in names}
    assert all(it in names for it in counts.functions if it[0] in starts)
    addresses = sorted(counts.executions())
    shown = succeed(["llvm-symbolizer", "--output-style=JSON", f"--obj={path}",
                     *map(hex, addresses)]).output
    rows = json.loads(shown if shown.startswith("[") else f"[{','.join(shown.splitlines())}]")
    assert addresses
    for address, row in zip(addresses, rows, strict=True):
        place = counts.place_at(address)
        mine = [forms.number_of(line)
                for line in (place.line, *(call.line for call in place.inlined))]
        assert mine == [frame["Line"] for frame in row["Symbol"]], hex(address)
        inlined = [frame["FunctionName"] for frame in row["Symbol"]][:-1]
        assert [call.function for call in place.inlined] == inlined, hex(address)


# ---- the forms


@pytest.fixture(scope="module")
def counted(alone: pathlib.Path, tmp_path_factory: pytest.TempPathFactory) -> pathlib.Path:
    """The counts of a program over the C library, in a folder of their own."""
    need("clang", "ld.lld")
    folder = tmp_path_factory.mktemp("counted")
    source = EXAMPLES / "libc" / "tests" / "programs" / "json_pretty.c"
    path = compiled(tenant_library(), source, "clang", "-O1", folder / "program.elf", ["-w"])
    run([alone, "--input", source.with_suffix(".txt"), "--profile", folder / "counts", path])
    return folder / "counts"


def made(counts: pathlib.Path, form: str, *more: Word) -> str:
    """A form of counts, as text."""
    return succeed([sys.executable, TOOL, f"--{form}", "-", *more, counts]).output


def test_callgrind(counted: pathlib.Path, tmp_path: pathlib.Path) -> None:
    """callgrind_annotate reads it: its total and those of functions are the steps."""
    need("callgrind_annotate")
    file = tmp_path / "callgrind.out"
    file.write_text(made(counted, "callgrind"))
    ran = succeed(["callgrind_annotate", "--threshold=100", "--show=Instructions", file])
    assert ran.errors == ""
    counts = run_counts.read_files([counted])
    total = re.search(r"^([\d,]+) \(100.0%\)  PROGRAM TOTALS", ran.output, re.M)
    assert total and int(total[1].replace(",", "")) == counts.steps
    own: Counter[str] = Counter()
    for address, count in counts.executions().items():
        own[counts.function_at(address)[1]] += count
    rows = re.findall(r"^ *([\d,]+) \([ .\d]+%\)  \S+?:(\S+)(?: \[.*\])?$", ran.output, re.M)
    shown: Counter[str] = Counter()
    for number, name in rows:
        shown[name] += int(number.replace(",", ""))
    assert shown == own


def test_lcov(counted: pathlib.Path, tmp_path: pathlib.Path) -> None:
    """lcov's own tool reads it, and says of it what it has."""
    need("lcov")
    file = tmp_path / "lcov.info"
    file.write_text(made(counted, "lcov"))
    ran = succeed(["lcov", "--rc", "lcov_branch_coverage=1", "--summary", file])
    text = file.read_text()
    for name, found, hit in (("lines", "LF", "LH"), ("functions", "FNF", "FNH")):
        sums = [sum(map(int, re.findall(rf"^{key}:(\d+)$", text, re.M))) for key in (found, hit)]
        assert f"({sums[1]} of {sums[0]} {name})" in ran.output + ran.errors


def test_other_forms(counted: pathlib.Path, tmp_path: pathlib.Path) -> None:
    """The sums of folded stacks and of pprof's samples are the steps; XML and JSON are such."""
    counts = run_counts.read_files([counted])
    folded = [line.rsplit(" ", 1) for line in made(counted, "folded").splitlines()]
    assert sum(int(steps) for _, steps in folded) == counts.steps
    events = json.loads(made(counted, "timeline"))["traceEvents"]
    assert {event["ph"] for event in events} == {"X", "C", "i"}
    assert events[0]["dur"] == counts.steps
    assert sum(it["dur"] for it in events if it.get("tid") == 2) == counts.steps
    root = xml.etree.ElementTree.fromstring(made(counted, "cobertura"))
    assert root.tag == "coverage" and root.find(".//line[@hits]") is not None
    file = tmp_path / "profile.pb.gz"
    succeed([sys.executable, TOOL, "--pprof", file, counted])
    if shutil.which("go") and shutil.which("pprof"):
        assert str(counts.steps) in succeed(["pprof", "-top", file]).output
    table = succeed([sys.executable, TOOL, counted]).output
    assert table.startswith(f"{counts.steps} steps of ")


def test_massif(counted: pathlib.Path, tmp_path: pathlib.Path) -> None:
    """ms_print reads it: its peak is that of the counts, and the tree has all of it."""
    need("ms_print")
    counts = run_counts.read_files([counted])
    file = tmp_path / "massif.out"
    file.write_text(made(counted, "massif"))
    ran = succeed(["ms_print", "--threshold=0", file])
    rows = re.findall(r"^ +\d+ +([\d,]+) +([\d,]+) +[\d,]+ +0 +0$", ran.output, re.M)
    sizes = {int(step.replace(",", "")): int(size.replace(",", "")) for step, size in rows}
    assert sizes[counts.peak.step] == counts.peak.bytes == max(sizes.values()) > 0
    whole = re.search(r"^100.00% \(([\d,]+)B\) \(heap allocation functions\)", ran.output, re.M)
    assert whole and int(whole[1].replace(",", "")) == counts.peak.bytes
    table = made(counted, "heap").splitlines()
    assert table[0] == (f"{counts.peak.bytes} bytes at the peak, after {counts.peak.step} steps")
    rows_of_table = [line.split() for line in table[3:]]
    assert sum(int(row[1]) for row in rows_of_table) == sum(
        sums.made_bytes for sums in counts.heap.values())
    assert not any(heap.makes_chunks(row[-1]) for row in rows_of_table)


def test_a_suite_of_tests(alone: pathlib.Path, counted: pathlib.Path,
                          tmp_path: pathlib.Path) -> None:
    """tenant-run leaves the counts of each run in a folder, under the program's name."""
    program = counted.parent / "program.elf"
    words: list[Word] = ["env", f"TENANT_ALONE={alone}", f"TENANT_OPTIONS=--profile={tmp_path}/all",
                         sys.executable, EXAMPLES / "libc" / "tenant-run", program]
    for argument in ("a", "b"):
        run([*words, argument], stdin=b"x")
    files = sorted((tmp_path / "all").iterdir())
    assert len(files) == 2 and all(file.name.startswith("program.elf.") for file in files)
    whole = run_counts.read_files(files)
    assert whole.image == str(program)
    assert whole.steps == sum(run_counts.read_files([file]).steps for file in files)
    refused = run([*words[:-2], EXAMPLES / "libc" / "tenant-run", "--profile", "/dev/null/x",
                   program], stdin=b"x")
    assert refused.status == 126 and "tenant-run: /dev/null/x: " in refused.errors


def written(steps: int, times: int) -> bytes:
    """An image that writes a byte so many times, with so many steps in between."""
    turns = [*a64.move(20, steps // 2), a64.subtract_with_flags(20, 20, 1), a64.jump_not_equal(-1)]
    body = [*a64.call(1, a64.CODE, 1), *turns]
    return a64.program(a64.move(19, times), body, a64.subtract_with_flags(19, 19, 1),
                       a64.jump_not_equal(-len(body) - 1), a64.call(0, 0))


@pytest.fixture(params=["/dev/full", "closed"])
def unread(request: pytest.FixtureRequest) -> Iterator[int]:
    """An output that cannot be written: a full disk, a pipe that nobody reads."""
    if request.param == "closed":
        reader, output = os.pipe()
        os.close(reader)
    else:
        output = os.open(request.param, os.O_WRONLY)
    yield output
    os.close(output)


def test_an_output_that_nobody_reads(alone: pathlib.Path, unread: int,
                                     tmp_path: pathlib.Path) -> None:
    """The counts are those of the whole run."""
    drawn = random.Random(0)
    steps, times = drawn.randrange(SLICE // 2, SLICE), drawn.randrange(3, 6)
    (tmp_path / "image").write_bytes(written(steps, times))
    succeed([alone, "--profile", tmp_path / "whole", tmp_path / "image"])
    ran = subprocess.run([alone, "--profile", tmp_path / "counts", tmp_path / "image"],
                         stdout=unread, stderr=subprocess.PIPE, timeout=HANG, check=False)
    assert (ran.returncode, ran.stderr) == (CANNOT_WRITE, b"mte_run: cannot write\n")
    assert (tmp_path / "counts").read_bytes() == (tmp_path / "whole").read_bytes()


def test_an_output_of_tenant_run_that_nobody_reads(
    alone: pathlib.Path, counted: pathlib.Path, unread: int, tmp_path: pathlib.Path
) -> None:
    """tenant-run leaves the counts of the whole run, too."""
    program = counted.parent / "program.elf"
    words: list[Word] = [sys.executable, EXAMPLES / "libc" / "tenant-run", f"--alone={alone}"]
    found: list[bytes] = []
    for output in (subprocess.DEVNULL, unread):
        folder = tmp_path / str(len(found))
        ran = subprocess.run([*words, "--profile", folder, program, "a"], stdout=output, input=b"x",
                             stderr=subprocess.PIPE, timeout=HANG, check=False)
        assert ran.returncode == (CLOSED if found else ran.returncode), ran.stderr
        found.append(next(folder.iterdir()).read_bytes())
    assert found[0] == found[1]


def added(files: list[pathlib.Path]) -> tuple[run_counts.Counts, list[run_counts.Counts]]:
    """The counts of files together, whose executions are the sums, and those of each."""
    each = [run_counts.read_files([file]) for file in files]
    whole = run_counts.read_files(files)
    sums: Counter[int] = Counter()
    for one in each:
        sums.update(one.executions())
    assert whole.executions() == sums
    return whole, each


def test_runs_add_up(alone: pathlib.Path, tmp_path: pathlib.Path) -> None:
    """Of several runs each count is the sum; counts of another image are refused."""
    files = []
    for act in ACTS:
        (tmp_path / "input").write_text(act)
        files.append(tmp_path / f"counts.{act}")
        run([alone, "--input", tmp_path / "input", "--profile", files[-1], IMAGES[0]])
    whole, each = added(files)
    own: Counter[tuple[int, ...]] = Counter()
    for one in each:
        own.update(own_steps(one))
    assert own_steps(whole) == own
    run([alone, "--profile", tmp_path / "other", IMAGES[-1]])
    ran = run([sys.executable, TOOL, files[0], tmp_path / "other"])
    assert ran.status == 5 and "another image" in ran.errors
    (tmp_path / "none").write_text("no profile\n")
    ran = run([sys.executable, TOOL, tmp_path / "none"])
    assert ran.status == 5 and ran.errors.startswith("tenant-profile: ")


def test_runs_of_an_image_without_names_add_up(alone: pathlib.Path,
                                              tmp_path: pathlib.Path) -> None:
    """What is called is a function there, and each run calls other ones."""
    image, files = tmp_path / "drawn.elf", []
    image.write_bytes(drawn_blocks.draw_image(random.Random(1)))
    for block in range(drawn_blocks.BLOCKS):
        (tmp_path / "input").write_bytes(bytes([block]))
        files.append(tmp_path / f"counts.{block}")
        run([alone, "--input", tmp_path / "input", "--profile", files[-1], image])
    whole, each = added(files)
    assert {entry for entry, _ in whole.functions} == {
        entry for one in each for entry, _ in one.functions}
    assert len(whole.functions) > drawn_blocks.BLOCKS // 2
    hi = tmp_path / "hi.counts"
    run([alone, "--profile", hi, EXAMPLES / "hi.elf"])
    ran = run([sys.executable, TOOL, files[0], hi])
    assert ran.status == 5 and "another image" in ran.errors


DEEP = """\
#include <stdlib.h>
static void *deeper(int more)
{
    if (more < 0) {
        abort();
    } else if (more > 0) {
        return deeper(more - 1);
    } else if (more == 1) {
        return 0;
    }
    return malloc(100000);
}
int main(void)
{
    return deeper(999) == malloc(7);
}
"""


def test_deep_calls_and_jumped_lines(alone: pathlib.Path, tmp_path: pathlib.Path) -> None:
    """Forms show the outermost of deep calls, with all steps and bytes; and a line that begins with
    a jump from what was not reached is executed."""
    need("clang", "ld.lld")
    source = tmp_path / "deep.c"
    source.write_text(DEEP)
    path = compiled(tenant_library(), source, "clang", "-O0", source.with_suffix(".elf"), [])
    succeed([alone, "--profile", tmp_path / "counts", path])
    counts = run_counts.read_files([tmp_path / "counts"])
    folded = [line.rsplit(" ", 1) for line in forms.folded(counts).splitlines()]
    assert sum(int(steps) for _, steps in folded) == counts.steps
    assert max(len(stack.split(";")) for stack, _ in folded) == run_counts.MOST_FRAMES
    whole = {row.name: row.whole for row in forms.functions(counts)}
    assert whole["_start"] == counts.steps and whole["deeper"] < whole["main"]
    branches = [heap.tree(counts)]
    for branch in branches:
        inner = list(branch.outer.values())
        branches += inner
        assert not inner or sum(one.bytes for one in inner) == branch.bytes
    assert branches[0].bytes == counts.peak.bytes and "heap_tree=peak" in heap.massif(counts)
    covered = forms.coverage(counts, forms.words_of(path.read_bytes()))
    lines = next(one.lines for file, one in covered.items() if file.endswith("deep.c"))
    executed = [number for number in sorted(lines) if lines[number]]
    assert executed == [3, 4, 6, 7, 8, 11, 12, 14, 15], lines


@pytest.mark.parametrize("source", PROGRAMS, ids=[path.stem for path in PROGRAMS])
def test_lines_beside_gcov(alone: pathlib.Path, tmp_path: pathlib.Path,
                           source: pathlib.Path) -> None:
    """A line that both know was executed by a tenant where gcov says so of a native build."""
    need("clang", "ld.lld", "llvm-cov")
    shutil.copy(source, tmp_path / source.name)
    data = source.with_suffix(".txt")
    path = compiled(tenant_library(), source, "clang", "-O0", tmp_path / "tenant.elf", ["-w"])
    given: list[Word] = ["--input", data] if data.exists() else []
    ran = run([alone, *given, "--steps", "100000000", "--profile", tmp_path / "counts", path])
    succeed(["clang", "-O0", "-w", "--coverage", "-o", "native", source.name, "-lm"], cwd=tmp_path)
    shell = ["bash", "-c", f'./native < {data if data.exists() else "/dev/null"}']
    ended = run(shell, cwd=tmp_path)
    assert (ended.status, ended.out) == (ran.status, ran.out)
    succeed(["llvm-cov", "gcov", f"{source.stem}.gcda"], cwd=tmp_path)
    lines = (tmp_path / f"{source.name}.gcov").read_text().splitlines()
    theirs = {int(number): count.strip().rstrip("*") not in ("#####", "=====")
              for count, number, _ in (line.split(":", 2) for line in lines)
              if count.strip() != "-"}
    counts = run_counts.read_files([tmp_path / "counts"])
    covered = forms.coverage(counts, forms.words_of(path.read_bytes()))
    mine = next(one.lines for file, one in covered.items() if file.endswith(source.name))
    shared_lines = sorted(theirs.keys() & mine.keys())
    assert {at: theirs[at] for at in shared_lines} == {at: mine[at] > 0 for at in shared_lines}
    # A function's name may be a line above its brace, where its code begins.
    assert {at + 1 for at in theirs.keys() - mine.keys()} <= mine.keys()


# ---- runs that differ

# What some names are natively and in a tenant: a char's sign, a wchar_t's, and whether the stack is
# above 2^40. `more` is the number of a turn.
VALUES = {"minus": (-1, 255), "wide": (-1, 2 ** 32 - 1), "far": (1, 0)}
TURNS, ELSE = 4, "} else {"
HEAD = """\
#include <stddef.h>
int main(void)
{
    char minus = -1;
    wchar_t wide = -1;
    int total = 0;
    int far = ((unsigned long)&total >> 40 & 255) > 0;
    for (int more = 0; more < 4; more++) {
"""
TAIL = """\
    }
    return total == 12345;
}
"""


@dataclass
class Statement:
    """A statement of a drawn program: its line, and what of a condition follows."""

    line: int
    name: str = ""
    is_less: bool = False
    number: int = 0
    then: "list[Statement]" = field(default_factory=list)
    otherwise: "list[Statement]" = field(default_factory=list)

    def executed(self, values: dict[str, int]) -> Iterator[int]:
        """The lines that are executed with some values of the names."""
        yield self.line
        if self.name:
            value = values[self.name]
            is_met = value < self.number if self.is_less else value > self.number
            for statement in self.then if is_met else self.otherwise:
                yield from statement.executed(values)


def draw_statements(drawn: random.Random, lines: list[str], depth: int) -> list[Statement]:
    """Adds the lines of statements; these."""
    found: list[Statement] = []
    for _ in range(drawn.randrange(1, 4)):
        if not depth or drawn.random() < 0.3:
            lines.append(f"total += {drawn.randrange(1, 9)};")
            found.append(Statement(len(lines)))
            continue
        name, is_less = drawn.choice([*VALUES, "more"]), drawn.random() < 0.5
        number = drawn.randrange(3)
        lines.append(f"if ({name} {'<' if is_less else '>'} {number}) {{")
        made = Statement(len(lines), name, is_less, number)
        made.then = draw_statements(drawn, lines, depth - 1)
        lines.append(ELSE)
        made.otherwise = draw_statements(drawn, lines, depth - 1)
        lines.append("}")
        found.append(made)
    return found


def lines_executed(statements: list[Statement], which: int) -> set[int]:
    """The lines that are executed natively (0) or in a tenant (1)."""
    values = {name: both[which] for name, both in VALUES.items()}
    return {line for more in range(TURNS) for statement in statements
            for line in statement.executed({**values, "more": more})}


def ran_both(alone: pathlib.Path, folder: pathlib.Path, text: str) -> run_counts.Counts:
    """Builds and runs a program natively, by gcov and callgrind, and as a tenant: its counts."""
    for name in ("native", "tenant"):
        (folder / name).mkdir()
        (folder / name / "drawn.c").write_text(text)
    path = compiled(tenant_library(), folder / "tenant" / "drawn.c", "clang", "-O0",
                    folder / "tenant" / "drawn.elf", ["-w"])
    succeed([alone, "--profile", folder / "counts", path])
    succeed(["clang", "-O0", "-gdwarf-4", "-w", "--coverage", "-o", "drawn", "drawn.c"],
            cwd=folder / "native")
    succeed(["./drawn"], cwd=folder / "native")
    succeed([*gcov_lines.CALLGRIND, f"--callgrind-out-file={folder}/callgrind.out", "./drawn"],
            cwd=folder / "native")
    return run_counts.read_files([folder / "counts"])


@pytest.mark.parametrize("seed", range(2))
def test_lines_at_which_runs_differ(alone: pathlib.Path, tmp_path: pathlib.Path,
                                    seed: int) -> None:
    """A line that a native run executes and a tenant not, or the other way round, has that reason,
    as the end of its block has one; a count that is wrong has none."""
    need("clang", "ld.lld", "llvm-cov", "llvm-symbolizer", "valgrind")
    lines = HEAD.splitlines()
    statements = draw_statements(random.Random(seed), lines, 4)
    counts = ran_both(alone, tmp_path, "\n".join(lines) + "\n" + TAIL)
    native, tenant = tmp_path / "native", tmp_path / "tenant"
    found = gcov_lines.difference(gcov_lines.natively(native),
                                  gcov_lines.by_tenants([counts], tenant), native)
    differing = lines_executed(statements, 0) ^ lines_executed(statements, 1)
    doubtful = {line for _, line in found.doubtful if lines[line - 1] != ELSE}
    assert doubtful == differing and differing
    witnesses = (gcov_lines.by_callgrind([tmp_path / "callgrind.out"], native),
                 gcov_lines.by_llvm([counts], tenant))
    wrong = copy.deepcopy(found)
    wrong.doubtful = {place: not is_executed for place, is_executed in found.doubtful.items()}
    wrong.settle(*witnesses)
    assert wrong.unexplained == found.unexplained and wrong.reasons == found.reasons
    found.settle(*witnesses)
    assert not found.unexplained
    found.reasons.clear()
    found.doubtful = {place: it for place, it in found.doubtful.items() if place[1] in differing}
    found.unexplained = dict.fromkeys(found.doubtful, "")
    found.settle(*witnesses)
    assert found.reasons == {gcov_lines.RUNS: len(differing)}


ENTERED = """\
#define HAS(text, byte, at) ((text)[at] == (unsigned char)(byte))
static int is_mark(const unsigned char *text)
{
    if ((HAS(text, '-', 0)
         && HAS(text, '-', 1))
        || (HAS(text, '.', 0)
            && HAS(text, '.', 1)))
        return 1;
    return 0;
}
int main(void)
{
    return is_mark((const unsigned char *)"a word");
}
"""


def test_a_line_that_is_entered_behind_its_begin(alone: pathlib.Path,
                                                 tmp_path: pathlib.Path) -> None:
    """A line whose first instruction ends the condition above it has that reason where a run jumps
    behind that instruction; a count that is wrong has none."""
    need("clang", "ld.lld", "llvm-cov", "llvm-symbolizer", "valgrind")
    counts = ran_both(alone, tmp_path, ENTERED)
    native, tenant = tmp_path / "native", tmp_path / "tenant"
    found = gcov_lines.difference(gcov_lines.natively(native),
                                  gcov_lines.by_tenants([counts], tenant), native)
    assert found.doubtful == {("drawn.c", 6): False}, found
    witnesses = (gcov_lines.by_callgrind([tmp_path / "callgrind.out"], native),
                 gcov_lines.by_llvm([counts], tenant))
    wrong = copy.deepcopy(found)
    wrong.doubtful = dict.fromkeys(found.doubtful, True)
    wrong.settle(*witnesses)
    assert wrong.unexplained == found.unexplained != {}
    found.settle(*witnesses)
    assert not found.unexplained and found.reasons[gcov_lines.MIDDLE] == 1
