"""Fuzzing tenants: runs from a snapshot, beside tenants that start anew; crashes that replay; and a
short campaign of each fuzzer."""

import itertools
import json
import os
import pathlib
import random
import re
from collections import Counter
from collections.abc import Iterator
from typing import Any

import pytest

from tests.reference import pointers, programs
from tests.reference.provenance import first_findings
from tests.reference.runs import INPUT, Runner
from tests.support import fuzzers
from tests.support.embedding.built import COMPILERS, DRIVERS, in_c, in_python, in_rust
from tests.support.fuzzers import ENTER, FUZZ, NAME, PLANTED, card, field
from tests.support.growth import MEASURED
from tests.support.instructions import call, move, program
from tests.support.running import Word, run
from tests.support.tools import give_up, need
from tests.support.traces import read_trace
from tests.test_python_package import PACKAGE, told
from tests.test_watched_runs import CASES, heap

# malloc(24); yield; read(x0, 16); exit with the first byte that was read.
IMAGE = program(*call(3, 24), 0xAA0003E9, *call(9), 0xAA0903E0, move(1, 16), move(8, 2), 0xD4000001,
                0x39400120, move(8, 0), 0xD4000001)
EXIT = 2
# How many programs of each kind are drawn.
DRAWN = int(os.environ.get("TOMBOLOPAN_DRAWN", "200")) // 8
DONE = "print('done')\n"
GOLDEN, WORD = 0x9E3779B97F4A7C15, 2 ** 64
CONDITIONAL = re.compile(r"(b\.|cbn?z|tbn?z)")
IMAGES = sorted((pathlib.Path(__file__).parent / "images").glob("*.elf"))
BEGIN = f"""
import ctypes
from tombolopan.abi import _library, _AloneEnd, _Fuzz, _FuzzFinding, _FuzzInput
image = bytes.fromhex('{IMAGE.hex()}')
fuzz = Fuzz(image, pages=64, room=16)
"""


def test_runs_begin_behind_the_setup(shared: pathlib.Path) -> None:
    """The setup is done once, each run has its own input, and nothing of the last one is left."""
    assert told(shared, BEGIN + """
assert (fuzz.start.status, fuzz.start.steps, fuzz.start.heap) == (TenantStatus.RUNNING, 6, 1)
for text in (b"A", b"", b"BC", b"A", bytes(range(255, 0, -1))):
    run = fuzz.run(text)
    fresh = alone(image, text, slices=[1 << 20] * 2, pages=64, room=16)
    assert (run.status, run.number, run.steps) == (TenantStatus.EXIT, fresh.number, fresh.steps)
    assert run.number == (text[0] if text else 0) and not run.is_crash
cut = fuzz.run(b"A", slices=[2, 1])
assert (cut.status, cut.steps) == (TenantStatus.RUNNING, 9)
assert fuzz.run(b"A", slices=[]).steps == 6
print("done")
""") == "done\n"


def test_arguments_out_of_range(shared: pathlib.Path) -> None:
    """A machine that is not there, maps of other lengths, a tenant that is refused: a code each,
    and nothing changed."""
    assert told(shared, BEGIN + """
end, none = _AloneEnd(), _Fuzz()
text, cuts = ctypes.create_string_buffer(b"A"), (ctypes.c_uint32 * 1)(100)
given = _FuzzInput(ctypes.addressof(text), 1, ctypes.addressof(cuts), 1, 0, 0)

def run(machine, length):
    counts = (ctypes.c_uint8 * max(length, 1))(*[7] * max(length, 1))
    found = _FuzzFinding.from_buffer_copy(bytes([7]) * ctypes.sizeof(_FuzzFinding))
    lent = [ctypes.byref(it) for it in (machine, given, end, found)]
    code = _library.tb_fuzz_run(*lent[:2], counts, length, lent[2])
    assert end.code == code == _library.tb_fuzz_run_exact(*lent[:2], counts, length, *lent[2:])
    assert not any(bytes(found)) and (code == OK or set(counts) == {7})
    return code

assert run(none, 256) == NO_MACHINE and end.status.status == 0 and not none.machine
assert [run(fuzz._machine, it) for it in (0, 1, 128, 255, 257, 300, 4095, 65535, 65537, 131072)] \\
    == [BAD_ARGUMENT] * 10
assert [run(fuzz._machine, 1 << it) for it in range(8, 17)] == [OK] * 9
assert end.status.number == ord("A")
of = dict(image=image)
for terms in (of | dict(pages=0), of | dict(pages=4097), of | dict(room=65537), of | dict(pages=2),
              dict(image=image[:60])):
    try:
        Fuzz(**terms)
    except Refused as error:
        print(error.kind)
_library.tb_fuzz_free(ctypes.byref(none))
fuzz.close()
fuzz.close()
try:
    fuzz.run(b"")
except ValueError as error:
    print(error)
for edges in (0, 255, 1000):
    try:
        Fuzz(image, edges=edges).run(b"")
    except ValueError as error:
        print(error)
""") == ("BadReservation\nBadReservation\nBadReservation\nReservationTooSmall\nShort\n"
         "the machine is closed\n" + "edges and room are powers of two from 256 to 65536\n" * 3)


def test_a_machine_that_is_made_again(shared: pathlib.Path) -> None:
    """A handle that holds a machine gets another one, and holds none where that is refused."""
    assert told(shared, BEGIN + """
from tombolopan.abi import _Terms
end = _AloneEnd()
held, cuts = ctypes.create_string_buffer(image, len(image)), (ctypes.c_uint32 * 1)(100)

def make(pages):
    terms = _Terms(ctypes.addressof(held), len(image), ctypes.addressof(held), 0,
                   ctypes.addressof(cuts), 1, 1, pages, 16, 0, 0)
    code = _library.tb_fuzz_new(ctypes.byref(terms), ctypes.byref(fuzz._machine),
                                ctypes.byref(end))
    return code, end.refusal, bool(fuzz._machine.machine)

assert make(64) == make(8) == (OK, 0, True)
assert fuzz.run(b"Z").number == ord("Z")
code, refusal, holds = make(0)
assert (code, holds) == (REFUSED, False) and refusal != 0
print("done")
""") == "done\n"


def test_a_tenant_that_ends_in_its_setup(shared: pathlib.Path) -> None:
    """Its runs do nothing, and tell the same end."""
    assert told(shared, BEGIN + """
over = Fuzz(image, setup=[1 << 20] * 2, pages=64, room=16)
assert over.start.status == TenantStatus.EXIT
assert over.run(b"A") == over.run(b"B") == over.start and sum(over.counts) == 0
print("done")
""") == "done\n"


@pytest.mark.parametrize("variant", [*COMPILERS, "rust"])
def test_from_c_and_rust(shared: pathlib.Path, variant: str) -> None:
    """Machines that are made, run, made again, freed twice and run without: the same code, status,
    steps and counts in C, C++ and Rust, also where sanitizers look on."""
    image, is_rust = fuzzers.cards(shared), variant == "rust"
    it = in_rust(shared, DRIVERS / "fuzzed.rs") if is_rust else in_c(
        shared, variant, DRIVERS / "fuzzed.c")
    ran = run([*it.words, image], extra=it.extra)
    assert (ran.status, ran.errors) == (0, "")
    told_lines = [line.split(maxsplit=1) for line in ran.output.splitlines()]
    found = {what: [text for name, text in told_lines if name == what] for what, _ in told_lines}
    assert found["exact"] == found["compared"] == found["run"]
    entered = [tuple(map(int, text.split())) for text in found["entered"]]
    codes = [int(text.split()[0]) for text in found["run"]]
    assert all((places > 0) == (code == 0) for (places, _), code in zip(entered, codes))
    assert [read for _, read in entered] == [{8: 1}.get(code, code) for code in codes]
    lines = [[int(word) for word in text.split()] for what, text in told_lines
             if what in ("new", "run")]
    # A new machine, a run without one, one that is refused, a map that may not be.
    ok, none, refused, bad = 0, 14, 12, 8
    codes = [none, refused, none, ok, ok, ok, ok, bad, bad, ok, ok, none, ok]
    if is_rust:
        codes = codes[1:11] + codes[12:]
    assert [it[0] for it in lines] == codes and all(it[0] == it[1] for it in lines)
    ended = [it for it in lines if it[2] == EXIT]
    assert [it[4] for it in ended] == [0, 0, 1, 0]
    # Steps and edges differ where the cards do, and a bad call counts nothing.
    assert len({tuple(it[3:]) for it in ended}) == 4 and all(it[5] > 0 for it in ended)
    assert all(it[5] == 0 for it in lines if it[0] != ok)


def test_what_is_counted(shared: pathlib.Path) -> None:
    """Counts are those of the run alone, the same each time, and others for another way."""
    image = fuzzers.cards(shared)
    assert told(shared, f"""
import pathlib
fuzz = Fuzz(pathlib.Path({str(image)!r}).read_bytes())
found = dict()
for text in (b"", b"CARD", b"CARDN\\3abc", b"CARDD\\2" + b"12", b"CARD"):
    runs = [(fuzz.run(text), fuzz.counts) for _ in range(3)]
    assert runs[0] == runs[1] == runs[2]
    found[text] = fuzz.counts
assert len(set(found.values())) == 4 and all(map(sum, found.values()))
long = b"CARDQ" + bytes([255]) + bytes(255)
fuzz.run(long * 1)
print(max(fuzz.counts) == 255)
""") == "True\n"


def test_the_edges_of_a_loop(shared: pathlib.Path) -> None:
    """A loop of three turns takes its branch twice, by the same count, and goes on once."""
    # mov x0, #3; sub x0, x0, #1; cbnz x0, .-4; mov x8, #0; svc #0
    image = program(0xD2800060, 0xD1000400, 0xB5FFFFE0, 0xD2800008, 0xD4000001)
    assert told(shared, f"""
with Fuzz(bytes.fromhex({image.hex()!r}), setup=[1], pages=60, room=16) as fuzz:
    assert fuzz.run(b"").number == 0
    print(sorted(filter(None, fuzz.counts)))
""") == "[1, 2]\n"


def hash_of(source: int, target: int) -> int:
    """The hash of an edge: both addresses are spread by the golden ratio."""
    spread = source * GOLDEN % WORD
    mixed = (spread << 29 | spread >> 35) % WORD ^ target
    return mixed * GOLDEN % WORD >> 48


def edges_of(trace: str) -> Counter[int]:
    """The edges of a trace by their hashes: branches that are taken, and conditional ones that are
    not. Services end a run of instructions."""
    found: Counter[int] = Counter()
    for step, after in itertools.pairwise(read_trace(trace)):
        is_conditional = CONDITIONAL.match(step.text) is not None
        if not step.is_service and (after.pc != step.pc + 4 or is_conditional):
            found[hash_of(step.pc, after.pc)] += 1
    return found


def test_edges_are_those_of_the_trace(shared: pathlib.Path, alone: pathlib.Path,
                                      tmp_path: pathlib.Path) -> None:
    """The map of drawn programs and of compiled ones: an edge counts by its hash, 255 at most, in
    any slices, and in a map of any length."""
    runner, source = Runner(alone, tmp_path), random.Random(5)
    images = [pathlib.Path(str(runner.prepare(programs.draw(seed).words)[-1])).read_bytes()
              for seed in range(DRAWN)] + [path.read_bytes() for path in IMAGES]
    cases, reached = [], 0
    for image in images:
        (tmp_path / "tenant.elf").write_bytes(image)
        run([alone, "--input", tmp_path / "input", "--trace", "--trace-file", tmp_path / "trace",
             tmp_path / "tenant.elf"])
        edges = edges_of((tmp_path / "trace").read_text())
        reached += len(edges)
        cases.append({"image": image.hex(), "edges": edges,
                      "cuts": [source.choice((1, 7, 1000)) for _ in range(40)] + [1 << 20],
                      "length": 1 << source.randrange(8, 17)})
    (tmp_path / "cases").write_text(json.dumps(cases))
    assert told(shared, f"""
import json, pathlib

for it in json.loads(pathlib.Path({str(tmp_path / "cases")!r}).read_text()):
    wanted = [0] * it["length"]
    for hashed, count in it["edges"].items():
        wanted[int(hashed) % it["length"]] += count
    with Fuzz(bytes.fromhex(it["image"]), setup=[0], edges=it["length"]) as fuzz:
        for cuts in ([1 << 20], it["cuts"]):
            for exact in (False, True):
                fuzz.run({INPUT!r}, cuts, exact=exact)
                assert list(fuzz.counts) == [min(255, count) for count in wanted]
""" + DONE) == "done\n"
    assert reached > 500


def test_runs_are_those_of_fresh_tenants(shared: pathlib.Path) -> None:
    """Some thousand runs from a snapshot: each ends as the tenant does that starts anew, and the
    process does not grow."""
    extra = in_python(shared, PACKAGE).extra
    words: list[Word] = ["python3", "-B", FUZZ / "compare_fresh.py", fuzzers.witness(shared),
                         "2000"]
    ran = run(words, extra=extra)
    assert (ran.status, ran.errors) == (0, "")
    assert ran.output.startswith("2000 runs are those of fresh tenants (exit ")


def test_changed_inputs_of_a_corpus(shared: pathlib.Path, tmp_path: pathlib.Path) -> None:
    """The same over cards with bytes changed: crashes among them."""
    for name, (text, _) in PLANTED.items():
        (tmp_path / name).write_bytes(text)
    words: list[Word] = ["python3", "-B", FUZZ / "compare_fresh.py", "--corpus", tmp_path,
                         fuzzers.cards(shared), "3000"]
    ran = run(words, extra=in_python(shared, PACKAGE).extra)
    assert (ran.status, ran.errors) == (0, "")
    ends = re.search(r"\(abort (\d+), exit (\d+), fault (\d+)\)", ran.output)
    assert ends and min(map(int, ends.groups())) > 100, ran.output


def test_no_memory_is_kept(shared: pathlib.Path) -> None:
    """Thousands of machines that are made and freed, and runs that map pages."""
    image = fuzzers.witness(shared)
    assert told(shared, f"""
import pathlib
image = pathlib.Path({str(image)!r}).read_bytes()
drawn = random.Random(2)

def turn():
    with Fuzz(image, pages=64) as fuzz:
        fuzz.run(drawn.randbytes(60), slices=[3000])
""" + MEASURED) == "\n"


def test_what_no_tag_shows(shared: pathlib.Path) -> None:
    """A byte behind a chunk, in its last granule: no tag differs, and an exact run tells of it. Its
    end and its counts are the same, with a finding and without one."""
    image = fuzzers.labels(shared)
    assert told(shared, f"""
import dataclasses, pathlib
fuzz = Fuzz(pathlib.Path({str(image)!r}).read_bytes())

def both(text, slices=(1 << 20,)):
    plain, counts = fuzz.run(text, slices), fuzz.counts
    exact = fuzz.run(text, slices, exact=True)
    assert fuzz.counts == counts and plain.finding is None
    assert repr(dataclasses.replace(exact, finding=None)) == repr(plain)
    return plain, exact

for text in (b"", b"red,green,", b"#", b"0123456789abcdef,", b",,,"):
    plain, exact = both(text)
    assert plain == exact and not exact.is_crash
plain, exact = both(b"red,ab#defg,")
found = exact.finding
assert (plain.status, plain.number) == (TenantStatus.EXIT, 2)
assert exact.is_crash and not plain.is_crash
assert (found.kind, found.size, found.write) == (Trespass.PAST_SIZE, 1, True)
assert found.address % 16 == 7 and found.pointer % (1 << 56) == found.address
assert 0 < found.step < exact.steps
# The first of several is told, whatever the slices, and no finding stays.
assert both(b"red,ab#defg,#,##,")[1].finding == found
assert both(b"red,ab#defg,", [7] * 200)[1].finding == found
assert both(b"red,green,")[1].finding is None
# Where the label fills its granules, the tag differs.
plain, exact = both(b"0123456789abcde#,")
assert plain.status == TenantStatus.FAULT and exact.finding is None
""" + DONE) == "done\n"


def test_exact_runs_know_the_setup(shared: pathlib.Path) -> None:
    """The chunks of the setup are known: an access in one is allowed, one to its header is not."""
    begin = [*call(3, 24), 0xAA0003E9, *call(9)]
    header = program(*begin, 0x9240DD21, 0xF85F0022, move(8, 0), 0xD4000001)
    assert told(shared, f"""
header = bytes.fromhex('{header.hex()}')
for image, kind in ((bytes.fromhex('{IMAGE.hex()}'), None), (header, Trespass.NO_CHUNK)):
    with Fuzz(image, pages=64, room=16) as fuzz:
        for _ in range(3):
            run = fuzz.run(b"ABC", exact=True)
            found = run.finding
            assert run.status == TenantStatus.EXIT
            assert (found.kind if found else None) == kind
assert (found.step, found.size, found.write) == (8, 8, False) and found.address % 16 == 0
""" + DONE) == "done\n"


def test_exact_runs_of_changed_inputs(shared: pathlib.Path, alone: pathlib.Path,
                                      tmp_path: pathlib.Path) -> None:
    """Over cards with bytes changed: ends and counts as without, in both tag modes; and what is
    found first is what mte_run finds."""
    image = fuzzers.cards(shared)
    said = told(shared, f"""
import dataclasses, pathlib
drawn, image = random.Random(5), pathlib.Path({str(image)!r}).read_bytes()
cards = {[text for text, _ in PLANTED.values()]!r}
seen = dict()
for asynchronous in (False, True):
    fuzz = Fuzz(image, asynchronous=asynchronous)
    for _ in range(400):
        text = bytearray(drawn.choice(cards))
        text[drawn.randrange(4, len(text))] = drawn.randrange(256)
        plain, counts = fuzz.run(text), fuzz.counts
        exact = fuzz.run(text, exact=True)
        assert fuzz.counts == counts
        assert repr(dataclasses.replace(exact, finding=None)) == repr(plain)
        if not asynchronous and exact.finding:
            seen.setdefault(exact.finding.pc, (bytes(text), exact.finding))
for text, found in list(seen.values())[:3]:
    print(f"{{text.hex()}} {{found.pc:#018x}} {{found.address:#018x}} {{found.step}}")
""").splitlines()
    assert said
    for line in said:
        text, *words = line.split()
        (tmp_path / "input").write_bytes(bytes.fromhex(text))
        report = run([alone, "--exact", "--input", tmp_path / "input", image]).errors
        assert all(re.search(rf"\b{word}\b", report) for word in words), (words, report)


def drawn_images(runner: Runner) -> Iterator[bytes]:
    """Programs whose accesses are right and wrong, and one for each rule of what is noted."""
    for seed in range(DRAWN):
        made = pointers.draw(seed)
        moments, _ = runner.trace(made.words)
        pointers.end(made, first_findings(moments)[2], moments[-1].after)
        yield program(programs.draw(seed).words)
        yield program(made.words)
    for parts in CASES.values():
        yield heap(*parts)


def found_by_report(runner: Runner, image: bytes, asynchronous: bool) -> dict[str, Any]:
    """An image, how many steps mte_run takes of it, and the access at which it ends, if it does."""
    paths = [runner.folder / name for name in ("tenant.elf", "input", "told.json")]
    paths[0].write_bytes(image)
    paths[1].write_bytes(INPUT)
    run([runner.alone, "--exact", "--pages", "64", "--slices", "1048576", "--json", paths[2],
         *["--async"] * asynchronous, "--input", paths[1], paths[0]])
    document = json.loads(paths[2].read_text())
    status, found = document["status"], None
    if status["kind"] == "exact":
        found = [status["name"].lower(), document["steps"], status["bytes"], status["write"],
                 *(int(status[name], 16) for name in ("pc", "address", "first"))]
    return {"image": image.hex(), "asynchronous": asynchronous, "steps": document["steps"],
            "found": found}


def test_exact_runs_of_drawn_programs(shared: pathlib.Path, alone: pathlib.Path,
                                      tmp_path: pathlib.Path) -> None:
    """An exact run finds what `mte_run --exact` does, in both tag modes; by precise checks also for
    any slices and a snapshot anywhere before it. Its end and its counts are those of a run that is
    not exact."""
    runner, source = Runner(alone, tmp_path), random.Random(7)
    cases = []
    for image in drawn_images(runner):
        cases += [found_by_report(runner, image, it) for it in (False, True)]
    for it in cases:
        steps = it["steps"]
        it["setups"] = [0] if it["asynchronous"] else [0, steps - 1, source.randrange(steps)]
        it["cuts"] = [] if it["asynchronous"] else [source.choice((1, 7, 1000)) for _ in range(40)]
    (tmp_path / "cases").write_text(json.dumps(cases))
    assert told(shared, f"""
import dataclasses, json, pathlib

def check(fuzz, slices, wanted):
    plain, counts = fuzz.run({INPUT!r}, slices), fuzz.counts
    exact = fuzz.run({INPUT!r}, slices, exact=True)
    assert fuzz.counts == counts
    assert repr(dataclasses.replace(exact, finding=None)) == repr(plain)
    it = exact.finding
    found = it and [it.kind.name.replace("_", "").lower(), it.step, it.size, it.write, it.pc,
                    it.address, it.pointer]
    assert found == wanted, (slices, found, wanted)

for it in json.loads(pathlib.Path({str(tmp_path / "cases")!r}).read_text()):
    for setup in it["setups"]:
        with Fuzz(bytes.fromhex(it["image"]), setup=[setup], pages=64, edges=65536,
                  asynchronous=it["asynchronous"]) as fuzz:
            assert fuzz.start.steps == setup
            left = it["steps"] - setup
            check(fuzz, it["cuts"] + [1 << 20], it["found"])
            check(fuzz, [left], it["found"])
            check(fuzz, [left - 1], None)
            check(fuzz, [1 << 20], it["found"])
""" + DONE) == "done\n"
    found = [it["found"] for it in cases]
    assert None in found and {"pastsize", "freed"} <= {it[0] for it in found if it}


def test_fuzzers_by_exact_runs(shared: pathlib.Path, tmp_path: pathlib.Path) -> None:
    """A finding is a crash for LLVM's fuzzer and for AFL++ where EXACT is set."""
    need("clang", "ld.lld", "afl-clang-fast")
    text = tmp_path / "label"
    text.write_bytes(b"red,ab#defg,")
    for name in ("libfuzzer", "afl"):
        folder = fuzzers.fuzzers(shared, name)
        words: list[Word] = [folder / name, text] if name == "libfuzzer" else [folder / name]
        tenant, given = str(folder / "labels.elf"), text.read_bytes()
        plain = fuzzers.fuzz(folder, words, cwd=tmp_path, given=given, TENANT=tenant)
        assert plain.status == 0, plain.errors
        exact = fuzzers.fuzz(folder, words, cwd=tmp_path, given=given, TENANT=tenant, EXACT="1")
        assert exact.status != 0 and "PastSize: 1 bytes written" in exact.errors


@pytest.mark.parametrize("bug", sorted(PLANTED))
def test_crashes_replay_and_are_explained(
    shared: pathlib.Path, alone: pathlib.Path, tmp_path: pathlib.Path, bug: str
) -> None:
    """A thousand runs of a crash are alike, whatever ran between them; mte_run ends at the same
    instruction and names the bug, with the stacks of the access, the call and the free."""
    image, (text, cause) = fuzzers.cards(shared), PLANTED[bug]
    said = told(shared, f"""
import pathlib
fuzz = Fuzz(pathlib.Path({str(image)!r}).read_bytes())
crash, drawn = bytes.fromhex({text.hex()!r}), random.Random(3)
first = fuzz.run(crash)
assert first.is_crash
for _ in range(1000):
    fuzz.run(b"CARD" + drawn.randbytes(20))
    assert repr(fuzz.run(crash)) == repr(first)
print(hex(first.pc), first.steps)
""").split()
    crash = tmp_path / "crash"
    crash.write_bytes(text)
    report = run([alone, "--input", crash, image])
    found, _, told_cause = report.errors.partition("Cause: ")
    assert f"{int(said[0], 16):#018x}" in found and "cards.c:" in found
    assert cause in told_cause.splitlines()[0] and "allocated by" in told_cause
    assert bug == "overflow" or "freed by" in told_cause


def test_libfuzzer_finds_a_bug(shared: pathlib.Path, tmp_path: pathlib.Path) -> None:
    """LLVM's fuzzer over the cards, for half a minute at most, and its crash made smaller."""
    need("clang", "ld.lld")
    if not list(pathlib.Path("/usr/lib").glob(
            "llvm-*/lib/clang/*/lib/linux/libclang_rt.fuzzer-x86_64.a")):
        give_up("missing: libclang_rt.fuzzer (tests/packages.txt has the Debian packages)")
    folder = fuzzers.fuzzers(shared, "libfuzzer")
    words: list[Word] = [
        folder / "libfuzzer", "-seed=1", "-max_len=256", f"-dict={folder}/cards.dict",
        "-max_total_time=30", f"-artifact_prefix={tmp_path}/", folder / "cards.corpus",
    ]
    ran = fuzzers.fuzz(folder, words, cwd=tmp_path)
    found = sorted(tmp_path.glob("crash-*"))
    assert ran.status != 0 and len(found) == 1, ran.errors[-2000:]
    assert found[0].read_bytes().startswith(b"CARD")
    again = fuzzers.fuzz(folder, [folder / "libfuzzer", found[0]], cwd=tmp_path)
    assert again.status != 0 and "deadly signal" in again.errors


def test_afl_finds_a_bug(shared: pathlib.Path, tmp_path: pathlib.Path) -> None:
    """AFL++ over the cards, until a crash, for half a minute at most: it sees the tenant's edges,
    keeps inputs for them, and finds a bug from a card that is near to one."""
    need("clang", "ld.lld", "afl-fuzz", "afl-clang-fast")
    folder = fuzzers.fuzzers(shared, "afl")
    seeds = tmp_path / "seeds"
    seeds.mkdir()
    (seeds / "near").write_bytes(card(NAME, ENTER, field("}"), field("=")))
    # With the deterministic stages, and a bound of a run that a busy machine keeps.
    words: list[Word] = [
        "afl-fuzz", "-D", "-i", seeds, "-o", tmp_path / "found", "-x", folder / "cards.dict", "-V",
        "30", "-t", "5000", "-s", "1", "--", folder / "afl",
    ]
    ran = fuzzers.fuzz(folder, words, cwd=tmp_path, AFL_BENCH_UNTIL_CRASH="1")
    kept = tmp_path / "found" / "default"
    assert (kept / "fuzzer_stats").exists(), ran.output[-2000:] + ran.errors[-2000:]
    assert len(list((kept / "queue").glob("id:*"))) > 1
    found = [it for it in (kept / "crashes").glob("id:*")]
    assert found, (kept / "fuzzer_stats").read_text()
