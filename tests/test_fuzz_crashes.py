"""Crashes of a fuzzer, as docs/FUZZING.md leads through them: replayed, made smaller, walked back,
and looked for by other tags."""

import pathlib
import re
import shlex
import shutil
import signal
import sys

import pytest

from tests.support import fuzzers
from tests.support.checkout import make_stub
from tests.support.debugger import asked, target
from tests.support.embedding.built import in_python
from tests.support.fuzzers import ENTER, FUZZ, NAME, PLANTED, card, field
from tests.support.instructions import NO_INSTRUCTION, call, copy, load, move, program
from tests.support.running import Ran, Word, run, succeed
from tests.support.tools import need
from tests.test_python_package import PACKAGE

# Replays of a crash; runs of libFuzzer within which it finds what comparisons guard, where it is
# told them (some 300,000 are enough), and where it is not.
TIMES, TOLD_RUNS, UNTOLD_RUNS = 100, 5_000_000, 300_000


def lines_of(source: str, *wanted: str) -> list[str]:
    """The places of lines of a source of examples/fuzz, as reports have them."""
    lines = (FUZZ / source).read_text().splitlines()
    return [f"{source}:{number}" for it in wanted
            for number, line in enumerate(lines, 1) if it in line]


# By the bug: source lines of the access, of the call that made the chunk and of its free.
STACKS = {
    "use after free": ("weights[(card->sum ^ bytes[i]) & 255]",
                       "card->name = tenant_malloc(count)", "tenant_free(card->name);"),
    "double free": ("tenant_free(card.name)", "card->name = tenant_malloc(count)",
                    "tenant_free(card.nick)"),
    "overflow": ("text[at++]", "tenant_malloc(count + quotes)", ""),
}


@pytest.mark.parametrize("bug", sorted(PLANTED))
def test_a_crash_is_replayed(
    shared: pathlib.Path, alone: pathlib.Path, tmp_path: pathlib.Path, bug: str
) -> None:
    """A hundred runs by mte_run say the same, with lines of all stacks."""
    image, crash = fuzzers.cards(shared), tmp_path / "crash"
    crash.write_bytes(PLANTED[bug][0])
    ran = succeed([sys.executable, FUZZ / "replay.py", "--times", str(TIMES), "--program", alone,
                   image, crash])
    assert f"{TIMES} runs alike: " in ran.output and PLANTED[bug][1] in ran.output
    told = dict(re.findall(r"; (access|made|freed) ([^;\n]+)", ran.output))
    for stack, line in zip(("access", "made", "freed"), STACKS[bug]):
        places = lines_of("cards.c", line) if line else []
        assert not line or set(places) & set(told[stack].split()), (stack, told)
        assert line or stack not in told


def test_an_input_without_a_crash(
    shared: pathlib.Path, alone: pathlib.Path, tmp_path: pathlib.Path
) -> None:
    """The replay says that there is none."""
    text = tmp_path / "card"
    text.write_bytes(card(NAME))
    ran = run([sys.executable, FUZZ / "replay.py", "--program", alone, fuzzers.cards(shared), text])
    assert ran.status == 1 and "no crash (status 0)" in ran.errors


@pytest.mark.parametrize("number", [*range(2, 7), *range(129, 139)])
def test_an_exit_is_no_crash(alone: pathlib.Path, tmp_path: pathlib.Path, number: int) -> None:
    """Also with a status by which mte_run tells of a crash, or that it runs nothing."""
    (tmp_path / "image").write_bytes(program(*call(0, number)))
    (tmp_path / "input").touch()
    ran = run([sys.executable, FUZZ / "replay.py", "--program", alone, "image", "input"],
              cwd=tmp_path)
    assert ran == Ran(1, b"", f"input: no crash (status {number})\n".encode())


@pytest.mark.parametrize("words", ["image none", "none input", "--seed x image input",
                                   "image ."])
def test_nothing_is_run(alone: pathlib.Path, tmp_path: pathlib.Path, words: str) -> None:
    """Where mte_run runs nothing the replay ends with its status and line: 5 for a file that cannot
    be read. Without mte_run it ends for a wrong command line."""
    (tmp_path / "image").write_bytes(program(*call(0, 5)))
    (tmp_path / "input").touch()
    *options, image, text = words.split()
    given = [it.rjust(16, "0") if it == "x" else it for it in options] or ["--seed", f"{1:016}"]
    wanted = run([alone, *given, "--input", text, image], cwd=tmp_path)
    replay = [sys.executable, str(FUZZ / "replay.py"), *words.split()]
    ran = run([*replay, "--program", alone], cwd=tmp_path)
    assert ran == wanted and ran.status == (2 if options else 5) and ran.err
    ran = run([*replay, "--program", "./none"], cwd=tmp_path)
    assert ran == Ran(2, b"", b"replay.py: ./none is not there (--help)\n")


# By its name: what ends a run, and whether that is a crash.
FREED = [*call(3, 16), copy(9, 0), *call(4)]
ENDS = {
    "exit": (call(0, 3), False),
    "yield": (call(9), False),
    "no steps left": ([0x14000000], False),
    "tag": ([*FREED, load(1, 9)], True),
    "page": ([*move(1, 1 << 40), load(1, 1)], True),
    "abort of the heap": ([*FREED, copy(0, 9), *call(4)], True),
    "illegal word": ([NO_INSTRUCTION], True),
    "breakpoint": ([0xD4200000], True),
}


@pytest.mark.parametrize("fuzzer", ("libfuzzer", "afl"))
@pytest.mark.parametrize("end", sorted(ENDS))
def test_which_ends_are_crashes(
    shared: pathlib.Path, tmp_path: pathlib.Path, fuzzer: str, end: str
) -> None:
    """Each end alone, by both fuzzers, whether they are told what is compared or not."""
    need("clang", "ld.lld", "afl-clang-fast")
    words, is_crash = ENDS[end]
    (tmp_path / "tenant.elf").write_bytes(program(*words))
    (tmp_path / "input").write_bytes(b"A")
    folder, crashed = fuzzers.fuzzers(shared, fuzzer), {"libfuzzer": 77, "afl": -signal.SIGABRT}
    given: list[Word] = [folder / fuzzer, *["input"] * (fuzzer == "libfuzzer")]
    for compare in "01":
        ran = fuzzers.fuzz(folder, given, cwd=tmp_path, given=b"A", TENANT="tenant.elf", SETUP="0",
                           STEPS="100", COMPARE=compare)
        assert ran.status == (crashed[fuzzer] if is_crash else 0), ran.errors


def test_a_finding_is_replayed(
    shared: pathlib.Path, alone: pathlib.Path, tmp_path: pathlib.Path
) -> None:
    """What no tag shows is a crash by --exact alone."""
    image, text = fuzzers.labels(shared), tmp_path / "label"
    text.write_bytes(b"red,ab#defg,")
    words: list[Word] = [sys.executable, FUZZ / "replay.py", "--times", "3", "--program", alone]
    assert "no crash (status 2)" in run([*words, image, text]).errors
    assert "3 runs alike: " in succeed([*words, "--exact", image, text]).output


def test_a_fuzzer_that_is_missing(tmp_path: pathlib.Path) -> None:
    """What is not there is named with where it comes from, and nothing is built or run."""
    make_stub(tmp_path / "bin", "clang", f"echo {tmp_path}\n")
    extra = make_stub(tmp_path / "bin", "ld.lld", "")
    words: list[Word] = [sys.executable, FUZZ / "build.py", tmp_path / "made", "--fuzzer",
                         "libfuzzer", "--library", FUZZ / "cards.c"]
    ran = run(words, extra=extra)
    assert ran == Ran(1, b"", b"build.py: libfuzzer is not there (Debian: libclang-rt-14-dev)\n")
    assert not (tmp_path / "made").exists()
    words = [sys.executable, FUZZ / "campaign.py", tmp_path, "cards", "--program", sys.executable]
    told = f"campaign.py: {tmp_path}/libfuzzer is not there (build.py)\n"
    assert run(words) == Ran(1, b"", told.encode())
    make_stub(tmp_path, "afl", "")
    ran = run([*words, "--fuzzer", "afl"], extra={"PATH": f"{tmp_path}/bin"})
    assert ran == Ran(1, b"", b"campaign.py: afl-fuzz is not there (Debian: afl++)\n")


@pytest.mark.parametrize("tenant", ("magic", "commands"))
def test_libfuzzer_is_told_comparisons(
    shared: pathlib.Path, tmp_path: pathlib.Path, tenant: str
) -> None:
    """It finds a bug that a comparison of numbers or of texts guards; untold it finds none."""
    need("clang", "ld.lld")
    folder = fuzzers.fuzzers(shared, "libfuzzer")
    for compare, runs, status in (("1", TOLD_RUNS, 77), ("0", UNTOLD_RUNS, 0)):
        corpus = tmp_path / compare
        shutil.copytree(folder / f"{tenant}.corpus", corpus)
        words: list[Word] = [folder / "libfuzzer", "-seed=1", "-max_len=64", f"-runs={runs}",
                             corpus]
        ran = fuzzers.fuzz(folder, words, cwd=tmp_path, TENANT=str(folder / f"{tenant}.elf"),
                           COMPARE=compare)
        assert ran.status == status, ran.errors[-2000:]


@pytest.mark.parametrize("tenant", ("magic", "commands"))
def test_afl_is_told_comparisons(
    shared: pathlib.Path, tmp_path: pathlib.Path, tenant: str
) -> None:
    """By -c 0 it finds such a bug: what it changes for it is named so."""
    need("clang", "ld.lld", "afl-fuzz", "afl-clang-fast")
    folder, found = fuzzers.fuzzers(shared, "afl"), tmp_path / "found"
    words: list[Word] = ["afl-fuzz", "-i", folder / f"{tenant}.corpus", "-o", found, "-c", "0",
                         "-V", "60", "-t", "5000", "-s", "1", "--", folder / "afl"]
    ran = fuzzers.fuzz(folder, words, cwd=tmp_path, AFL_BENCH_UNTIL_CRASH="1",
                       TENANT=str(folder / f"{tenant}.elf"))
    kept = [it.name for it in (found / "default").glob("*/id:*")]
    assert any("op:its" in it for it in kept), ran.output[-2000:] + ran.errors[-2000:]
    assert list((found / "default" / "crashes").glob("id:*")), kept


# By the tenant: what the dictionary of its comparisons has.
SOLVED = {"magic": b"\x41\x9e\x5d\xb2", "magic_bytes": b"", "chunk": b"ROWS"}


@pytest.mark.parametrize("tenant", sorted({*SOLVED, "commands"}))
def test_comparisons_are_solved(
    shared: pathlib.Path, tmp_path: pathlib.Path, tenant: str
) -> None:
    """Without a fuzzer: from the tenant's seed an input that crashes, but where it takes several
    words at once; and a dictionary."""
    need("llvm-nm")
    corpus, words = tmp_path / "corpus", tmp_path / "words"
    shutil.copytree(FUZZ / "corpus" / tenant, corpus)
    ran = run(["python3", "-B", FUZZ / "solve.py", "--dictionary", words,
               fuzzers.guarded(shared, tenant), corpus], extra=in_python(shared, PACKAGE).extra)
    assert (ran.status, ran.errors) == (0, "")
    assert bool(list(corpus.glob("crash-*"))) == (tenant in SOLVED), ran.output
    wanted = [SOLVED[tenant]] if tenant in SOLVED else [b"session", b"release", b"restore"]
    for word in wanted:
        assert "".join(f"\\x{it:02x}" for it in word) in words.read_text()


def test_a_corpus_is_made_smaller(shared: pathlib.Path, tmp_path: pathlib.Path) -> None:
    """-merge=1 and afl-cmin, as the page has them: inputs that reach nothing more are left out."""
    need("clang", "ld.lld", "afl-cmin", "afl-clang-fast")
    for fuzzer in ("libfuzzer", "afl"):
        folder, corpus = fuzzers.fuzzers(shared, fuzzer), tmp_path / f"{fuzzer}.corpus"
        small = tmp_path / f"{fuzzer}.small"
        small.mkdir()
        shutil.copytree(folder / "cards.corpus", corpus)
        for letter in "BCDE":
            (corpus / letter).write_bytes(card(field("N", f"{letter}da".encode())))
        words: list[Word] = [folder / fuzzer, "-merge=1", small, corpus]
        if fuzzer == "afl":
            words = ["afl-cmin", "-i", corpus, "-o", small, "--", folder / fuzzer]
        ran = fuzzers.fuzz(folder, words, cwd=tmp_path, AFL_ALLOW_TMP="1")
        assert 2 <= len(list(small.iterdir())) <= len(list(corpus.iterdir())) - 3, ran.errors


def test_a_campaign_by_exact_runs(
    shared: pathlib.Path, alone: pathlib.Path, tmp_path: pathlib.Path
) -> None:
    """libFuzzer finds the overflow within a granule in seconds, and the campaign tells it."""
    need("clang", "ld.lld")
    folder = tmp_path / "fuzz"
    shutil.copytree(fuzzers.fuzzers(shared, "libfuzzer"), folder)
    ran = succeed([sys.executable, FUZZ / "campaign.py", folder, "labels", "--exact", "--seconds",
                   "600", "--until", "1", "--program", alone])
    told, replayed, page = ran.output.splitlines()[1:]
    assert re.search(r"\boverflow\b|\bPastSize\b|Buffer Overflow", told), ran.output
    assert re.search(r": \d+ crash(es)?$", told), ran.output
    assert "Cause: " in run(shlex.split(replayed)).errors
    assert pathlib.Path(page.strip()).read_text().startswith("<!")


# By the bug: what GDB watches behind the fault, what it prints of it, and who freed the chunk.
WATCHED = {
    "use after free": ("*(char *)$_siginfo._sifields._sigfault.si_addr", "SIGSEGV",
                       "New value = 65 'A'", "forget_name"),
    "double free": ("*(long *)(($x0 & 0xffffffffffffff) - 16)", "SIGABRT", "New value = ",
                    lines_of("cards.c", STACKS["double free"][2])[0]),
}


@pytest.mark.parametrize("bug", sorted(WATCHED))
def test_back_to_the_free(
    shared: pathlib.Path, alone: pathlib.Path, tmp_path: pathlib.Path, bug: str
) -> None:
    """The page's commands in GDB: from the fault backwards to the free of the chunk."""
    image, crash = fuzzers.cards(shared), tmp_path / "small"
    watched, signal, value, freed = WATCHED[bug]
    crash.write_bytes(PLANTED[bug][0])
    words = ["-iex", f"file {image}",
             "-ex", target(alone, ["--input", "small", str(image)], "extended-remote")]
    dialog = asked(words, ["continue", f"watch -l {watched}", "reverse-continue", "backtrace"],
                   tmp_path)
    assert f"Cause: {'[MTE]: ' * (signal == 'SIGSEGV')}{PLANTED[bug][1]}" in dialog[0]
    assert signal in dialog[0] and value in dialog[2]
    assert "tenant_free (chunk=" in dialog[3] and freed in dialog[3]


# A crash with fields that have no part in it.
LARGE = card(field("D", b"12"), NAME, field("Q", b"abc"), ENTER, field("="), field("}"),
             field("C"), field("D", b"7"))


def assert_is_smaller(folder: pathlib.Path, alone: pathlib.Path, small: pathlib.Path) -> None:
    """An input is smaller than the large crash, and the same bug's."""
    assert len(small.read_bytes()) < len(LARGE)
    told = run([alone, "--input", small, folder / "cards.elf"]).errors
    assert "Cause: " in told and "Double Free" in told


def test_libfuzzer_makes_a_crash_smaller(
    shared: pathlib.Path, alone: pathlib.Path, tmp_path: pathlib.Path
) -> None:
    """-minimize_crash, as the page has it."""
    need("clang", "ld.lld")
    folder = fuzzers.fuzzers(shared, "libfuzzer")
    (tmp_path / "crash").write_bytes(LARGE)
    ran = fuzzers.fuzz(folder, [folder / "libfuzzer", "-minimize_crash=1", "-runs=20000",
                                "-seed=1", "crash"], cwd=tmp_path)
    made = sorted(tmp_path.glob("minimized-from-*"), key=lambda it: len(it.read_bytes()))
    assert made, ran.errors[-2000:]
    assert_is_smaller(folder, alone, made[0])


def test_afl_makes_a_crash_smaller(
    shared: pathlib.Path, alone: pathlib.Path, tmp_path: pathlib.Path
) -> None:
    """afl-tmin, as the page has it."""
    need("clang", "ld.lld", "afl-tmin", "afl-clang-fast")
    folder = fuzzers.fuzzers(shared, "afl")
    (tmp_path / "crash").write_bytes(LARGE)
    ran = fuzzers.fuzz(folder, ["afl-tmin", "-i", "crash", "-o", "small", "--", folder / "afl"],
                       cwd=tmp_path)
    assert (tmp_path / "small").exists(), ran.output[-2000:] + ran.errors[-2000:]
    assert_is_smaller(folder, alone, tmp_path / "small")


def test_other_seeds(shared: pathlib.Path, tmp_path: pathlib.Path) -> None:
    """Kept inputs by other tags: those of the corpus end well by each seed, and with a crash among
    them by none."""
    need("clang", "ld.lld")
    folder = fuzzers.fuzzers(shared, "libfuzzer")
    corpus = tmp_path / "corpus"
    shutil.copytree(folder / "cards.corpus", corpus)
    words = [str(folder / "libfuzzer"), "-runs=0", str(corpus)]
    for seed in "234":
        assert fuzzers.fuzz(folder, [*words], cwd=tmp_path, SEED=seed).status == 0
    (corpus / "crash").write_bytes(LARGE)
    for seed in "234":
        assert fuzzers.fuzz(folder, [*words], cwd=tmp_path, SEED=seed).status != 0
