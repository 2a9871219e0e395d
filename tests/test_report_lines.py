"""Reports of mte_run line by line, of each act of tests/images by each build: lines of known forms
in their order, what JSON says in them, and the parts that each option asks for."""

import pathlib
import re

import pytest

from tests.support.acts import OPTION_BUILDS, PRIMARY, Act, primary
from tests.support.counts import NAMES
from tests.support.explained import Explained, ImageActs, run_act
from tests.support.report_lines import (
    ORDER, chosen, first_line, json_lines, last_line, letters, machine_lines, parts_of, traced,
)
from tests.support.told import explain, read_told
from tests.support.traces import LINE

# What is asked for: parts, and how many instructions and calls.
CHOICES = (
    "", "--last 0", "--last 1", "--last 100 --calls 3", "--calls 65536 --last 0", "--leaks",
    "--leaks --statistics --map text", "--statistics --last 2", "--map text --last 0",
)
CHOSEN = [
    *((source, PRIMARY[source]) for source in sorted(PRIMARY)), ("chunks", "l"), ("chunks", "m"),
    ("chunks", "q"), ("services", "s"), ("services", "e131"),
]
# Steps of a trace, as the option has them, and the first and the last.
RANGES = (("", 1, 1 << 64), ("=60-", 60, 1 << 64), ("=-3", 1, 3), ("=70-75", 70, 75))


def test_lines_have_known_forms_in_their_order(acts: ImageActs) -> None:
    """No line is of another form, and none has another place."""
    for one in acts.runs:
        forms = letters(one.ran.errors.splitlines())
        assert "?" not in forms and ORDER.match(forms), f"{one.act}: {forms}"


def test_lines_have_what_json_has(acts: ImageActs) -> None:
    """The first and the last line, registers and pages, and whether output was cut."""
    for one in acts.runs:
        parts = parts_of(one.ran.errors)
        assert parts.get("final", []) == last_line(one), one.act
        assert ("cut" in parts) == one.json["output_cut"], one.act
        if one.told.end:
            assert first_line(one).match(one.told.first), f"{one.act}: {one.told.first}"
            machine = machine_lines(one.json, one.told.generator)
            assert parts["state"][:-1] == machine, one.act
        check_map(one, parts["map"])
        assert list(one.told.statistics) == [*in_text(one), "reserved"]


def check_map(one: Explained, lines: list[str]) -> None:
    """The title of the heap: how it ended and when; where the instruction is stands below it."""
    cause, end = one.told.cause or "", f", step {one.json['steps']}, seed {one.json['seed']}"
    assert lines[0].startswith(f"{one.json['image']}: {cause}") and lines[0].endswith(end)
    is_known = bool(one.told.end) and one.status.get("address", "") != one.status.get("pc")
    assert bool(one.told.instruction) == is_known, one.act
    listed = "\n".join(parts_of(one.ran.errors)["end"])
    frames = re.findall(r"^ +#\d+ (.*?)(?: \(x30, may be old\))?$", listed, re.M)
    places = lines[1][3:].split("; ") if frames else []
    chunk = (one.json["chunks"] or [{}])[0]
    calls = [f"{did} by call {chunk[did]['number']} in " for did in ("allocated", "freed")
             if chunk.get(did)]
    for place, call in zip(places, ["", *calls] if frames else [], strict=True):
        assert place.startswith(call) and place[len(call):] in frames, one.act


def in_text(one: Explained) -> list[str]:
    """The names of the statistics, in the order of the text."""
    calls = ["malloc", "free", "calloc", "realloc", "memalign", "usable_size"]
    assert list(one.json["statistics"])[6:12] == calls
    return [*NAMES[:4], NAMES[4], *calls, "tags drawn", "pages mapped at most"]


def test_json_is_written_in_the_order_of_its_keys(acts: ImageActs) -> None:
    """A line for each key, with the seed and the status that the process ended with."""
    for one in acts.runs:
        assert one.json_text == json_lines(one.json), one.act
        assert one.json["image"] == f"{acts.source}.{acts.build}.elf"
        assert one.json["exit_status"] == one.ran.status


@pytest.mark.parametrize("build", OPTION_BUILDS)
@pytest.mark.parametrize("source, text", CHOSEN, ids="-".join)
def test_options_choose_parts_of_the_whole_report(
    alone: pathlib.Path, tmp_path: pathlib.Path, source: str, text: str, build: str
) -> None:
    """Each option adds its part and changes nothing else; --last and --calls cut theirs."""
    act = next(it for it in (primary(source), Act(source, text, 0)) if it.input == text)
    if build not in act.builds:
        return
    whole = run_act(alone, act, build, tmp_path)
    for options in CHOICES:
        ran = explain(alone, act, build, tmp_path, *options.split())
        assert ran.errors.splitlines() == chosen(whole, options.split()), options
        assert (ran.status, ran.out) == (whole.ran.status, whole.ran.out)


@pytest.mark.parametrize("source, text, words", [
    ("services", "a", ""), ("services", "a", "--async"), ("objects", "o", ""), ("chunks", "f", ""),
    ("services", "s", "--slices 1000,700,5000"),
])
def test_a_part_of_a_trace_is_of_the_whole_one(
    alone: pathlib.Path, tmp_path: pathlib.Path, source: str, text: str, words: str
) -> None:
    """--trace=FIRST-LAST and --services, alone and together, by the whole trace."""
    act, file = Act(source, text, 0, options=tuple(words.split())), tmp_path / "lines"
    whole = run_act(alone, act, "clang-O0", tmp_path)
    asked = [([f"--trace{steps}", *more], first, last, bool(more))
             for steps, first, last in RANGES for more in ((), ("--services",))]
    asked.append((["--services"], 1, 0, True))
    for options, first, last, services in asked:
        explain(alone, act, "clang-O0", tmp_path, "--trace-file", str(file), *options)
        assert file.read_text().splitlines() == list(traced(whole.trace, first, last, services))


@pytest.mark.parametrize("word, seed", [
    ("ff", "00000000000000ff"), ("0x10", "0000000000000010"), ("FFFFFFFFFFFFFFFF", "f" * 16),
    ("0", "0" * 16),
])
def test_a_seed_may_be_short(
    alone: pathlib.Path, tmp_path: pathlib.Path, word: str, seed: str
) -> None:
    """Digits that are not written are 0; either case of letters counts."""
    act = Act("chunks", "s", 0)
    short, whole = (run_act(alone, act, "gcc-O0", tmp_path, "--seed", it) for it in (word, seed))
    assert short == whole and whole.json["seed"] == seed


@pytest.mark.parametrize("options, seeds", [("", "exit, none is told"),
                                            ("--exact", "exact, told is seed 0000000000000001")])
def test_seeds_with_exact(
    alone: pathlib.Path, tmp_path: pathlib.Path, options: str, seeds: str
) -> None:
    """What no tag finds ends no seed's run but with --exact, and the first is told then."""
    act, words = Act("chunks", "q", 0), options.split()
    first = explain(alone, act, "gcc-O2", tmp_path, *words)
    ran = explain(alone, act, "gcc-O2", tmp_path, *words, "--seeds", "3")
    assert ran.errors == f"mte_run: 3 seeds: 3 ended by {seeds}\n{first.errors}"
    assert ran.status == first.status


def test_one_seed_is_no_count(alone: pathlib.Path, tmp_path: pathlib.Path) -> None:
    """--seeds 1 is the run under the seed alone."""
    act, seed = Act("many", "x", 0), ("--seed", "0e3cb6225c186a21")
    runs = [explain(alone, act, "clang-O2", tmp_path, *seed, *more)
            for more in ((), ("--seeds", "1"))]
    assert runs[0] == runs[1]


def test_a_reservation_too_small(alone: pathlib.Path, tmp_path: pathlib.Path) -> None:
    """The tenant is refused, and nothing runs."""
    ran = explain(alone, Act("services", "s", 0), "clang-O2", tmp_path, "--pages", "6")
    assert (ran.status, ran.output, ran.errors) == (
        136, "", "mte_run: the tenant is refused: ReservationTooSmall: --pages gives it more\n"
        "mte_run: ended by refusal, status 136\n")


def test_a_limit_over_two_slices(alone: pathlib.Path, tmp_path: pathlib.Path) -> None:
    """A limit that is one step beyond a slice: the last step is the second slice's first."""
    words = ("--steps", "1048577", "--slices", "1048576,1048576", "--last", "2")
    ran = explain(alone, Act("services", "w", 0), "clang-O0", tmp_path, *words)
    told = read_told(ran.errors)
    limit = "the limit of 1048577 steps is reached (--steps gives it more)"
    assert (ran.status, told.first) == (134, limit)
    steps = [found[1] for line in ran.errors.splitlines() if (found := LINE.match(line))]
    assert steps == ["1048576", "1048577"]
    assert told.final == "mte_run: ended by limit of steps, status 134"
