"""Tenants that are led on to a total of steps by tools/batch --steps: mte_host has the same report
over the script that is written, and each tenant has its total or has ended.

TOMBOLOPAN_DRAWN is how many sessions are drawn, from seed 0 on."""

import bisect
import os
import pathlib
import random
import shutil
import sys
from collections.abc import Sequence
from dataclasses import dataclass
from typing import Any

import pytest

from tests.support.batches import Batch, summary
from tests.support.drawn_sessions import MOST_STEPS, back, write_sessions
from tests.support.host_sessions import admission
from tests.support.instructions import call, move, program, subtract_with_flags
from tests.support.led_sessions import check_script, run_over, write_led
from tests.support.library import shared_object
from tests.support.places import EXAMPLES, ROOT
from tests.support.running import Ran, run

sys.path.insert(0, str(ROOT / "tools"))
from batch.answers import after_further  # noqa: E402
from batch.further import Run, count_of, lead, lines_of, runs_of, slices_of  # noqa: E402
from batch.reports import tenants_of  # noqa: E402

DRAWN = int(os.environ.get("TOMBOLOPAN_DRAWN", "300"))
TOTALS = [900, 40_000, 2_500_000]
MOST_EVENTS, YIELD, EXIT = 10_000, 9, 0
# How often a tenant is run at the most, for a total of some millions.
MOST_RUNS = 64


@pytest.fixture
def library(shared: pathlib.Path) -> dict[str, str]:
    """The variables of a command that has the library."""
    return {"TOMBOLOPAN": str(shared_object(shared))}


# The slices that are found

@dataclass(frozen=True)
class Model:
    """A tenant that yields at some steps, and may end at one."""

    status: str
    steps: int


def model_run(yields: Sequence[int], end: int, slices: Sequence[int]) -> Model:
    """What such a tenant is after some slices."""
    steps = 0
    for length in slices:
        at = bisect.bisect_right(yields, steps)
        steps = min(steps + length, end, yields[at] if at < len(yields) else end)
    return Model("exit" if steps == end else "running", steps)


@pytest.mark.parametrize("seed", range(30))
def test_slices_of_a_model(seed: int) -> None:
    """The total is met by the step, or the tenant ends in the last slice; it is run few times, and
    never for more steps than the total."""
    draw = random.Random(seed)
    total, end = draw.choice([1, 99, 30_000, 3_000_000]), draw.choice([5, 20_000, 1 << 40])
    places = [draw.randrange(1, 10 ** draw.randint(1, 7)) for _ in range(draw.choice([0, 9, 3000]))]
    every = draw.choice([0, 2, 3, 1000])
    yields = sorted({*places, *(range(every, min(total, 90_000), every) if every else ())})
    runs, most = 0, 0

    def ran(further: list[Run]) -> Any:
        nonlocal runs, most
        found = model_run(yields, end, [7, *slices_of(further)])
        runs, most = runs + 1, max(most, found.steps)
        return found

    found, tenant = lead(ran, total)
    assert runs <= MOST_RUNS and most <= max(total, 7)
    again = model_run(yields, end, [7, *slices_of(found)])
    assert (tenant.status, tenant.steps) == (again.status, again.steps)
    assert tenant.steps == max(total, min(yields[:1] + [7, end])) or tenant.status == "exit"
    if tenant.status == "exit" and found:
        (*first, (length, count)) = found
        assert model_run(yields, end, [7, *slices_of([*first, (length, count - 1)])]).status == (
            "running")


# The scripts that are written

def check_tenants(before: bytes, after: Sequence[dict[str, Any]], total: int) -> None:
    """Each tenant has its total, or what its own slices give it, or has ended; one that was stopped
    or had ended is as it was."""
    for old, new in zip(tenants_of(before), after, strict=True):
        most = max(total, old["steps"])
        if old["status"]["kind"] != "running":
            assert new == old
        elif new["status"]["kind"] == "running":
            assert new["steps"] == most, new
        else:
            assert old["steps"] <= new["steps"] <= most, new


def check_led(host: pathlib.Path, folder: pathlib.Path, reports: pathlib.Path,
              told: dict[str, Any], total: int) -> None:
    """The script of a session is as it should be, and so are its tenants."""
    before = check_script(host, folder, reports, told)
    check_tenants(before, told.get("tenants", ()), total)


@pytest.mark.parametrize("total", TOTALS)
@pytest.mark.parametrize("options", [(), ("--split",)], ids=["whole", "split"])
def test_drawn_sessions(host: pathlib.Path, library: dict[str, str], tmp_path: pathlib.Path,
                        total: int, options: tuple[str, ...]) -> None:
    """Drawn sessions, of which some have more yields than a script has room for."""
    at = 2 * TOTALS.index(total) + len(options)
    seeds = range(at * DRAWN // 6, (at + 1) * DRAWN // 6)
    write_sessions(tmp_path / "sessions", seeds)
    batch = Batch(tmp_path / "sessions", library, ("--jobs", "2", "--steps", str(total), *options))
    told = batch.told("--reports", tmp_path / "reports")
    words = {it["verdict"] for it in told["sessions"]}
    assert "answered" in words and words <= {"answered", "no script"}
    for it in told["sessions"]:
        check_led(host, batch.sessions / it["name"], tmp_path / "reports", it, total)
    again = batch.run()
    assert summary(again)[1] == f"0 run, {len(seeds)} kept"


def counting(times: int) -> bytes:
    """A program that yields so many times, every four steps, and exits with 7."""
    turn = [*call(YIELD), subtract_with_flags(20, 20, 1)]
    return program([*move(20, times), *turn, back(len(turn)), *call(EXIT, 7)])


@pytest.mark.parametrize("times", [4000, 1_000_000])
def test_many_yields(host: pathlib.Path, library: dict[str, str], tmp_path: pathlib.Path,
                     times: int) -> None:
    """Of a tenant that yields a million times, steps, status and output are as they are, though no
    script has as many slices; one that yields some thousand times has a script."""
    folder = tmp_path / "sessions" / "one"
    write_led(folder, [counting(times)], [admission(number) for number in (1, 2)], 22)
    turn, first = len(call(YIELD)) + 2, len(move(20, times))
    whole = first + turn * times + len(call(EXIT, 7))
    for total in (turn * times // 2, 10 * whole):
        batch = Batch(tmp_path / "sessions", library, ("--steps", str(total), "--jobs", "2"))
        told = batch.told("--reports", tmp_path / "reports")["sessions"][0]
        assert told["verdict"] == ("no script" if times > MOST_EVENTS else "answered"), told
        ended = total > whole
        status = {"kind": "exit", "code": 7} if ended else {"kind": "running"}
        assert [(it["steps"], it["status"], it["output"]["bytes"]) for it in told["tenants"]] == [
            (whole if ended else total, status, 0)] * 2
        check_led(host, folder, tmp_path / "reports", told, total)


# Runs the search for the only tenant of each script of a folder, over its files, by the library.
SEARCH = """import pathlib, sys
sys.path[:0] = sys.argv[2:]
from batch.further import found_for
for at in sorted(pathlib.Path(sys.argv[1]).iterdir()):
    files = [it.read_bytes() for it in sorted(at.glob("image-*"))]
    (at / "found").write_bytes(found_for((at / "script").read_bytes(), files, 30_000))
"""


def test_reports_of_tenants_alone(host: pathlib.Path, library: dict[str, str],
                                  tmp_path: pathlib.Path) -> None:
    """What is put together of a tenant alone is what mte_host writes of it, byte for byte, however
    it ended."""
    sessions = tmp_path / "sessions"
    write_sessions(sessions, range(max(40, DRAWN // 4)))
    for number, at in enumerate(sorted(sessions.iterdir())):
        mode = " async" if number % 3 == 0 else ""
        line = f"admit 7 image {number % 4 + 1} input 1 seed 00000000000000{number % 256:02x}"
        (at / "script").write_text(f"{line} frames 9 out 64{mode}\nslice 7 11\n")
    places = [str(ROOT / "tools"), str(ROOT / "examples" / "embed")]
    ran = run([sys.executable, "-c", SEARCH, sessions, *places], extra=library)
    assert (ran.status, ran.errors) == (0, "")
    kinds = set()
    for at in sessions.iterdir():
        found = (at / "found").read_bytes()
        slices = lines_of(runs_of(found))
        if slices.count(b"\n") < MOST_EVENTS - 1:
            (at / "longer").write_bytes((at / "script").read_bytes() + slices)
            ran = run_over(host, at, at / "longer")
            assert (ran.status, ran.out) == (0, after_further(found))
            kinds |= {it["status"]["kind"] for it in tenants_of(ran.out)}
    assert kinds >= {"running", "exit", "fault", "illegal", "breakpoint"}, kinds


def test_a_faulty_script(host: pathlib.Path, library: dict[str, str],
                         tmp_path: pathlib.Path) -> None:
    """It has its line; a session that cannot be read, and words that are none, are as ever; those
    with what they are wanted to write are compared."""
    write_sessions(tmp_path / "sessions", range(4))
    names = sorted(it.name for it in (tmp_path / "sessions").iterdir())
    at = [tmp_path / "sessions" / it for it in names]
    with open(at[0] / "script", "a", encoding="utf-8") as file:
        file.write("\nslice 1 1048577\n")
    (at[1] / "script").unlink()
    (at[2] / "args").write_text("script\n")
    (at[3] / "want.status").write_text("1\n")
    batch = Batch(tmp_path / "sessions", library, ("--steps", "500", "--jobs", "1"))
    told = batch.told("--reports", tmp_path / "reports")["sessions"]
    assert [(it["verdict"], it.get("status")) for it in told] == [
        ("answered", 3), ("answered", 5), ("no session", None), ("different", 0)]
    ran = run_over(host, at[0], at[0] / "script")
    assert (tmp_path / "reports" / f"{names[0]}.err").read_bytes() == ran.err


def test_what_is_lost(library: dict[str, str], tmp_path: pathlib.Path) -> None:
    """A session that never answers is lost, at each of its runs, and the others are not."""
    write_sessions(tmp_path / "sessions", range(6))
    options = ("--steps", "5000", "--jobs", "2", "--tries", "0")
    batch = Batch(tmp_path / "sessions", library, options)
    with open(batch.sessions / "drawn-000003" / "script", "a", encoding="utf-8") as file:
        file.write("\n# marked\n")
    ran = batch.going_wrong("if b'# marked' in script: raise MemoryError").run()
    assert ran.status == 1 and "lost: drawn-000003: ledger: out of memory" in ran.output
    assert ", 1 lost" in summary(ran)[0]


def test_usage(library: dict[str, str], tmp_path: pathlib.Path) -> None:
    """What does not go together is said."""
    write_sessions(tmp_path / "sessions", range(1))
    for options, said in (((), "--steps takes no --program without --split"),
                          (("--split", "--share", "1/2"), "neither --sample nor --split"),
                          (("--sample", "3", "--elsewhere", "true"), "neither --sample")):
        more = ("--program", "true") if not options else options
        ran = Batch(tmp_path / "sessions", library, ("--steps", "9", *more)).run()
        assert (ran.status, ran.output) == (2, "") and said in ran.errors


def draw_users(drawn: random.Random, top: pathlib.Path, total: int) -> dict[str, int]:
    """Writes sessions of some users; the steps that those of each allow, by what was drawn."""
    allowed: dict[str, int] = {}
    for user in drawn.sample(["ann", "bob", "cy", "di"], 3):
        allowed[user] = 0
        for number in range(drawn.randint(1, 3)):
            folder = top / user / str(number)
            folder.mkdir(parents=True)
            shutil.copy(EXAMPLES / "hi.elf", folder)
            tenants = list(range(1, drawn.randint(2, 4)))
            slices = [drawn.randrange(MOST_STEPS + 1) for _ in range(drawn.randint(0, 5))]
            lines = [*map(admission, tenants), "# slice 1 7", *(
                f"{' ' * drawn.randrange(2)}slice {drawn.choice([*tenants, 9])} {it}"
                for it in slices)]
            (folder / "script").write_text("\n".join(lines) + "\n", encoding="utf-8")
            (folder / "args").write_text("--frames\n40\nscript\nhi.elf\n", encoding="utf-8")
            allowed[user] += sum(slices) + total * len(tenants)
    return allowed


@pytest.mark.parametrize("seed", range(6))
def test_quotas(library: dict[str, str], tmp_path: pathlib.Path, seed: int) -> None:
    """Sessions run where no user's allow more steps than the quota, by --steps too; else the first
    such user is named, and nothing runs or is written."""
    drawn = random.Random(seed)
    total = drawn.choice([0, 900])
    allowed = draw_users(drawn, tmp_path / "sessions", total)
    batch = Batch(tmp_path / "sessions", library, ("--steps", str(total)) if total else ())
    for quota in {max(allowed.values()) - 1, min(allowed.values()) - 1, 1}:
        beyond = min(it for it in allowed if allowed[it] > max(quota, 1))
        ran = batch.run("--quota", str(max(quota, 1)), "--reports", tmp_path / "reports")
        assert ran == Ran(2, b"", f"batch: the sessions of {beyond} allow {allowed[beyond]} steps, "
                                  f"and the quota is {max(quota, 1)}\n".encode())
        assert not batch.store.exists() and not (tmp_path / "reports").exists()
    assert batch.run("--quota", str(max(allowed.values()))).status == 0


def test_counts() -> None:
    """So many slices of a length are so many."""
    assert count_of([(MOST_STEPS, 3), (5, 1)]) == len(slices_of([(MOST_STEPS, 3), (5, 1)])) == 4
