"""Tenants that are led on to a bound of work by tools/batch --work: steps, and the bytes that
services touch. How much work slices are is what a model makes of a tenant's heap calls and output,
which the library tells; a bound is met by a last slice of one step at the most.

TOMBOLOPAN_DRAWN is how many programs are drawn, from seed 0 on."""

import bisect
import dataclasses
import json
import os
import pathlib
import random
import sys
from collections.abc import Callable, Sequence
from typing import Any

import pytest

from tests.support.batches import Batch
from tests.support.drawn_sessions import MOST_STEPS, back, waiting, write_sessions
from tests.support.host_sessions import admission
from tests.support.instructions import (
    CODE, SERVICE, call, copy, move, program, subtract_with_flags,
)
from tests.support.led_sessions import check_script, write_led
from tests.support.library import shared_object
from tests.support.places import EXAMPLES, ROOT
from tests.support.running import run

sys.path.insert(0, str(ROOT / "tools"))
from batch.effort import MOST_BEYOND, lead, longest  # noqa: E402
from batch.further import Run, count_of, slices_of  # noqa: E402

DRAWN = int(os.environ.get("TOMBOLOPAN_DRAWN", "300"))
EXIT, WRITE, READ, MALLOC, FREE, CALLOC, REALLOC, MEMALIGN, USABLE, YIELD, LEFT = range(11)
# So many bytes are as much work as a step, and the largest chunk is so much.
BYTES_OF_STEP, LARGEST = 2048, 1 << 20
# A tenant has room for some of the largest chunks.
PAGES = 700
MOST_RUNS = 80
KEPT = 19


@pytest.fixture
def library(shared: pathlib.Path) -> dict[str, str]:
    """The variables of a command that has the library."""
    return {"TOMBOLOPAN": str(shared_object(shared))}


# The slices that are found

@dataclasses.dataclass(frozen=True)
class Model:
    """How much work a tenant did that yields at some steps and touches bytes at others."""

    slices: int
    work: int
    before: int
    is_running: bool


def model_run(yields: Sequence[int], costs: Sequence[tuple[int, int]], end: int, total: int,
              slices: Sequence[int]) -> Model:
    """What such a tenant did when its slices met a total, or it ended."""
    places = [it for it, _ in costs]
    sums = [0]
    for _, cost in costs:
        sums.append(sums[-1] + cost)
    steps = work = before = count = 0
    for length in slices:
        if work >= total or steps == end:
            break
        at = bisect.bisect_right(yields, steps)
        steps = min(steps + length, end, yields[at] if at < len(yields) else end)
        before, work = work, steps + sums[bisect.bisect_right(places, steps)]
        count += 1
    return Model(count, work, before, steps < end)


@pytest.mark.parametrize("seed", range(60))
def test_slices_of_a_model(seed: int) -> None:
    """The bound is met, by a last slice of one step where it is passed, or the tenant ends in the
    last slice; it is run few times, and none of these does many times the bound's work."""
    draw = random.Random(seed)
    total, end = draw.choice([1, 99, 30_000, 900_000]), draw.choice([5, 20_000, 1 << 40])
    pages = draw.choice([5, 64, 4096])
    every = draw.choice([0, 2, 3, 1000])
    yields = list(range(every, 900_000, every)) if every else []
    dearest, apart = 2 * pages, draw.choice([1, 1, 7, 5000])
    begin = draw.choice([1, total // 2 + 1, max(total - 50, 1)])
    costs = [(it, draw.choice([0, 1, dearest])) for it in range(begin, 900_000, apart)]
    runs = most = 0

    def ran(further: list[Run]) -> Any:
        nonlocal runs, most
        found = model_run(yields, costs, end, total, [3, *slices_of(further)])
        runs, most = runs + 1, max(most, found.work)
        return dataclasses.replace(found, slices=found.slices - 1)

    first = model_run(yields, costs, end, total, [3])
    found = lead(ran, total, longest(total, pages))
    assert runs <= MOST_RUNS
    assert most <= max((1 + MOST_BEYOND) * total, total + 1 + dearest, first.work)
    again = model_run(yields, costs, end, 1 << 60, [3, *slices_of(found)])
    assert again.slices == 1 + count_of(found)
    assert again.work >= total or not again.is_running
    if again.work > total and found:
        assert again.before < total and slices_of(found)[-1] == 1


# How much work slices are

# Tells, of each folder's image, what it does and what work it is at the ends of its slices.
ASKED = """import dataclasses, json, pathlib, sys
sys.path[:0] = sys.argv[2:]
import tombolopan
for at in sorted(pathlib.Path(sys.argv[1]).iterdir()):
    image, given = ((at / it).read_bytes() for it in ("image", "input"))
    slices = json.loads((at / "slices").read_text())
    ends = []
    for count in range(len(slices) + 1):
        it = tombolopan.alone(image, given, slices[:count], 1, 700)
        calls = [(c.service, c.first, c.second, c.answer) for c in it.calls]
        ends.append((it.steps, len(it.output), calls, it.heap, it.status == "running"))
    bounds = [0, 1, 40, 900, 3000, 100_000, 1 << 63]
    works = [dataclasses.astuple(tombolopan.work(image, given, slices, 1, 700, most=it))
             for it in bounds]
    (at / "told").write_text(json.dumps({"ends": ends, "bounds": bounds, "works": works}))
"""


def again(words: list[int]) -> list[int]:
    """Goes on with these words for ever."""
    return [*words, 0x14000000 | (-len(words) & 0x3FFFFFF)]


def of_kept(service: int, second: int = 0) -> list[int]:
    """A heap call with the chunk that is kept."""
    return [copy(0, KEPT), *move(1, second), *move(8, service), SERVICE]


def draw_act(draw: random.Random) -> list[int]:
    """Some service, a turn of work, or a yield."""
    size = draw.choice([0, 1, 16, 300, 5000, 70_000, 300_000, LARGEST, LARGEST + 1])
    return draw.choice([
        [*call(MALLOC, size), copy(KEPT, 0)],
        [*call(CALLOC, draw.choice([1, 2, 7]), size), copy(KEPT, 0)],
        [*call(MEMALIGN, 1 << draw.randint(4, 18), size), copy(KEPT, 0)],
        [*of_kept(REALLOC, size), copy(KEPT, 0)],
        [*of_kept(FREE), *move(KEPT, 0)], [*of_kept(FREE), *move(KEPT, 0)],
        of_kept(USABLE), call(WRITE, CODE, draw.choice([0, 3, 700, 2500])), call(99),
        call(YIELD), waiting(draw.choice([1, 40, 3000]))])


def model_work(end: list[Any]) -> tuple[int, int, int]:
    """Steps, bytes and work of a tenant by what is told of it."""
    steps, written, calls, heap, _ = end
    assert heap == len(calls)
    sizes: dict[str, Callable[[int, int], int]] = {
        "malloc": lambda a, b: a, "calloc": lambda a, b: a * b, "realloc": lambda a, b: b,
        "memalign": lambda a, b: a + b}
    touched = written + sum(sizes[service](first, second)
                            for service, first, second, answer in calls
                            if service in sizes and answer)
    return steps, touched, steps + touched // BYTES_OF_STEP


def ask(library: dict[str, str], folder: pathlib.Path) -> list[dict[str, Any]]:
    """What is told of each image of a folder."""
    places = [str(EXAMPLES / "embed")]
    ran = run([sys.executable, "-c", ASKED, folder, *places], extra=library)
    assert (ran.status, ran.errors) == (0, "")
    return [json.loads((at / "told").read_text()) for at in sorted(folder.iterdir())]


def check_works(told: dict[str, Any]) -> None:
    """Of each bound it is told how much the first slices are that meet it."""
    models = [model_work(it) for it in told["ends"]]
    for most, (count, steps, touched, work, before, is_running) in zip(
            told["bounds"], told["works"], strict=True):
        wanted = next((number for number, it in enumerate(models)
                       if it[2] >= most or not told["ends"][number][4]), len(models) - 1)
        assert (count, steps, touched, work) == (wanted, *models[wanted])
        assert before == (models[wanted - 1][2] if wanted else 0)
        assert is_running == told["ends"][wanted][4]


def test_work_of_drawn_programs(library: dict[str, str], tmp_path: pathlib.Path) -> None:
    """It is what the model says, at the end of each of their slices."""
    for seed in range(max(DRAWN // 3, 20)):
        draw = random.Random(seed)
        acts = [word for _ in range(draw.randint(3, 40)) for word in draw_act(draw)]
        end = draw.choice([call(EXIT, 7), [0x14000000], call(MALLOC, 1 << 40) + [0x14000000]])
        at = tmp_path / f"{seed:06}"
        at.mkdir()
        (at / "image").write_bytes(program([*acts, *end]))
        (at / "input").write_bytes(b"")
        slices = [draw.choice([0, 1, 2, 9, 40, 300, 5000]) for _ in range(draw.randint(1, 40))]
        (at / "slices").write_text(json.dumps(slices))
    told = ask(library, tmp_path)
    for it in told:
        check_works(it)
    assert max(work[2] for it in told for work in it["works"]) > LARGEST


def test_bytes_that_are_read(library: dict[str, str], tmp_path: pathlib.Path) -> None:
    """Those that are there count, and no others."""
    at = tmp_path / "one"
    at.mkdir()
    stack = 0x40000000 - 8192
    (at / "image").write_bytes(program([*call(READ, stack, 6000), *call(READ, stack, 6000),
                                        *call(READ, stack, 1), *call(EXIT, 0)]))
    (at / "input").write_bytes(bytes(7000))
    (at / "slices").write_text("[6, 94]")
    (told,) = ask(library, tmp_path)
    assert [it[2:5] for it in told["works"][-1:]] == [[7000, told["ends"][-1][0] + 3, 8]]


# The scripts that are written

# Tells the work of each tenant by a script, with its last slice and without it, and how long it is.
LAST = """import json, pathlib, sys
sys.path[:0] = sys.argv[4:]
import tombolopan
from batch.scripts import tenants_of
script, refused = pathlib.Path(sys.argv[1]).read_bytes(), json.loads(sys.argv[2])
files = [pathlib.Path(it).read_bytes() for it in json.loads(sys.argv[3])]
found = {}
for number, own in tenants_of(script, refused).items():
    it = tombolopan.work(*own.terms(files, []))
    found[number] = it.work, it.before, own.slices[-1:], it.slices == len(own.slices), it.is_running
print(json.dumps(found))
"""


def check_bound(library: dict[str, str], folder: pathlib.Path, script: pathlib.Path,
                told: dict[str, Any], total: int) -> dict[str, list[Any]]:
    """By a script each tenant that runs on has done the bound's work, and none has passed it but in
    a last slice of one step. Their works."""
    files = [str(folder / it) for it in (folder / "args").read_text().split()[3:]]
    refused = [it["event"] for it in told.get("refused", [])]
    places = [str(ROOT / "tools"), str(EXAMPLES / "embed")]
    ran = run([sys.executable, "-c", LAST, script, json.dumps(refused), json.dumps(files), *places],
              extra=library)
    assert (ran.status, ran.errors) == (0, "")
    works: dict[str, list[Any]] = json.loads(ran.output)
    own = (folder / "script").read_text()
    for it in told.get("tenants", ()):
        work, before, last, is_whole, is_running = works[str(it["id"])]
        if it["status"]["kind"] == "stopped":
            continue
        assert is_running == (it["status"]["kind"] == "running")
        assert work >= total or not is_running
        if work > total and f"slice {it['id']} " not in own:
            assert before < total and last == [1] and is_whole
    return works


def clearing(size: int = LARGEST) -> list[int]:
    """Clears so many bytes for ever, and gives them back."""
    return again([*call(CALLOC, 1, size), *move(8, FREE), SERVICE])


def lurking() -> list[int]:
    """Clears where its slice has many steps left, and waits where not."""
    clear = [*call(CALLOC, 1, LARGEST), *move(8, FREE), SERVICE]
    # SUBS, and over the rest by B.LO.
    return again([*call(LEFT), subtract_with_flags(1, 0, 300),
                  0x54000003 | (len(clear) + 1) << 5, *clear])


HOSTILE: dict[str, Callable[[], list[int]]] = {
    "clears": clearing,
    "clears little": lambda: clearing(3000),
    "clears late": lambda: [*waiting(40_000), *clearing()],
    "clears by what is left": lurking,
    "copies": lambda: again([*of_kept(REALLOC, LARGEST), copy(KEPT, 0),
                              *of_kept(REALLOC, 9), copy(KEPT, 0)]),
    "aligns": lambda: again([*call(MEMALIGN, 1 << 18, 1), *move(8, FREE), SERVICE]),
    "yields and clears": lambda: again([*call(YIELD), *call(CALLOC, 1, LARGEST), *move(8, FREE),
                                        SERVICE]),
    "clears and exits": lambda: [*(300 * clearing()[:-1]), *call(EXIT, 3)],
}


@pytest.mark.parametrize("name", HOSTILE)
@pytest.mark.parametrize("total", [700, 200_000])
def test_hostile_tenants(host: pathlib.Path, library: dict[str, str], tmp_path: pathlib.Path,
                         name: str, total: int) -> None:
    """They are cut where they have done the bound's work: one that clears a megabyte by each
    service, after few steps."""
    folder = tmp_path / "sessions" / "one"
    images = [program(HOSTILE[name]()), program(again(waiting(9)))]
    lines = [admission(1, 1, PAGES), admission(2, 2)]
    write_led(folder, images, lines, 2 * PAGES + 20)
    batch = Batch(tmp_path / "sessions", library, ("--work", str(total), "--jobs", "1"))
    told = batch.told("--reports", tmp_path / "reports")["sessions"][0]
    assert told["verdict"] == "answered", told
    check_script(host, folder, tmp_path / "reports", told)
    works = check_bound(library, folder, tmp_path / "reports" / "one.script", told, total)
    most = LARGEST // BYTES_OF_STEP
    assert all(it[0] <= total + most + 1 for it in works.values())
    steps = told["tenants"][0]["steps"]
    if name == "clears":
        assert steps <= 12 * (total // most + 2)
    assert told["tenants"][1]["steps"] == total


@pytest.mark.parametrize("total", [900, 40_000])
@pytest.mark.parametrize("options", [(), ("--split",)], ids=["whole", "split"])
def test_drawn_sessions(host: pathlib.Path, library: dict[str, str], tmp_path: pathlib.Path,
                        total: int, options: tuple[str, ...]) -> None:
    """Drawn sessions, of which some have more yields than a script has room for; the second time
    all are kept."""
    at = 2 * (total > 900) + len(options)
    seeds = range(1000 + at * DRAWN // 8, 1000 + (at + 1) * DRAWN // 8)
    write_sessions(tmp_path / "sessions", seeds)
    options = ("--jobs", "2", "--work", str(total), *options)
    batch = Batch(tmp_path / "sessions", library, options)
    told = batch.told("--reports", tmp_path / "reports")
    words = {it["verdict"] for it in told["sessions"]}
    assert "answered" in words and words <= {"answered", "no script"}
    for it in told["sessions"]:
        folder = batch.sessions / it["name"]
        check_script(host, folder, tmp_path / "reports", it)
        if it["verdict"] == "answered":
            script = tmp_path / "reports" / f"{it['name']}.script"
            check_bound(library, folder, script, it, total)
    assert f"0 run, {len(seeds)} kept" in batch.run().output


def test_steps_alone(library: dict[str, str], tmp_path: pathlib.Path) -> None:
    """Without services the bound is one of steps; a tenant with a million yields has no script, and
    is led on all the same."""
    turn = [*call(YIELD), subtract_with_flags(20, 20, 1)]
    images = [program([*move(20, 1_000_000), *turn, back(len(turn)), *call(EXIT, 7)]),
              program(again(waiting(9)))]
    for at, count in (("many", 1), ("none", 2)):
        write_led(tmp_path / "sessions" / at, images, [admission(1, count)], 11)
    total = 2 * MOST_STEPS + 7
    batch = Batch(tmp_path / "sessions", library, ("--work", str(total), "--jobs", "2"))
    told = batch.told()["sessions"]
    assert [it["verdict"] for it in told] == ["no script", "answered"]
    assert [it["tenants"][0]["steps"] for it in told] == [total, total]


def test_usage(library: dict[str, str], tmp_path: pathlib.Path) -> None:
    """What does not go together is said, and a quota counts the bound for each tenant."""
    write_led(tmp_path / "sessions" / "ann" / "one", [program(again(waiting(9)))],
              [admission(1), admission(2)], 22)
    for options, said in ((("--steps", "9"), "--steps takes no --work"),
                          (("--program", "true"), "--work takes no --program without --split"),
                          (("--sample", "3", "--elsewhere", "true"), "--work takes neither")):
        ran = Batch(tmp_path / "sessions", library, ("--work", "9", *options)).run()
        assert (ran.status, ran.output) == (2, "") and said in ran.errors
    ran = Batch(tmp_path / "sessions", library, ("--work", "9", "--quota", "17")).run()
    assert "the sessions of ann allow 18 steps, and the quota is 17" in ran.errors
