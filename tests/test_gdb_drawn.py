"""Drawn programs, points and slices in GDB: each stop is where the trace of the run has one."""

import pathlib
import random

import pytest

from tests.reference.moments import moments
from tests.support.debugger import debugged, value_in
from tests.support.instructions import (
    CODE, SP, add, call, jump_not_equal, load, move, program, store, subtract_with_flags,
)
from tests.support.running import run
from tests.support.tenants_for_gdb import WATCHED

SEEDS, MOVES, SLICES = 12, 12, 600
# Of the stack's end: the number that is watched, and another one.
NUMBER, OTHER = 8, 16
# A heap call, and a service that ends a slice.
MALLOC, YIELD = 3, 9
COUNTER, OUTER = 9, 10
WRITES, READS = store(1, SP, NUMBER), load(2, SP, NUMBER)


def part(source: random.Random) -> list[int]:
    """Instructions of a round."""
    choice = source.randrange(7)
    if choice == 0:
        turns = source.choice((2, 5, 40, 300))
        count = [*move(COUNTER, turns), add(1, 1, 1), subtract_with_flags(COUNTER, COUNTER, 1)]
        return [*count, jump_not_equal(-2)]
    if choice == 1:
        return call(MALLOC, source.choice((8, 24, 5000)))
    if choice == 2:
        return [WRITES]
    if choice == 3:
        return [READS]
    if choice == 4:
        return call(YIELD)
    return [store(1, SP, OTHER), add(1, 1, 3)]


def draw(source: random.Random) -> tuple[bytes, set[int]]:
    """A program of some rounds, and the addresses of what accesses the number."""
    words = [add(SP, SP, -64), *move(1, 7), *move(OUTER, source.randrange(1, 9))]
    begin = len(words)
    for _ in range(source.randrange(2, 9)):
        words += part(source)
    words.append(subtract_with_flags(OUTER, OUTER, 1))
    words.append(jump_not_equal(begin - len(words)))
    uses = {CODE + 4 * at for at, it in enumerate(words) if it in (WRITES, READS)}
    return program(words, call(0, 0)), uses


@pytest.mark.parametrize("seed", range(SEEDS))
def test_stops_are_those_of_the_trace(alone: pathlib.Path, tmp_path: pathlib.Path,
                                      seed: int) -> None:
    """Whether instructions are attempted one at a time or whole slices are passed."""
    source = random.Random(seed)
    image, uses = draw(source)
    lengths = [source.choice((1, 2, 3, 7, 20, 50, 1000)) for _ in range(SLICES)]
    slices = ["--slices", ",".join(str(it) for it in [*lengths, 1 << 20])]
    (tmp_path / "tenant.elf").write_bytes(image)
    traced = run([alone, *slices, "--trace", "--trace-file", "trace", "tenant.elf"], cwd=tmp_path)
    assert traced.status == 0, traced.errors
    places = [it.step.pc for it in moments((tmp_path / "trace").read_text(encoding="utf-8"))]
    points = source.sample(sorted(set(places)), source.choice((0, 1, 3)))
    is_watched = not points or source.random() < 0.5
    asked = [f"hbreak *{it:#x}" for it in points]
    asked += [f"awatch -l *(unsigned long *){WATCHED:#x}"] * is_watched
    want = [step for step in range(1, len(places)) if places[step] in points
            or is_watched and places[step - 1] in uses]
    want = [*want, len(places) - 1][:MOVES]
    commands = [*asked, *["continue", "print $step"] * len(want)]
    dialog = debugged(alone, image, commands, tmp_path, slices)
    assert [value_in(it) for it in dialog.answers[len(asked) + 1::2]] == want
