"""Going back in a long run: exact to the step, and at the cost of what lies between."""

import pathlib
import resource

from tests.support.debugger import extended, value_in
from tests.support.instructions import CODE, add, call, move, program
from tests.support.tenants_for_gdb import jump_not_equal, subtract_with_flags

ROUNDS, TURNS = 40, 30_000
# Rounds of turns: each round begins with an instruction of its own.
ROUND_STEPS = 2 + 3 * TURNS + 2
STEPS = 1 + ROUNDS * ROUND_STEPS
MARK = CODE + 4
IMAGE = program(
    move(2, ROUNDS), add(3, 3, 1), move(0, TURNS),
    add(1, 1, 1), subtract_with_flags(0, 0, 1), jump_not_equal(-2),
    subtract_with_flags(2, 2, 1), jump_not_equal(-6), call(0, 9),
)
END = CODE + 4 * 8
SECONDS = 0.5


def step_of(number: int) -> int:
    """The step before which a round's own instruction is next."""
    return 1 + number * ROUND_STEPS


def processor_time() -> float:
    """What the processes that were waited for have taken."""
    used = resource.getrusage(resource.RUSAGE_CHILDREN)
    return used.ru_utime + used.ru_stime


def steps_in(alone: pathlib.Path, folder: pathlib.Path, commands: list[str]) -> list[int]:
    """The step behind each command, from the end of the rounds on."""
    asked = [f"tbreak *{END:#x}", "continue", f"hbreak *{MARK:#x}"]
    for command in commands:
        asked += [command, "print $step"]
    dialog = extended(alone, IMAGE, asked, folder)
    return [value_in(dialog[it]) for it in range(len(asked)) if asked[it] == "print $step"]


def test_each_round_is_met_on_the_way_back(alone: pathlib.Path, tmp_path: pathlib.Path) -> None:
    """From the end round by round, then from the middle, forwards again, and to the start."""
    back, forwards = "reverse-continue", "continue"
    middle = 1_234_567
    commands = ["monitor step", *[back] * 9, f"goto {middle}", back, back, forwards, forwards,
                "goto 100", back, back]
    before = (middle - 1) // ROUND_STEPS
    expected = [STEPS, *(step_of(ROUNDS - it) for it in range(1, 10)), middle,
                *(step_of(it) for it in (before, before - 1, before, before + 1)), 100, 1, 0]
    assert steps_in(alone, tmp_path, commands) == expected


def test_one_step_back_in_a_long_run(alone: pathlib.Path, tmp_path: pathlib.Path) -> None:
    """Steps back and forwards are those of the run."""
    commands = ["reverse-stepi", "reverse-stepi 3", "stepi 2", "reverse-stepi 20000"]
    assert steps_in(alone, tmp_path, commands) == [
        STEPS - 1, STEPS - 4, STEPS - 2, STEPS - 20_002]


def test_going_back_costs_what_lies_between(alone: pathlib.Path, tmp_path: pathlib.Path) -> None:
    """A command whose event is within 100,000 steps takes at most half a second."""
    start = processor_time()
    steps_in(alone, tmp_path, [])
    once = processor_time()
    moves = 8
    steps_in(alone, tmp_path, ["reverse-continue"] * moves)
    spent = processor_time() - once
    assert spent - (once - start) <= moves * SECONDS
