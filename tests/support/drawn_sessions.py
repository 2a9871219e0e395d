"""Sessions that are drawn: tenants that yield, end, fault, ask what is left of a slice, and are
refused or stopped, over images of a few instructions."""

import pathlib
import random

from tests.support.embedding.folders import run_host
from tests.support.instructions import (
    breakpoint_instruction, call, move, program, store, subtract_with_flags,
)

EXIT, WRITE, MALLOC, YIELD, LEFT = 0, 1, 3, 9, 10
SERVICE = 0xD4000001
# As many images have a session's files.
IMAGES = 4
MOST_STEPS = 1 << 20
LIVELY = [0, 1, 2, 7, 60, 1000, 30_000, MOST_STEPS]


def back(words: int) -> int:
    """B.NE over so many words, back."""
    return 0x54000001 | (-words & (1 << 19) - 1) << 5


def waiting(turns: int) -> list[int]:
    """Counts down so many turns of two steps."""
    return [*move(1, turns), subtract_with_flags(1, 1, 1), back(1)]


def yielding(draw: random.Random) -> list[int]:
    """Yields so many times, after so many steps each."""
    inner = [*waiting(draw.choice([1, 1, 5, 90, 4000])), *call(YIELD)]
    times = draw.choice([1, 3, 40, 700, 9000])
    return [*move(20, times), *inner, subtract_with_flags(20, 20, 1), back(len(inner) + 1)]


def ending(draw: random.Random) -> list[int]:
    """How a program ends: as it was asked to, by what is left of its slice, by a fault, an illegal
    word, a break, or not at all."""
    return draw.choice([
        call(EXIT, draw.randrange(256)), [*call(LEFT), *move(8, EXIT), SERVICE],
        [*move(9, 8), store(9, 9)], [0], [breakpoint_instruction(draw.randrange(99))],
        [*call(MALLOC, draw.randrange(99)), store(9, 0, 128), 0x17FFFFFF], [0x17FFFFFF]])


def part(draw: random.Random) -> list[int]:
    """What a program does before it ends: it yields, counts or calls its heap."""
    kind = draw.randrange(3)
    if kind == 0:
        return yielding(draw)
    if kind == 1:
        return waiting(draw.choice([3, 800, 70_000]))
    return call(MALLOC, draw.randrange(300))


def image(draw: random.Random) -> bytes:
    """A program of some parts."""
    parts = [word for _ in range(draw.randint(0, 3)) for word in part(draw)]
    return program([*parts, *ending(draw)])


def lines(draw: random.Random, steps: list[int]) -> list[str]:
    """The lines of a script: admissions first, then slices and stops, of which some are refused."""
    tenants = range(1, draw.randint(1, 7))
    found = [f"admit {it} image {draw.randint(1, IMAGES)} input {draw.randint(0, IMAGES)} seed "
             f"{draw.getrandbits(64):016x} frames {draw.choice([4, 5, 9, 30])} out 16"
             f"{draw.choice(['', '', ' async'])}" for it in tenants]
    for _ in range(draw.randint(0, 30)):
        act = draw.choice(["slice"] * 15 + ["stop"])
        more = f" {draw.choice(steps)}" if act == "slice" else ""
        found.append(f"{act} {draw.randint(1, 7)}{more}")
    return found + draw.choice([[], ["# a comment"], ["", "  "]])


def write_session(folder: pathlib.Path, seed: int, more: int = 0, steps: list[int] = LIVELY,
                  ) -> None:
    """Writes a session. With `more` so many of the longest slices for each tenant come last."""
    draw = random.Random(seed)
    folder.mkdir(parents=True)
    names = [f"image-{number}" for number in range(IMAGES)]
    for name in names:
        (folder / name).write_bytes(image(draw))
    script = lines(draw, steps) + [f"slice {tenant} {MOST_STEPS}" for tenant in range(1, 7)] * more
    (folder / "script").write_text("\n".join(script) + draw.choice(["", "\n"]), encoding="utf-8")
    frames = draw.choice([30, 80, 400])
    (folder / "args").write_text("\n".join(["--frames", str(frames), "script", *names]) + "\n",
                                 encoding="utf-8")


def write_sessions(folder: pathlib.Path, seeds: range, more: int = 0,
                   steps: list[int] = LIVELY) -> None:
    """Writes drawn sessions."""
    for seed in seeds:
        write_session(folder / f"drawn-{seed:06}", seed, more, steps)


def write_wanted(host: pathlib.Path, folder: pathlib.Path) -> None:
    """Writes into the folder of each session what mte_host writes of it."""
    run_host(host, folder)
