"""How likely strategies of attacks.py succeed where the offsets of all draws are independent, each
of its numbers as likely as the others.

States have chances. A state is the tag that was drawn last, and what is kept of those before it.
"""
from __future__ import annotations

import functools
from collections import defaultdict
from collections.abc import Callable

from tag_model import Numbers, chosen

States = dict[tuple[int, int], float]
# Of the last tag, what is kept and a tag: what is kept then, or none where the strategy succeeds.
Keep = Callable[[int, int, int], "int | None"]


@functools.lru_cache(maxsize=None)
def chances(numbers: Numbers, half: int, present: int, last: int) -> list[tuple[int, float]]:
    """The tags that a draw may give, each with its chance."""
    found: dict[int, float] = defaultdict(float)
    allowed, offsets = numbers.allowed(half, present), 1 << numbers.bits
    for offset in range(offsets):
        found[chosen(allowed, last, offset)] += 1 / offsets
    return list(found.items())


def start(numbers: Numbers) -> States:
    """Each last tag is as likely as the others."""
    return {(last, 0): 1 / (1 << numbers.bits) for last in range(1 << numbers.bits)}


def draw(numbers: Numbers, states: States, half: int, is_taken: bool, keep: Keep) -> States:
    """The states after a draw in a block of a half that no chunk had, or that has the last tag."""
    after: States = defaultdict(float)
    for (last, kept), chance in states.items():
        for tag, part in chances(numbers, half, last if is_taken else 0, last):
            note = keep(last, kept, tag)
            if note is not None:
                after[tag, note] += chance * part
    return after


def rest(states: States) -> float:
    """How likely none of the states is that are left."""
    return max(0.0, 1 - sum(states.values()))


def of_apart(numbers: Numbers, distance: int) -> float:
    """That a chunk has the tag of the one so many blocks after it."""
    states = draw(numbers, start(numbers), 0, False, lambda last, kept, tag: tag)
    for at in range(1, distance):
        states = draw(numbers, states, at % 2, False, lambda last, kept, tag: kept)
    return rest(draw(numbers, states, distance % 2, False,
                     lambda last, kept, tag: None if tag == kept else kept))


def of_neighbours(numbers: Numbers, count: int) -> float:
    """That two neighbours of so many chunks have one tag."""
    states = draw(numbers, start(numbers), 0, False, lambda last, kept, tag: 0)
    for at in range(1, count):
        states = draw(numbers, states, at % 2, False,
                      lambda last, kept, tag: None if tag == last else 0)
    return rest(states)


def of_pair(numbers: Numbers, count: int) -> float:
    """That two of so many chunks have one tag, as they do where there are more than tags: what is
    kept is the set of tags that are used."""
    if count >= 1 << numbers.bits:
        return 1.0
    states = start(numbers)
    for at in range(count):
        states = draw(numbers, states, at % 2, False,
                      lambda last, kept, tag: None if kept >> tag & 1 else kept | 1 << tag)
    return rest(states)


def of_reuse(numbers: Numbers, times: int) -> float:
    """That the second chunk has its tag again after its block was taken at most so many times."""
    states = draw(numbers, start(numbers), 0, False, lambda last, kept, tag: 0)
    states = draw(numbers, states, 1, False, lambda last, kept, tag: tag)
    for _ in range(times):
        states = draw(numbers, states, 1, True, lambda last, kept, tag: kept)
        states = draw(numbers, states, 1, True,
                      lambda last, kept, tag: None if tag == kept else kept)
    return rest(states)
