"""The slices that lead a tenant on to a bound of work, over its yields: steps, and bytes that its
services touch. The library tells how much work slices are, and stops after the first by which the
bound is met, so no run does some times more."""

import itertools
from collections.abc import Callable, Sequence
from dataclasses import replace
from typing import TYPE_CHECKING

from batch.further import MOST_SLICES, Run, count_of, filling, report_of, slices_of, text_of
from batch.scripts import MOST_STEPS, Own, tenants_of

if TYPE_CHECKING:
    from tombolopan import Work

# A slice that meets the bound does at most so many times its work.
MOST_BEYOND = 4
# The bytes of a page are so much work, and one service touches no more than all pages.
PAGE_WORK = 2


def longest(total: int, pages: int) -> int:
    """How long a slice may be, of a tenant with so many pages, to do no more than that."""
    return min(max(MOST_BEYOND * total // (1 + PAGE_WORK * pages), 1), MOST_STEPS)


def first_of(runs: Sequence[Run], count: int) -> list[Run]:
    """So many of the slices from the first on."""
    found: list[Run] = []
    for length, its in runs:
        if count > 0:
            found.append((length, min(its, count)))
            count -= its
    return found


def length_at(runs: Sequence[Run], number: int) -> int:
    """How long the slice of a number is, from 1."""
    ends = itertools.accumulate(count for _, count in runs)
    return next(length for (length, _), end in zip(runs, ends) if number <= end)


def lead(run: Callable[[list[Run]], "Work"], total: int, length: int) -> list[Run]:
    """The further slices of a tenant up to a bound of work, which only a last slice of one step
    passes: `run` counts them alone, and runs them while the bound is not met.

    All that is left is allowed at a time, in slices of one length. Where one of them passes the
    bound it is cut by what it did, and at least halved; where the tenant used less than half, since
    it yields, all are halved. So it is run once for each halving of the total and of a slice at the
    most."""
    found: list[Run] = []
    now = run(found)
    work, is_running = now.work, now.is_running
    while is_running and work < total:
        length = min(length, total - work)
        more = [*found, *filling(total - work, length)]
        if count_of(more) > MOST_SLICES:
            break
        after = run(more)
        last = length_at(more, after.slices)
        if after.work > total and last > 1:
            left, used = total - after.before, after.work - after.before
            found, work = first_of(more, after.slices - 1), after.before
            length = max(min(last // 2, last * left // used), 1)
            continue
        if 2 * (after.work - work) <= total - work:
            length = max(length // 2, 1)
        found, work = first_of(more, after.slices), after.work
        is_running = after.is_running
    return found


def alone(own: Own, files: Sequence[bytes], total: int) -> Callable[[list[Run]], "Work"]:
    """What tells how much work a tenant does by its own slices and further ones, of which alone it
    tells the number."""
    import tombolopan

    def run(runs: list[Run]) -> "Work":
        found = tombolopan.work(*own.terms(files, slices_of(runs)), most=total)
        return replace(found, slices=found.slices - len(own.slices))
    return run


def found_for(script: bytes, files: Sequence[bytes], total: int) -> bytes:
    """The further slices of the only tenant of a script, and then its report."""
    import tombolopan
    (number, own), = tenants_of(script, ()).items()
    runs = lead(alone(own, files, total), total, longest(total, own.pages))
    tenant = tombolopan.alone(*own.terms(files, slices_of(runs)))
    return text_of(total, {number: runs}) + report_of(number, tenant)
