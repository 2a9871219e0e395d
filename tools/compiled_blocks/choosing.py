"""The blocks of images that are worth compiling, by the counts of their runs."""

from __future__ import annotations

from collections import Counter, defaultdict
from collections.abc import Iterable, Mapping, Sequence
from dataclasses import dataclass
from itertools import accumulate
from typing import TypeVar

from tombolopan_profile.counts import BYTES, Counts
from compiled_blocks.types import JUMPS, form_of

LONGEST = 48  # the most instructions of a block
# So many instructions pay for a way to a block from one that has no type, which is a step alone.
SHORTEST = 4
LEAST = 0.1  # of the executions of a block's first instruction, those of any other one of it
# So many executions in a run pay for the look at whether a block's words are there, and for its
# code, some 300 bytes for an instruction.
EXECUTIONS = 40
# The most instructions of all blocks: the toolchain makes no more than 65,536 copies of generic
# functions, some nine for each.
INSTRUCTIONS = 6500
DIRECT = {"Jump", "Call"}  # the jumps that lead to one address
T = TypeVar("T")


@dataclass(frozen=True)
class Block:
    """Instructions that are executed one after another: their addresses and words, how many steps
    they are expected to take of the counted runs, how often control goes on behind the last one,
    and whether it comes back to the first."""

    addresses: tuple[int, ...]
    words: tuple[int, ...]
    steps: float
    goes_on: float
    again: bool

    @property
    def start(self) -> int:
        return self.addresses[0]

    @property
    def behind(self) -> int:
        """Where control goes on."""
        return following(self.addresses[-1], self.words[-1])


def less(counts: Mapping[T, int], others: Mapping[T, int]) -> Counter[T]:
    """Counts less others, where something is left."""
    return Counter({it: left for it, count in counts.items()
                    if (left := count - others.get(it, 0)) > 0})


def following(address: int, word: int) -> int:
    """The address after an instruction that does not branch on a condition."""
    form = form_of(word)
    if form is not None and form[0] in DIRECT:
        return address + BYTES * form[1][0]
    return address + BYTES


class Profile:
    """An image: its words, in how many runs each instruction was executed and how often in all, how
    often control comes to an address over a jump that a block does not follow, and goes from an
    address to others than the next. Where the counts of a setup are given, with which each run
    begins, what is behind it counts alone."""

    def __init__(self, runs: Sequence[Counts], words: Mapping[int, int],
                 setup: Counts = Counts()) -> None:
        self.words = words
        self.executed: Counter[int] = Counter()
        self.runs: Counter[int] = Counter()
        self.taken: dict[int, Counter[int]] = defaultdict(Counter)
        self.entered: Counter[int] = Counter()
        before = setup.executions()
        for run in runs:
            found = less(run.executions(), before)
            self.executed.update(found)
            self.runs.update(found.keys())
            self.enter(less(Counter(first for first, _, _ in run.runs),
                            Counter(first for first, _, _ in setup.runs)),
                       less(run.branches, setup.branches))
        self.steps = sum(self.executed.values())
        for address in self.executed:
            self.note_next(address)

    def enter(self, firsts: Counter[int], branches: Counter[tuple[int, int]]) -> None:
        """Notes where a run begins, and its branches."""
        self.entered.update(firsts)
        for (source, target), count in branches.items():
            self.taken[source][target] += count
            form = form_of(self.words.get(source, 0))
            if form is None or form[0] not in DIRECT:
                self.entered[target] += count

    def note_next(self, address: int) -> None:
        """Notes how often a jump that a block does not follow led to the next instruction in
        memory, which the counts have as no branch."""
        form = form_of(self.words.get(address, 0))
        count = round(self.executed[address] * self.goes_on(address))
        if form is not None and form[0] in JUMPS - DIRECT and count:
            self.taken[address][address + BYTES] += count
            self.entered[address + BYTES] += count

    def goes_on(self, address: int) -> float:
        """The share of the executions after which the next instruction in memory came."""
        count = self.executed.get(address, 0)
        return max(0.0, 1 - sum(self.taken[address].values()) / count) if count else 0.0

    def block_at(self, start: int, entered: int) -> Block | None:
        """The block from an address on, where control comes so often: over direct jumps, up to any
        other jump, or to an instruction that has no type or is in it already."""
        found: list[int] = []
        steps, share, address = 0.0, float(entered), start
        while len(found) < LONGEST and address in self.words and address not in found:
            form = form_of(self.words[address])
            if form is None or share < max(1, LEAST * entered):
                break
            found.append(address)
            steps += share
            if form[0] in JUMPS and form[0] not in DIRECT:
                share = 0
            elif form[0] not in DIRECT:
                share *= self.goes_on(address)
            address = following(address, self.words[address])
        if not found:
            return None
        again = any(start in self.taken[it] for it in found)
        return Block(tuple(found), tuple(self.words[it] for it in found), steps, share, again)

    def blocks(self) -> list[Block]:
        """The blocks at all addresses to which control comes when there are such blocks."""
        waiting = Counter(self.entered)
        found: dict[int, Block | None] = {}
        while waiting:
            start, count = waiting.most_common(1)[0]
            del waiting[start]
            if start in found:
                continue
            block = found[start] = self.block_at(start, count)
            after, share = start + BYTES, count * self.goes_on(start)
            if block is not None:
                after, share = block.behind, block.goes_on
                if start not in self.entered and block.steps < SHORTEST * count:
                    found[start] = None
            if share >= 1 and after not in found:
                waiting[after] += round(share)
        return [it for it in found.values() if it is not None and self.pays(it)]

    def pays(self, block: Block) -> bool:
        """Whether runs that execute a block do so often enough."""
        return self.executed[block.start] >= EXECUTIONS * self.runs[block.start]


def choose(profiles: Iterable[Profile], most: int) -> list[Block]:
    """The blocks that take the most steps for each of their instructions, each once; those of the
    most steps first, since the first numbers are found in the fewest instructions."""
    steps: Counter[Block] = Counter()
    for profile in profiles:
        for block in profile.blocks():
            steps[block] += 1
    found = sorted(steps, key=lambda it: -it.steps / len(it.addresses))[:most]
    counts = accumulate(len(it.addresses) for it in found)
    taken = [it for it, count in zip(found, counts) if count <= INSTRUCTIONS]
    return sorted(taken, key=lambda it: -it.steps)
