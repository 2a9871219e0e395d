"""Runs long sessions by their tenants, where that pays: first who is admitted, by the session
without a step; then parts of tenants, each a session of its own; then the report that these make.

That a report is the refused lines and the tenants' own reports, and that no step decides who is
admitted, is proved (`report_in_parts`, `decisions_need_no_steps`)."""

import functools
from collections.abc import Sequence
from dataclasses import dataclass, field, replace

from batch.answers import OK, Answer, Lost, Reply
from batch.driver import BUNDLE_STEPS, FIRST, Batch
from batch.engines import Bundle
from batch.planning import Budget, Plan
from batch.reports import blocks_of, refused_lines_of, refused_of
from batch.scripts import (
    MOST_STEPS, Own, allowed_steps, may_be_long, part_of, tenants_of, without_steps,
)
from batch.sessions import Job, Session, make_key
from batch.verdicts import KEPT, MENDED, RAN

# The steps of a part, or more. It is the same everywhere, so that an interrupted run and another
# share find the parts again. Whether parts are made is measured.
STEPS_OF_PART = BUNDLE_STEPS
# What runs whole and takes more seconds is a bundle of its own.
LONG = 0.01


def groups_of(tenants: dict[int, Own]) -> list[list[int]]:
    """The tenants of each part: those with few steps together, in their order."""
    groups: list[list[int]] = []
    few: list[int] = []
    for tenant, own in tenants.items():
        if own.steps >= STEPS_OF_PART:
            groups.append([tenant])
            continue
        few.append(tenant)
        if sum(tenants[it].steps for it in few) >= STEPS_OF_PART:
            groups.append(few)
            few = []
    return groups + [few] if few else groups


@dataclass
class Split(Plan):
    """Runs of sessions in parts. `program` is the sum of what runs parts elsewhere. Of several
    shares each has some of the short sessions and some of the parts, which it puts not together;
    `share` is which of how many this is."""

    batch: Batch
    budget: Budget
    program: str = ""
    share: tuple[int, int] = (1, 1)
    ledgers: set[str] = field(default_factory=set)
    under_way: dict[str, int] = field(default_factory=dict)
    # Long sessions that run whole, each as a bundle.
    alone: dict[str, int] = field(default_factory=dict)

    def takes(self, session: Session) -> bool:
        """Whether a session is split: it is so long that parts of it pay, by its script's slices
        and what is known so far. A short one of another share is left to that."""
        job = session.job
        assert job is not None
        if job.tenants:
            return False
        steps = self._steps_if_long(job)
        if not steps:
            is_others = session.taken is None and not self.is_mine(job.key)
            return is_others and self.batch.leave(job)
        if self.budget.pays(steps):
            Whole(self, session.name, job).begin()
            return True
        if self.budget.expected(steps) > LONG:
            self.alone[job.key] = steps
            self.batch.push(steps, job)
            return True
        return False

    def _steps_if_long(self, job: Job) -> int:
        """How many steps the slices of a long session allow; 0 of another one. Where as many steps
        as so many slices may have are not worth it, they are not even added up."""
        most = job.script.count(b"slice ") * MOST_STEPS
        is_worth = self.budget.pays(most) or self.budget.expected(most) > LONG
        if most < 2 * STEPS_OF_PART or not is_worth or job.script.count(b"admit ") < 2:
            return 0
        with self.budget.paying():
            steps = allowed_steps(job.script) if may_be_long(job.script) else 0
        return steps if steps >= 2 * STEPS_OF_PART else 0

    def is_mine(self, key: str, number: int = 0) -> bool:
        """Whether a session, or a part of one, is of this share."""
        return (int(key[:8], 16) + number) % self.share[1] == self.share[0] - 1

    def sent(self, bundle: Bundle, seconds: float) -> None:
        """Counts what it takes to send a part."""
        if any(it.key in self.under_way or it.key in self.ledgers for it in bundle.jobs):
            self.budget.cost += 2 * seconds

    def came(self, bundle: Bundle, seconds: float) -> None:
        """Learns what a ledger cost, or how long a part, or a session that ran alone, took for the
        steps that it allowed. Without the latter a slow first part would have all run alone."""
        self.budget.worked += seconds
        key = bundle.jobs[0].key
        if key in self.ledgers:
            self.budget.cost += seconds
        elif steps := self.under_way.pop(key, 0) or self.alone.pop(key, 0):
            self.budget.taken += seconds
            self.budget.steps += steps


@dataclass
class Whole:
    """A session in parts: its tenants, the parts that are left, and what came of the others."""

    split: Split
    name: str
    job: Job
    refused: bytes = b""
    tenants: dict[int, Own] = field(default_factory=dict)
    left: list[list[int]] = field(default_factory=list)
    blocks: dict[int, bytes] = field(default_factory=dict)
    sources: dict[str, str] = field(default_factory=dict)
    is_lost: bool = False

    def begin(self) -> None:
        """Enters the session without its steps."""
        with self.split.budget.paying():
            key = make_key(self.job.key, ("ledger",), [])
            self.split.ledgers.add(key)
            ledger = replace(self.job, key=key, script=without_steps(self.job.script),
                             is_passing=True)
        self.split.batch.enter(Session(f"{self.name}: ledger", ledger, taken=self.learn), FIRST)

    def learn(self, reply: Reply, source: str) -> None:
        """Learns who is admitted, and enters the parts; of a faulty script this is the answer."""
        if isinstance(reply, Lost):
            self.split.batch.lose(self.job, f"ledger: {reply.why}")
            return
        if reply.status != OK:
            self.split.batch.answer({self.job.key: reply})
            return
        with self.split.budget.paying():
            self.refused = refused_lines_of(reply.out)
            refused = [it["event"] for it in refused_of(self.refused)]
            self.tenants = tenants_of(self.job.script, refused)
            self.left = [it for at, it in enumerate(groups_of(self.tenants))
                         if self.split.is_mine(self.job.key, at)]
            self.left.sort(key=self._steps)
        self._push()
        self._join()

    def _steps(self, group: Sequence[int]) -> int:
        return sum(self.tenants[it].steps for it in group)

    def _push(self) -> None:
        """Waits for the turn of its longest part, if one is left."""
        if self.left:
            self.split.batch.push(self._steps(self.left[-1]), self)

    def next_job(self) -> Job | None:
        """The next part, the longest first; where parts do not pay any more, all that is left."""
        if not self.left:
            return None
        budget, group = self.split.budget, self.left.pop()
        if self.left and not budget.pays(self._steps(group) + sum(map(self._steps, self.left))):
            group, self.left = sum(self.left, group), []
        with budget.paying():
            budget.count += 1
            part = self._part(group)
            job = self.split.batch.begin(part)
        if job is not None:
            self.split.under_way[job.key] = self._steps(group)
        self._push()
        return job

    def _part(self, group: list[int]) -> Session:
        """The session of some of the tenants."""
        part = part_of([self.tenants[it] for it in group], self.job.frames, self.job.files)
        key = make_key(self.job.key, (self.split.program, *map(str, group)), [])
        job = Job(key, part.frames, part.script, part.files, tenants=tuple(group))
        name = f"tenant{'s' * (len(group) > 1)} {', '.join(map(str, group))}"
        if self.split.share != (1, 1):
            return Session(f"{self.name}: {name}", job)
        return Session(name, job, taken=functools.partial(self.take, name, key))

    def take(self, name: str, key: str, reply: Reply, source: str) -> None:
        """Takes the answer of a part, or what it was lost by."""
        if self.is_lost:
            return
        if isinstance(reply, Lost):
            self.is_lost, self.left = True, []
            self.split.batch.lose(self.job, f"{name}: {reply.why}")
            return
        self.sources[key] = source
        with self.split.budget.paying():
            self.blocks.update(blocks_of(reply.out))
        self._join()

    def _join(self) -> None:
        """Answers the session where all of its tenants' reports are there."""
        if len(self.blocks) < len(self.tenants) or self.split.share != (1, 1):
            return
        report = self.refused + b"".join(self.blocks[it] for it in self.tenants)
        source = next((it for it in (MENDED, RAN) if it in self.sources.values()), KEPT)
        self.split.batch.answer({self.job.key: Answer(OK, report, b"")}, source)
        self.split.batch.store.drop(self.sources)
