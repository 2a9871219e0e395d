"""Runs some of the sessions once more elsewhere, by other processes, and compares."""

import concurrent.futures
import random
from collections.abc import Sequence
from dataclasses import dataclass, replace

from batch.answers import Answer, Reply
from batch.runs import run_by_command
from batch.sessions import Job, Place, read_session
from batch.store import Store
from batch.verdicts import DISPUTED, LOST, Verdict, Work


@dataclass(frozen=True)
class Sample:
    """How many of a hundred sessions are run elsewhere too, by which commands, how many at a time,
    how often one that is lost is tried again, and how many seconds each may take."""

    percent: float
    commands: tuple[str, ...]
    jobs: int
    tries: int
    seconds: float | None = None

    def draw(self, verdicts: Sequence[Verdict]) -> list[Verdict]:
        """The sessions that are run again, drawn so that nobody can know which."""
        chance = random.SystemRandom()
        found = [it for it in verdicts if it.key and it.status is not None]
        return [it for it in found if chance.random() * 100 < self.percent]

    def reply(self, job: Job, at: int) -> Reply:
        """What comes of a session elsewhere: each try is by the next command."""
        for number in range(self.tries + 1):
            command = self.commands[(at + number) % len(self.commands)]
            reply = run_by_command([job], command, self.seconds)[0][1]
            if isinstance(reply, Answer):
                break
        return reply

    def compare(self, place: Place, program: str, verdict: Verdict,
                kept: Answer | None) -> tuple[str, str]:
        """What is to say of a session, and why: disputed, lost elsewhere, or nothing."""
        job = read_session(place, program).job
        if job is None or job.key != verdict.key or kept is None:
            return LOST, "its files changed meanwhile, or its answer is not in the store"
        at = random.randrange(len(self.commands))
        reply = self.reply(job, at)
        if not isinstance(reply, Answer):
            return LOST, reply.why
        if reply == kept:
            return "", ""
        return DISPUTED, f"elsewhere it {first_difference(kept, reply)}"

    def check(self, verdicts: list[Verdict], places: dict[str, Place], store: Store,
              program: str, work: Work) -> list[Verdict]:
        """The verdicts, in which those are disputed that differ elsewhere. The store forgets their
        answers."""
        drawn = {it.name: it for it in self.draw(verdicts)}
        with concurrent.futures.ThreadPoolExecutor(self.jobs) as pool:
            told = {name: pool.submit(self.compare, places[name], program, it, store.get(it.key))
                    for name, it in drawn.items()}
        changed = {}
        for name, future in told.items():
            what, why = future.result()
            if what == DISPUTED:
                changed[name] = replace(drawn[name], verdict=DISPUTED, why=why)
            elif what == LOST:
                work.unchecked += 1
                work.why_unchecked = f"{name}: {why}"
        work.checked += len(drawn) - work.unchecked
        if changed:
            store.forget({it.key for it in changed.values()})
        return [changed.get(it.name, it) for it in verdicts]


def first_difference(here: Answer, there: Answer) -> str:
    """The first line in which two answers differ."""
    if here.status != there.status:
        return f"ends with {there.status}, not {here.status}"
    lines = [(it.out + it.err).decode(errors="replace").splitlines() for it in (here, there)]
    both = zip(*(it + [""] * (len(lines[0]) + len(lines[1]) - len(it)) for it in lines))
    number, (left, right) = next((at, it) for at, it in enumerate(both, 1) if it[0] != it[1])
    return f"has line {number} as {right!r:.120}, not {left!r:.120}"
