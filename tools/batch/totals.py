"""Leads the tenants of each session on to a total of steps, over their yields: first by slices for
a tenant that does not yield; those that do are run alone, which finds their slices (further.py);
then by the script that has all of these. Where no script has room, the report is put together.
To a total of work, with the bytes that services touch, each is run alone (effort.py)."""

import functools
from collections.abc import Callable, Iterable
from dataclasses import dataclass, field, replace

from batch.answers import OK, Answer, Lost, Reply, after_further
from batch.driver import Batch
from batch.further import Run, count_of, filling, lines_of, runs_of, text_of
from batch.planning import Plan
from batch.reports import blocks_of, refused_lines_of, refused_of, tenants_of
from batch.scripts import MOST_EVENTS, Own, count_events, part_of, without_steps
from batch.scripts import tenants_of as owns_of
from batch.sessions import Job, Place, Session, make_key, read_session


@dataclass
class Totals(Plan):
    """Runs of sessions of which each tenant may take so many steps, or do so much work, in all."""

    batch: Batch
    total: int
    is_of_work: bool = False
    reports: dict[str, Answer] = field(default_factory=dict)

    def read(self, place: Place, program: str) -> Session:
        """Reads a session. What is asked for first are its further slices."""
        session = read_session(place, program)
        if session.job is None:
            return session
        option = "--work" if self.is_of_work else "--steps"
        key = make_key(session.job.key, (option, str(self.total)), [])
        asked = replace(session.job, key=key, total=self.total, is_of_work=self.is_of_work)
        return Session(session.name, asked,
                       taken=lambda reply, source: self._judge(session, key, reply, source))

    def takes(self, session: Session) -> bool:
        """Whether a session's further slices are to be found. Those of one tenant are a job."""
        job = session.job
        assert job is not None
        if not job.total or job.is_passing:
            return False
        Journey(self, session.name, job).begin()
        return True

    def _judge(self, session: Session, key: str, reply: Reply, source: str) -> None:
        """Judges a session whose further slices are known: by the report that was made on the way,
        or by a run; or by the report that no script has."""
        if isinstance(reply, Lost):
            self.batch.fail(session, reply.why)
            return
        assert session.job is not None
        found, report = runs_of(reply.out), after_further(reply.out)
        session.script = longer(session.job.script, found)
        if report:
            room = MOST_EVENTS - count_events(session.job.script)
            needed = sum(map(count_of, found.values()))
            session.beyond = f"{needed} further slices, and a script has room for {room}"
            session.job = replace(session.job, key=key)
            self.batch.judge(session, Answer(OK, report, b""), source)
            return
        session.job = final_job(replace(session.job, key=key), session.script)
        if (answer := self.reports.pop(session.job.key, None)) is None:
            self.batch.enter(session)
        else:
            self.batch.keep({session.job.key: answer})
            self.batch.judge(session, answer, source)


def longer(script: bytes, found: dict[int, list[Run]]) -> bytes:
    """A script with further slices."""
    end = b"" if not script or script.endswith(b"\n") or not found else b"\n"
    return script + end + lines_of(found)


def final_job(job: Job, script: bytes) -> Job:
    """The job of a session with another script."""
    return replace(job, key=make_key(job.key, ("script",), [script]), script=script, total=0)


@dataclass
class Journey:
    """A session on its way: its tenants, the further slices of each, and a report of them."""

    totals: Totals
    name: str
    job: Job
    owns: dict[int, Own] = field(default_factory=dict)
    further: dict[int, list[Run]] = field(default_factory=dict)
    refused: bytes = b""
    blocks: dict[int, bytes] = field(default_factory=dict)
    asked: set[int] = field(default_factory=set)
    found: set[int] = field(default_factory=set)
    is_lost: bool = False

    def begin(self) -> None:
        """Enters the session without its steps, which says who is admitted."""
        key = make_key(self.job.key, ("ledger",), [])
        script = without_steps(self.job.script)
        self._enter("ledger", replace(self.job, key=key, script=script, total=0), self._learn)

    def _enter(self, name: str, job: Job, taken: Callable[[Answer], None], steps: int = 0) -> None:
        """Has a job run on the way, for who takes its answer; where it is lost, the session is."""
        def take(reply: Reply, source: str) -> None:
            if isinstance(reply, Answer):
                taken(reply)
            elif not self.is_lost:
                self.is_lost = True
                self.totals.batch.lose(self.job, f"{name}: {reply.why}")
        job = replace(job, is_passing=True)
        self.totals.batch.enter(Session(f"{self.name}: {name}", job, taken=take), steps)

    def _learn(self, ledger: Answer) -> None:
        """Learns who is admitted, and gives each tenant the slices that it needs if it does not
        yield, where they have room; for a total of work none. A faulty script stays as it is."""
        if ledger.status != OK:
            self._end(self._text())
            return
        self.refused = refused_lines_of(ledger.out)
        self.owns = owns_of(self.job.script, (it["event"] for it in refused_of(self.refused)))
        self.further = {number: filling(self.totals.total - own.steps)
                        for number, own in self.owns.items()
                        if not own.is_stopped and own.steps < self.totals.total}
        if self.totals.is_of_work or not self._has_room():
            self.further = {}
        script = longer(self.job.script, self.further)
        steps = self.totals.total * len(self.further)
        self._enter("first slices", final_job(self.job, script), self._look, steps)

    def _has_room(self) -> bool:
        """Whether a script has room for all further slices."""
        events = count_events(self.job.script) + sum(map(count_of, self.further.values()))
        return events <= MOST_EVENTS

    def _short(self) -> list[int]:
        """The tenants that run on and have not had all of their steps, or may not have done all of
        their work."""
        ended = self.found if self.totals.is_of_work else set()
        return [it["id"] for block in self.blocks.values() for it in tenants_of(block)
                if it["status"]["kind"] == "running" and it["steps"] < self.totals.total
                and it["id"] not in ended]

    def _look(self, answer: Answer) -> None:
        """Looks which tenants yielded, by the session's first report."""
        self.blocks = blocks_of(answer.out)
        if short := self._short():
            self._ask(short)
            return
        script = longer(self.job.script, self.further)
        self.totals.reports[final_job(self.job, script).key] = answer
        self._end(self._text())

    def _ask(self, numbers: Iterable[int]) -> None:
        """Asks for the further slices of tenants, each alone."""
        self.asked = set(numbers)
        for number in sorted(self.asked):
            part = part_of([self.owns[number]], self.job.frames, self.job.files)
            key = make_key(self.job.key, ("tenant", str(number)), [])
            job = Job(key, part.frames, part.script, part.files, total=self.totals.total,
                      is_of_work=self.totals.is_of_work)
            find = functools.partial(self._find, number)
            self._enter(f"tenant {number}", job, find, self.totals.total)

    def _find(self, number: int, answer: Answer) -> None:
        """Learns of the further slices of a tenant, and what it is then."""
        self.further[number] = runs_of(answer.out).get(number, [])
        self.blocks[number] = after_further(answer.out)
        self.asked.discard(number)
        self.found.add(number)
        if self.asked:
            return
        if self._has_room() and not self._short():
            self._end(self._text())
        elif others := set(self.further) - self.found:
            # Of those that ended early some slices are for nothing.
            self._ask(others)
        else:
            self._end(self._text() + self.refused + b"".join(
                self.blocks[it] for it in self.owns))

    def _text(self) -> bytes:
        """The lines of the further slices of all tenants, in their order."""
        runs = {it: self.further[it] for it in self.owns if it in self.further}
        return text_of(self.totals.total, runs)

    def _end(self, text: bytes) -> None:
        """Says what the session's further slices are."""
        if not self.is_lost:
            self.totals.batch.answer({self.job.key: Answer(OK, text, b"")})
