"""Runs the sessions that the store has no answer of, and judges all."""

import collections
import heapq
import itertools
from collections.abc import Callable, Iterable, Iterator
from dataclasses import dataclass, field, replace

from batch.answers import Answer, Lost
from batch.engines import Bundle, Engine
from batch.planning import Pending, Plan
from batch.runs import Replies
from batch.sessions import Job, Place, Session, read_session
from batch.store import Store
from batch.verdicts import (
    KEPT, LOST, MENDED, NO_SESSION, RAN, Verdict, Work, judge,
)

BUNDLE_BYTES = 16 << 20
# What has so many steps is a bundle of its own: it takes some 50 milliseconds. What others wait for
# comes first, as if it had more than all.
BUNDLE_STEPS, FIRST = 1 << 23, 1 << 62


@dataclass
class Batch:
    """Sessions on their way: what is read and not answered yet waits under its key, so that of
    several with one key one is run. What is ready to run is in a queue, the longest first, with the
    steps where these are known."""

    program: str
    store: Store
    tries: int
    tell: Callable[[int], None] = lambda done: None
    each: Callable[[Session, Answer], None] = lambda session, answer: None
    read: Callable[[Place, str], Session] = read_session
    plans: list[Plan] = field(default_factory=list)
    verdicts: dict[str, Verdict] = field(default_factory=dict)
    work: Work = field(default_factory=Work)
    _waiting: dict[str, list[Session]] = field(default_factory=dict)
    _places: Iterator[Place] = field(default_factory=lambda: iter(()))
    _queue: list[tuple[int, int, Job | Pending]] = field(default_factory=list)
    _pushed: Iterator[int] = field(default_factory=itertools.count)
    _again: collections.deque[Bundle] = field(default_factory=collections.deque)

    def run(self, places: Iterable[Place], engine: Engine) -> list[Verdict]:
        """The verdicts of sessions, in the order of their places; then those of parts."""
        listed = list(places)
        self._places = iter(listed)
        while True:
            while (given := self._next(engine)) is not None:
                sending = engine.submit(given)
                for plan in self.plans:
                    plan.sent(given, sending)
            if not engine.is_busy():
                break
            bundle, replies, seconds = engine.wait()
            for plan in self.plans:
                plan.came(bundle, seconds)
            self._take(bundle, replies, engine.retries_itself)
            self.tell(len(self.verdicts))
        named = {it.name: self.verdicts.pop(it.name) for it in listed if it.name in self.verdicts}
        return [*named.values(), *self.verdicts.values()]

    def _next(self, engine: Engine) -> Bundle | None:
        """The next bundle to run, where one may begin now: what was lost comes last. An engine that
        tries again by itself may blame a session for another on the same worker, so there it runs
        while no other does."""
        if not engine.has_room():
            return None
        if jobs := self._ready(engine.bundle):
            return Bundle(tuple(jobs))
        if self._again and not (engine.retries_itself and engine.is_busy()):
            return self._again.popleft()
        return None

    def _ready(self, count: int) -> list[Job]:
        """So many jobs that are ready, or fewer where they are large. A long one is alone."""
        jobs: list[Job] = []
        size = 0
        contents: dict[bytes, bytes] = {}
        while len(jobs) < count and size <= BUNDLE_BYTES and self._fill():
            if jobs and self._queue[0][0]:
                break
            order, _, what = heapq.heappop(self._queue)
            job = what if isinstance(what, Job) else what.next_job()
            if job is None:
                continue
            # What several have is sent once.
            files = tuple(contents.setdefault(it, it) for it in job.files)
            jobs.append(replace(job, files=files))
            size += len(job.script) + sum(map(len, files))
            if order:
                break
        return jobs

    def _fill(self) -> bool:
        """Whether something is ready; where nothing is, further sessions are read."""
        while not self._queue and (place := next(self._places, None)) is not None:
            self.enter(self.read(place, self.program))
        return bool(self._queue)

    def enter(self, session: Session, steps: int = 0) -> None:
        """Takes in a session, which is run, led by a plan, or answered already."""
        job = self.begin(session)
        if job is not None and not any(it.takes(session) for it in self.plans):
            self.push(steps, job)

    def push(self, steps: int, what: Job | Pending) -> None:
        """Has a job run in its turn, or what knows the job only then."""
        order = -steps if steps >= BUNDLE_STEPS else 0
        heapq.heappush(self._queue, (order, next(self._pushed), what))

    def begin(self, session: Session) -> Job | None:
        """The job of a session that has to be run; else the session has its verdict, or waits."""
        job = session.job
        if session.wrong:
            self.verdicts[session.name] = Verdict(session.name, NO_SESSION, session.wrong)
        elif job is None:
            assert session.answer is not None
            self.judge(session, session.answer, RAN)
        elif job.key in self._waiting:
            self._waiting[job.key].append(session)
        elif (kept := self._kept(job)) is not None:
            self.judge(session, kept, KEPT)
        else:
            self._waiting[job.key] = [session]
            return job
        return None

    def leave(self, job: Job) -> bool:
        """Leaves a job to others, with all that waits for it."""
        return self._waiting.pop(job.key, None) is not None

    def _kept(self, job: Job) -> Answer | None:
        """The answer that is kept of a job. One that cannot be its answer is forgotten."""
        kept = self.store.get(job.key)
        if kept is None or job.is_answered_by(kept):
            return kept
        self.store.damaged.add(job.key)
        self.store.forget({job.key})
        return None

    def judge(self, session: Session, answer: Answer, source: str) -> None:
        """Enters the verdict of a session that is answered, or gives the answer to whom it is
        for."""
        is_part = session.job is not None and bool(session.job.tenants)
        self.work.parts_kept += is_part and source == KEPT
        self.work.parts_run += is_part and source != KEPT
        if session.taken is not None:
            session.taken(answer, source)
            return
        self.verdicts[session.name] = judge(session, answer, source)
        if is_part:
            return
        try:
            self.each(session, answer)
        except OSError as error:
            self._not_stored(1, error)

    def _not_stored(self, count: int, error: OSError) -> None:
        self.work.unkept += count
        self.work.why_unkept = error.strerror or str(error)

    def _take(self, bundle: Bundle, replies: Replies | Lost, is_tried: bool) -> None:
        """Takes what came of a bundle."""
        if isinstance(replies, Lost):
            found: dict[str, Answer] = {}
            why = dict.fromkeys((it.key for it in bundle.jobs), replies.why)
        else:
            found = {key: it for key, it in replies if isinstance(it, Answer)}
            why = {key: it.why if isinstance(it, Lost) else "what came is no answer of it"
                   for key, it in replies}
        found = {it.key: found[it.key] for it in bundle.jobs
                 if it.key in found and it.is_answered_by(found[it.key])}
        self.answer(found)
        lost = tuple(it for it in bundle.jobs if it.key not in found)
        again = self._tries(bundle, lost, isinstance(replies, Lost), is_tried)
        self._again.extend(again)
        if again:
            self.work.retries += len(lost)
        else:
            for job in lost:
                self.lose(job, why.get(job.key, "no answer of it came"))

    def _tries(self, bundle: Bundle, lost: tuple[Job, ...], is_whole: bool,
               is_tried: bool) -> list[Bundle]:
        """What is run again of what was lost: a bundle once more, as its process may have been
        ended from outside; then each session by itself, so that one that ends its process takes no
        other with it, and that so often. What an engine tried again is not tried here."""
        if not bundle.losses and is_whole and not is_tried:
            return [Bundle(lost, 1)]
        if len(bundle.jobs) > 1:
            return [Bundle((job,), 1) for job in lost]
        limit = 0 if is_whole and is_tried else self.tries
        return [Bundle(lost, bundle.losses + 1)] if lost and bundle.losses <= limit else []

    def lose(self, job: Job, why: str) -> None:
        """Has the sessions lost that waited for an answer."""
        for session in self._waiting.pop(job.key):
            self.fail(session, why)

    def fail(self, session: Session, why: str) -> None:
        """Enters that a session is lost, or says so to whom its answer was for."""
        if session.taken is not None:
            session.taken(Lost(why), "")
        else:
            key = "" if session.job is None else session.job.key
            self.verdicts[session.name] = Verdict(session.name, LOST, why, key=key)

    def answer(self, answers: dict[str, Answer], source: str = "") -> None:
        """Keeps answers, and judges the sessions that waited for them."""
        waited = {key: self._waiting.pop(key) for key in answers}
        self.keep({key: it for key, it in answers.items() if not any(
            session.job and session.job.is_passing for session in waited[key])})
        for key, answer in answers.items():
            how = MENDED if key in self.store.damaged else source or RAN
            for session in waited[key]:
                self.judge(session, answer, how)
                how = KEPT

    def keep(self, answers: dict[str, Answer]) -> None:
        """Keeps answers, or counts those that cannot be kept."""
        try:
            self.store.put(list(answers.items()))
        except OSError as error:
            self._not_stored(len(answers), error)
