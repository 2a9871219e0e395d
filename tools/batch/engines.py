"""What runs bundles of sessions: the processors of this machine. Dask is in over_dask.py."""

import collections
import multiprocessing
import multiprocessing.connection
import multiprocessing.context
import signal
import time
from collections.abc import Sequence
from dataclasses import dataclass
from typing import Protocol

from batch.answers import Lost
from batch.runs import Replies, Runner, run_safely
from batch.sessions import Job

FORK = multiprocessing.get_context("fork")


@dataclass(frozen=True)
class Bundle:
    """Sessions that one process runs in turn, and how often they were lost."""

    jobs: tuple[Job, ...]
    losses: int = 0


Outcome = tuple[Bundle, Replies | Lost, float]


class Engine(Protocol):
    """What runs bundles, several at a time. A bundle comes back with its replies, or lost, and with
    how many seconds a processor worked on it."""

    # How many sessions a bundle has at most.
    bundle: int
    # Whether what is lost was tried again already.
    retries_itself: bool

    def has_room(self) -> bool:
        """Whether it takes another bundle now."""

    def is_busy(self) -> bool:
        """Whether a bundle is under way."""

    def submit(self, bundle: Bundle) -> float:
        """Takes a bundle, and returns how many seconds a processor worked to send it."""

    def wait(self) -> Outcome:
        """Waits for a bundle that is under way."""

    def close(self) -> None:
        """Ends all that was started."""


def serve(pipe: multiprocessing.connection.Connection,
          other: multiprocessing.connection.Connection, run: Runner) -> None:
    """What a worker does: it runs what comes through its pipe, until nothing more comes. It closes
    its copy of the other end, or it would never learn that whoever has that end is gone."""
    other.close()
    signal.signal(signal.SIGINT, signal.SIG_IGN)
    while True:
        try:
            jobs: Sequence[Job] = pipe.recv()
            began = time.process_time()
            replies = run_safely(run, jobs)
            pipe.send((replies, time.process_time() - began))
        except (EOFError, OSError):  # whoever asked is gone
            return


class Worker:
    """A process of this machine, and the bundle that it runs."""

    def __init__(self, run: Runner) -> None:
        self.run = run
        self.pipe, theirs = FORK.Pipe()
        self.process = FORK.Process(target=serve, args=(theirs, self.pipe, run), daemon=True)
        self.process.start()
        theirs.close()
        self.bundle: Bundle | None = None
        self.until = 0.0

    def take(self) -> tuple[Replies, float] | Lost:
        """What it answers of its bundle, and how long it worked; that it is lost where the process
        ended."""
        try:
            came: tuple[Replies, float] = self.pipe.recv()
            return came
        except Exception:  # the pipe ended, or has what cannot be read
            return self.end()

    def end(self) -> Lost:
        """Ends the process, and says how it ended."""
        self.process.join(0.2)
        if self.process.is_alive():
            self.process.kill()
            self.process.join()
        self.pipe.close()
        code = self.process.exitcode or 0
        how = f"signal {-code}" if code < 0 else f"status {code}"
        return Lost(f"the process that ran it ended by {how}")


class LocalEngine:
    """Processes of this machine, at most one for each runner, that begin as they are needed; each
    has one bundle at a time. One that ends, or takes longer than so many seconds a session, is
    replaced."""

    bundle = 50
    retries_itself = False

    def __init__(self, runners: Sequence[Runner], seconds: float | None = None) -> None:
        self.seconds, self.runners = seconds, runners
        self.workers: list[Worker] = []
        self.ready: collections.deque[Outcome] = collections.deque()

    def has_room(self) -> bool:
        """Whether a worker is idle, or one more may begin."""
        is_idle = any(it.bundle is None for it in self.workers)
        return is_idle or len(self.workers) < len(self.runners)

    def is_busy(self) -> bool:
        """Whether a bundle is under way."""
        return bool(self.ready) or any(it.bundle for it in self.workers)

    def submit(self, bundle: Bundle) -> float:
        """Gives a bundle to an idle worker, which may have to begin first."""
        place = self._idle()
        worker = self.workers[place]
        worker.bundle = bundle
        worker.until = time.monotonic() + (self.seconds or 0) * len(bundle.jobs)
        began = time.process_time()
        try:
            worker.pipe.send(bundle.jobs)
        except OSError:
            self._replace(place, worker.end())
        return time.process_time() - began

    def _idle(self) -> int:
        """The place of a worker that is idle, or has just begun. What a runner needs is loaded here
        with the first, and so only once: by running nothing."""
        for place, worker in enumerate(self.workers):
            if worker.bundle is None:
                return place
        if not self.workers:
            run_safely(self.runners[0], ())
        self.workers.append(Worker(self.runners[len(self.workers)]))
        return len(self.workers) - 1

    def _replace(self, place: int, lost: Lost) -> None:
        """Puts a new worker in the place of one that ended, whose bundle is lost."""
        worker = self.workers[place]
        assert worker.bundle is not None
        self.ready.append((worker.bundle, lost, 0.0))
        self.workers[place] = Worker(worker.run)

    def _left(self) -> float | None:
        """How many seconds are left to the first worker that takes too long."""
        if self.seconds is None:
            return None
        return max(0.0, min(it.until for it in self.workers if it.bundle) - time.monotonic())

    def wait(self) -> Outcome:
        """Waits for a worker that has answered, has ended, or takes too long."""
        while not self.ready:
            pipes = {it.pipe: at for at, it in enumerate(self.workers) if it.bundle}
            for pipe in multiprocessing.connection.wait(list(pipes), self._left()):
                assert isinstance(pipe, multiprocessing.connection.Connection)
                self._take(pipes[pipe])
            self._end_late_ones()
        return self.ready.popleft()

    def _take(self, place: int) -> None:
        worker = self.workers[place]
        assert worker.bundle is not None
        came = worker.take()
        if isinstance(came, Lost):
            self._replace(place, came)
        else:
            self.ready.append((worker.bundle, *came))
            worker.bundle = None

    def _end_late_ones(self) -> None:
        """Ends the workers that take too long."""
        for place, worker in enumerate(self.workers):
            if self.seconds is not None and worker.bundle and worker.until <= time.monotonic():
                worker.process.kill()
                worker.end()
                self._replace(place, Lost(f"it took longer than {self.seconds:g} seconds"))

    def close(self) -> None:
        """Ends the workers."""
        for worker in self.workers:
            worker.process.kill()
            worker.process.join()
            worker.pipe.close()
