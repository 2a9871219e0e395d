"""Runs bundles of sessions over Dask (Debian: python3-distributed): its scheduler has the queue,
tries again what fails or was on a worker that is lost, and shows all of it on its own page."""

import pickle
import tempfile
import time

import dask
from distributed import Client, LocalCluster, as_completed

from batch.answers import Lost
from batch.engines import Bundle, Outcome
from batch.runs import Replies, Runner, run_safely

# How many bundles wait at the scheduler for each that a worker has.
AHEAD = 2
# After how many seconds the workers are counted again.
RECOUNT = 2.0


def run_packed(runner: Runner, jobs: bytes) -> bytes:
    """Runs sessions. Dask would look into each of them where they are no bytes."""
    began = time.thread_time()
    replies = run_safely(runner, pickle.loads(jobs))
    return pickle.dumps((replies, time.thread_time() - began))


class DaskEngine:
    """A scheduler of Dask at an address; without one, it and its workers are processes here."""

    # The scheduler takes some 20 milliseconds for each.
    bundle = 250
    retries_itself = True

    def __init__(self, runner: Runner, address: str, workers: int, tries: int) -> None:
        self.runner, self.tries = runner, tries
        self.cluster = None
        self.held = tempfile.TemporaryDirectory(ignore_cleanup_errors=True)
        if not address:
            # Without the second line workers give memory back after each session.
            dask.config.set({"distributed.scheduler.allowed-failures": min(tries, 1),
                             "distributed.nanny.pre-spawn-environ": {}})
            self.cluster = LocalCluster(n_workers=workers, threads_per_worker=1,
                                        dashboard_address=None, local_directory=self.held.name)
        self.client = Client(self.cluster or address)
        self.client.wait_for_workers(1, timeout=600)
        self.bundles: dict[str, Bundle] = {}
        self.done = as_completed(with_results=True, raise_errors=False)
        self.threads, self.counted = 0, -RECOUNT

    def has_room(self) -> bool:
        """Whether fewer bundles are under way than keep all workers at work."""
        if time.monotonic() - self.counted > RECOUNT:
            self.threads, self.counted = sum(self.client.nthreads().values()), time.monotonic()
        return len(self.bundles) < (AHEAD + 1) * max(self.threads, 1)

    def is_busy(self) -> bool:
        """Whether a bundle is under way."""
        return bool(self.bundles)

    def submit(self, bundle: Bundle) -> float:
        """Takes a bundle, and returns how many seconds a processor worked to send it."""
        began = time.thread_time()
        future = self.client.submit(run_packed, self.runner, pickle.dumps(bundle.jobs),
                                    retries=self.tries, pure=False)
        self.bundles[future.key] = bundle
        self.done.add(future)
        return time.thread_time() - began

    def wait(self) -> Outcome:
        """Waits for a bundle that is under way."""
        future, came = next(self.done)
        bundle = self.bundles.pop(future.key)
        if future.status != "finished":
            error = came[1] if isinstance(came, tuple) else came
            return bundle, Lost(f"Dask: {type(error).__name__}: {error}"), 0.0
        replies: Replies
        replies, seconds = pickle.loads(came)
        return bundle, replies, seconds

    def close(self) -> None:
        """Leaves the scheduler; ends it where it was started here."""
        self.client.close()
        if self.cluster is not None:
            self.cluster.close()
        self.held.cleanup()
