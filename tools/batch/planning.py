"""How sessions are led to their answers: whole, or by a plan; and what a plan may cost."""

import contextlib
import time
from collections.abc import Iterator
from dataclasses import dataclass
from typing import Protocol

from batch.engines import Bundle
from batch.sessions import Job, Session

# Of all processor time so much may go into parts: less than half of what a run in parts may take
# more, as further workers cost something too.
SHARE = 0.04


class Plan:
    """What leads some sessions to their answers by other sessions, which it enters."""

    def takes(self, session: Session) -> bool:
        """Whether it leads a session that is to run. Then it has begun to."""
        raise NotImplementedError

    def sent(self, bundle: Bundle, seconds: float) -> None:
        """Learns that a bundle is under way, and what it took here to send it."""

    def came(self, bundle: Bundle, seconds: float) -> None:
        """Learns how many seconds a processor worked on a bundle."""


class Pending(Protocol):
    """What waits to be run, and says only when its turn comes what that is."""

    def next_job(self) -> Job | None:
        """The job that is run now; None where it is answered already."""


@dataclass
class Budget:
    """What parts cost, and what they are worth: processor seconds, as they were in this run."""

    is_bound: bool = True
    # What all workers took; and what it cost to learn of tenants, and to cut, send and join so many
    # parts.
    worked: float = 0.0
    cost: float = 0.0
    count: int = 0
    # What the parts took that are answered, and how many steps these allowed.
    taken: float = 0.0
    steps: int = 0

    @contextlib.contextmanager
    def paying(self) -> Iterator[None]:
        """What is done within is done for parts. The other end of a pipe has as much of it."""
        began = time.process_time()
        yield
        self.cost += 2 * (time.process_time() - began)

    def expected(self, steps: int) -> float:
        """How many seconds the parts took of which the slices allowed so many steps."""
        return steps * self.taken / max(self.steps, 1)

    def pays(self, steps: int) -> bool:
        """Whether one more part pays, of a session whose parts that are left allow so many steps.
        Programs that end early take no time for the steps that they are allowed, so it is by what
        parts took so far. Until one is answered nothing is known of that, but then no more of them
        are under way than there are workers."""
        if not self.is_bound or not self.steps:
            return True
        spent = time.process_time() + self.worked + self.expected(steps)
        return self.cost * (1 + 1 / max(self.count, 1)) <= SHARE * spent
