"""Bounds what the sessions of each user may cost, before any of them runs: a session's cost is in
its script. A user is the first folder of a session's name."""

from collections import Counter
from collections.abc import Iterable
from contextlib import suppress

from batch.scripts import allowed_steps, events_of
from batch.sessions import Place, read_bytes, words_of


def most_steps(script: bytes, total: int) -> int:
    """The most steps that a script allows, where each of its tenants is led on to a total."""
    admitted = sum(words[0] == b"admit" for _, words in events_of(script))
    return allowed_steps(script) + total * admitted


def beyond_quota(places: Iterable[Place], quota: int, total: int) -> str:
    """The first user whose sessions allow more steps than the quota, with what they allow. What
    cannot be read allows none: it has its own line later."""
    used: Counter[str] = Counter()
    for place in places:
        with suppress(OSError, IndexError):
            script = read_bytes(place.folder, words_of(place)[2])
            used[place.name.partition("/")[0]] += most_steps(script, total)
    return next((f"the sessions of {user} allow {used[user]} steps, and the quota is {quota}"
                 for user in sorted(used) if used[user] > quota), "")
