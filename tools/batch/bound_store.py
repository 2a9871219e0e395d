"""Keeps a store within a number of bytes: the oldest answers that a run has no use for go first."""

import fcntl
import os
import pathlib
from collections.abc import Sequence

from batch.store import SUFFIX, Found, records_of
from batch.summaries import write_whole


def is_written(path: pathlib.Path) -> bool:
    """Whether a run appends to a file, on this machine or on another that shares the folder."""
    with open(path, "rb") as file:
        try:
            fcntl.flock(file, fcntl.LOCK_SH | fcntl.LOCK_NB)
        except OSError:
            return True
    return False


def bound_store(folder: pathlib.Path, most: int, needed: set[str]) -> int:
    """Rids a store of what is marked or damaged, and of answers that are not needed, the oldest
    first, until it has not more than so many bytes or only what is needed. The result is how many
    answers went. Files of other runs that are under way stay."""
    found = {it: it.stat() for it in folder.glob(f"*{SUFFIX}")}
    total, dropped = sum(it.st_size for it in found.values()), 0
    for path in sorted(found, key=lambda it: (found[it].st_mtime_ns, it)):
        if total <= most:
            break
        if not found[path].st_size or is_written(path):
            continue
        others, data = total - found[path].st_size, path.read_bytes()
        sound = [it for it in records_of(data) if it.answer is not None]
        kept = kept_of(sound, most - others, needed)
        rewrite(path, b"".join(data[it.start:it.end] for it in kept), found[path].st_mtime_ns)
        dropped += len(sound) - len(kept)
        total = others + sum(map(size_of, kept))
    return dropped


def size_of(record: Found) -> int:
    """How many bytes a record has."""
    return record.end - record.start


def kept_of(records: Sequence[Found], room: int, needed: set[str]) -> list[Found]:
    """The records of a file that stay: those that are needed, and the last ones of the others for
    which there is room then."""
    room -= sum(size_of(it) for it in records if it.key in needed)
    kept = []
    for record in reversed(records):
        if record.key not in needed:
            room -= size_of(record)
        if record.key in needed or room >= 0:
            kept.append(record)
    return kept[::-1]


def rewrite(path: pathlib.Path, text: bytes, age: int) -> None:
    """Gives a file another text, and leaves its age; without one it is no more."""
    if not text:
        path.unlink()
        return
    write_whole(path, text)
    os.utime(path, ns=(age, age))
