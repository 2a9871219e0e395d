"""A store of answers by content: each is kept under the key of what it answers.

The store is a folder of files, of which each is appended to by one run, so that any number of runs,
on any machines that share the folder, may use it at once. A record has the key, the answer and the
sum of both, so that one that was changed, cut short or put under another key is not taken.
"""

import contextlib
import fcntl
import hashlib
import mmap
import os
import pathlib
import re
import secrets
from collections.abc import Iterable, Iterator, Sequence
from dataclasses import dataclass

from batch.answers import Answer, is_of_bytes

HEAD = re.compile(rb"tombolopan answer ([0-9a-f]{64}) ([0-9]{1,3}) ([0-9]{1,12}) ([0-9]{1,12})"
                  rb" ([0-9a-f]{64})\n")
# What a head begins with whose record is not taken any more: as long as what it replaces.
FORGOTTEN = b"tombolopan forgot "
SUFFIX = ".answers"


def sum_of(key: bytes, answer: Answer) -> bytes:
    """The sum of a key and an answer."""
    total = hashlib.sha256(b"%s %d %d\n" % (key, answer.status, len(answer.out)))
    total.update(answer.out)
    total.update(answer.err)
    return total.hexdigest().encode()


def record_of(key: str, answer: Answer) -> bytes:
    """The bytes of a record."""
    name = key.encode()
    head = b"tombolopan answer %s %d %d %d %s\n" % (
        name, answer.status, len(answer.out), len(answer.err), sum_of(name, answer))
    return head + answer.out + answer.err + b"\n"


@dataclass(frozen=True)
class Found:
    """Where a record is, and its answer; None where it is not what was written."""

    key: str
    start: int
    end: int
    answer: Answer | None


def record_at(data: bytes | mmap.mmap, head: re.Match[bytes]) -> Found:
    """The record that a head begins."""
    key, total = head[1], head[5]
    middle = head.end() + int(head[3])
    end = middle + int(head[4])
    answer = Answer(int(head[2]), data[head.end():middle], data[middle:end])
    is_sound = data[end:end + 1] == b"\n" and sum_of(key, answer) == total and is_of_bytes(answer)
    return Found(key.decode(), head.start(), end + 1, answer if is_sound else None)


def records_of(data: bytes | mmap.mmap) -> Iterator[Found]:
    """The records of a file. Behind one that is damaged the next one is looked for."""
    at = 0
    while (head := HEAD.search(data, at)) is not None:
        found = record_at(data, head)
        yield found
        at = head.end() if found.answer is None else found.end


class Store:
    """The answers of a folder. `damaged` has the keys that have no answer, though they had one: it
    is not what was written, or there are two sound ones that differ. `used` has the keys of the
    answers that were taken from it or put into it."""

    def __init__(self, folder: pathlib.Path) -> None:
        self.folder = folder
        self.damaged: set[str] = set()
        self.used: set[str] = set()
        self._places: dict[str, tuple[pathlib.Path, int, int]] = {}
        self._sums: dict[str, bytes] = {}
        self._read: dict[pathlib.Path, int] = {}
        self._written: int | None = None
        self._own = folder
        folder.mkdir(parents=True, exist_ok=True)
        differing: set[str] = set()
        for path in self._files():
            differing |= self._take(path)
        self.damaged = self.damaged - set(self._places) | differing
        if differing:
            self.forget(differing)

    def _files(self) -> list[pathlib.Path]:
        return sorted(self.folder.glob(f"*{SUFFIX}"))

    def keys(self) -> list[str]:
        """The keys of the answers that may be taken."""
        return list(self._places)

    def size(self) -> int:
        """How many bytes its files have."""
        return sum(it.stat().st_size for it in self._files())

    def _take(self, path: pathlib.Path) -> set[str]:
        """Enters the records of a file, and returns the keys of which others differ."""
        with open(path, "rb") as file:
            if os.fstat(file.fileno()).st_size == 0:
                return set()
            with mmap.mmap(file.fileno(), 0, access=mmap.ACCESS_READ) as data:
                return {it.key for it in records_of(data) if self._differs(path, it)}

    def _differs(self, path: pathlib.Path, found: Found) -> bool:
        """Enters a record, and returns whether another of its key differs."""
        if found.answer is None:
            self.damaged.add(found.key)
            return False
        total = sum_of(found.key.encode(), found.answer)
        self._places[found.key] = (path, found.start, found.end)
        return self._sums.setdefault(found.key, total) != total

    def get(self, key: str) -> Answer | None:
        """The answer that is kept under a key, read and compared with its sum once more."""
        place = self._places.get(key)
        if place is None:
            return None
        data = self._part(*place)
        head = HEAD.match(data)
        found = None if head is None else record_at(data, head)
        if found is None or found.answer is None or found.key != key:
            del self._places[key]
            self.damaged.add(key)
            return None
        self.used.add(key)
        return found.answer

    def _part(self, path: pathlib.Path, start: int, end: int) -> bytes:
        """Bytes of a file; fewer, or none, where they cannot be read any more."""
        try:
            if path not in self._read:
                self._read[path] = os.open(path, os.O_RDONLY)
            return os.pread(self._read[path], end - start, start)
        except OSError:
            return b""

    def put(self, answers: Sequence[tuple[str, Answer]]) -> None:
        """Keeps answers. OSError tells why they may not be kept."""
        if not answers:
            return
        if self._written is None:
            self._own = self.folder / f"{os.getpid()}-{secrets.token_hex(8)}{SUFFIX}"
            flags = os.O_WRONLY | os.O_CREAT | os.O_EXCL | os.O_APPEND
            self._written = os.open(self._own, flags, 0o666)
            # So nobody rewrites it meanwhile (bound_store.py).
            fcntl.flock(self._written, fcntl.LOCK_EX)
        records = [record_of(key, answer) for key, answer in answers]
        start = os.fstat(self._written).st_size
        left = memoryview(b"".join(records))
        while left:
            left = left[os.write(self._written, left):]
        for (key, _), record in zip(answers, records):
            self._places[key] = (self._own, start, start + len(record))
            self.used.add(key)
            start += len(record)

    def drop(self, keys: Iterable[str]) -> None:
        """Marks the records of answers that are of no use any more, where that can be written."""
        for key in keys:
            self.used.discard(key)
            path, start, _ = self._places.pop(key, (self.folder, 0, 0))
            with contextlib.suppress(OSError), open(path, "r+b") as file:
                os.pwrite(file.fileno(), FORGOTTEN, start)

    def forget(self, keys: set[str]) -> None:
        """Marks all records of these keys in their places, which needs no room and leaves what
        others append alone."""
        for key in keys & set(self._places):
            del self._places[key]
        for path in self._files():
            with open(path, "r+b") as file:
                found = [it.start for it in records_of(file.read()) if it.key in keys]
                for start in found:
                    os.pwrite(file.fileno(), FORGOTTEN, start)

    def close(self) -> None:
        """Closes the files. What is kept afterwards goes to a new one."""
        for file in (*self._read.values(), *([] if self._written is None else [self._written])):
            os.close(file)
        self._read, self._written = {}, None
