"""Runs other programs with bounds of time and memory."""

import os
import pathlib
import resource
import subprocess
from collections.abc import Mapping, Sequence
from dataclasses import dataclass
from typing import Optional, Union

Word = Union[str, bytes, pathlib.Path]
# After so many seconds a program hangs, also on a machine that does much else.
HANG = 900


@dataclass(frozen=True)
class Ran:
    """What came of a program: its exit status, negative where a signal ended it, and its text."""

    status: int
    out: bytes
    err: bytes

    @property
    def output(self) -> str:
        """Standard output as text."""
        return self.out.decode(errors="replace")

    @property
    def errors(self) -> str:
        """Standard error as text."""
        return self.err.decode(errors="replace")


def run(
    words: Sequence[Word],
    *,
    cwd: Optional[pathlib.Path] = None,
    stdin: bytes = b"",
    seconds: float = HANG,
    memory: Optional[int] = None,
    extra: Optional[Mapping[str, str]] = None,
) -> Ran:
    """Runs a program to its end. It may take so many seconds, and so many bytes of addresses."""

    def limit() -> None:
        assert memory is not None
        resource.setrlimit(resource.RLIMIT_AS, (memory, memory))

    ran = subprocess.run(
        [os.fspath(word) for word in words],
        cwd=cwd,
        input=stdin,
        stdout=subprocess.PIPE,
        stderr=subprocess.PIPE,
        timeout=seconds,
        env={**os.environ, **(extra or {})},
        preexec_fn=None if memory is None else limit,
        check=False,
    )
    return Ran(ran.returncode, ran.stdout, ran.stderr)


def succeed(
    words: Sequence[Word],
    *,
    cwd: Optional[pathlib.Path] = None,
    stdin: bytes = b"",
    seconds: float = HANG,
    extra: Optional[Mapping[str, str]] = None,
) -> Ran:
    """Runs a program that has to end with status 0."""
    ran = run(words, cwd=cwd, stdin=stdin, seconds=seconds, extra=extra)
    said = f"{ran.output[-3000:]}{ran.errors[-3000:]}"
    assert ran.status == 0, f"{words}: status {ran.status}\n{said}"
    return ran
