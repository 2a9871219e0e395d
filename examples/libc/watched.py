"""A run of mte_run that is watched: how far it is, and what a signal does to it."""
import os
import selectors
import signal
import subprocess
import sys
import time
from collections.abc import Callable, Sequence
from types import FrameType
from typing import Optional

SIGNALS = (signal.SIGINT, signal.SIGTERM)
# A signal is noticed after so many seconds, and the line is written once a second.
PAUSE, SECOND = 0.2, 1.0


def ignore_signals() -> None:
    """What a terminal sends to all of its programs is for the one that watches."""
    for number in SIGNALS:
        signal.signal(number, signal.SIG_IGN)


class StatusLine:
    """A line of a terminal, written over itself, that says how far a run is."""

    def __init__(self, limit: int) -> None:
        self.limit = limit
        self.steps, self.at = 0, time.monotonic()
        self.width = 0
        self.rest = b""

    def read(self, data: bytes) -> None:
        """Takes what `mte_run --progress` wrote, `steps N calls M` a slice."""
        whole, _, self.rest = (self.rest + data).rpartition(b"\n")
        now = time.monotonic()
        if whole and now - self.at >= SECOND:
            _, steps, _, calls = whole.rpartition(b"\n")[2].split()
            self.tell(int(steps), int(calls), now)

    def tell(self, steps: int, calls: int, now: float) -> None:
        """Writes the line, and goes back to where it begins."""
        rate = (steps - self.steps) / (now - self.at) / 1e6
        share = 100 * steps // max(self.limit, 1)
        text = (f"tenant-run: {steps:,} steps ({share} %), {rate:.1f} million a second, "
                f"{calls:,} heap calls")
        self.steps, self.at = steps, now
        columns = os.get_terminal_size(sys.stderr.fileno()).columns or 80
        self.write(text[:columns - 1])

    def write(self, text: str) -> None:
        """Writes a text over the one before."""
        sys.stderr.write(f"\r{text.ljust(self.width)}\r")
        sys.stderr.flush()
        self.width = len(text)

    def clear(self) -> None:
        """Leaves an empty line, if there was one."""
        if self.width:
            self.write("")


class Watched:
    """A running mte_run. The first signal closes what it writes its progress to, so that it ends
    within a slice and says how far it came; a second one ends it at once."""

    def __init__(self, program: str, words: Sequence[str], keeps_output: bool) -> None:
        self.signal: Optional[signal.Signals] = None
        self.is_killed = False
        self.kill: Callable[[], None] = lambda: None
        self.output = self.errors = b""
        for number in SIGNALS:
            signal.signal(number, self.take)
        self.lines, end = os.pipe()
        try:
            self.child = subprocess.Popen(
                [program, "--progress", f"/dev/fd/{end}", *words], stdin=subprocess.DEVNULL,
                stdout=subprocess.PIPE if keeps_output else None, stderr=subprocess.PIPE,
                pass_fds=(end,), preexec_fn=ignore_signals)
        finally:
            os.close(end)
        self.kill = self.child.kill

    def take(self, number: int, _: Optional[FrameType]) -> None:
        """Takes a signal."""
        if self.signal is not None:
            self.is_killed = True
            self.kill()
        self.signal = signal.Signals(number)

    def wait(self, read: Callable[[bytes], None]) -> int:
        """Reads all that is written, passes the progress on, and gives the exit status."""
        with selectors.DefaultSelector() as selector:
            for file in (self.lines, self.child.stdout, self.child.stderr):
                if file is not None:
                    selector.register(file, selectors.EVENT_READ)
            while selector.get_map():
                for key, _ in selector.select(PAUSE):
                    if not self.read(key.fd, read):
                        selector.unregister(key.fileobj)
                if self.signal is not None and self.lines in selector.get_map():
                    selector.unregister(self.lines)
                    os.close(self.lines)
        return self.child.wait()

    def read(self, file: int, read: Callable[[bytes], None]) -> bool:
        """Reads what there is; whether that is not the end."""
        data = os.read(file, 1 << 16)
        if file == self.lines:
            read(data)
        elif self.child.stderr is not None and file == self.child.stderr.fileno():
            self.errors += data
        else:
            self.output += data
        return bool(data)


def watch(program: str, words: Sequence[str], keeps_output: bool, limit: Optional[int]) -> Watched:
    """Runs mte_run to its end. Where it has a limit of steps, a line of the terminal says how far
    it is."""
    run = Watched(program, words, keeps_output)
    if limit is None:
        run.wait(lambda _: None)
        return run
    line = StatusLine(limit)
    run.wait(line.read)
    line.clear()
    return run
