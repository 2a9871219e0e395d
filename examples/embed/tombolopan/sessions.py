"""Sessions of several tenants."""
from __future__ import annotations

import ctypes
from collections.abc import Sequence
from ctypes import byref

from .abi import NO_ROOM, OK, OUT_OF_MEMORY, SCRIPT
from .abi import _Bytes, _lend, _library, _SessionEnd
from .enums import ScriptFault
from .faults import ScriptError
from .ranges import as_bytes, in_bits, in_range

# The most frames of a host, and the limits of a script (docs/HOST.md).
MOST_FRAMES = 65536
MOST_EVENTS = 10000
MOST_STEPS = 1048576
MOST_ID = 65535


def session(frames: int, script: bytes, files: Sequence[bytes]) -> bytes:
    """The report of a session on a host of `frames` frames, 1 to 65536.

    ScriptError tells the script's first faulty line; MemoryError comes where an allocation failed.
    """
    in_range("frames", frames, 1, MOST_FRAMES)
    held = [as_bytes(f"files[{at}]", it) for at, it in enumerate(files)]
    lent = (_Bytes * max(len(held), 1))(*map(_lend, held))
    text = as_bytes("script", script)
    lines, end, room = _lend(text), _SessionEnd(), 1 << 14
    while True:
        report = ctypes.create_string_buffer(room)
        code = _library.tb_session(
            frames, lines.bytes, lines.length, lent, len(held), report, room, byref(end)
        )
        if code != NO_ROOM:
            break
        room = end.length
    if code == SCRIPT:
        raise ScriptError(end.line, ScriptFault.of(end.fault))
    if code == OUT_OF_MEMORY:
        raise MemoryError
    assert code == OK
    return report.raw[: end.length]


class Session:
    """A session that goes on, on a host of `frames` frames: its events are entered one by one.

    Nothing is kept but the script and the files. A report runs all events anew, so it is that of
    `session`, and it takes the time of all steps so far. A session has at most 10,000 events; what
    would be one more is refused, and the session stays as it is.

    >>> host = Session(frames=11)
    >>> host.slice(1, 2000000)
    Traceback (most recent call last):
        ...
    ValueError: steps is 2000000, and not 0 to 1048576
    >>> host
    Session(frames=11: 0 events, 0 files)
    """

    def __init__(self, frames: int) -> None:
        self.frames = in_range("frames", frames, 1, MOST_FRAMES)
        self.files: list[bytes] = []
        self._lines: list[str] = []

    @property
    def script(self) -> str:
        """The events so far, a line each."""
        return "".join(self._lines)

    def add_file(self, data: bytes) -> int:
        """A file that events may name, by the number that is returned."""
        self.files.append(as_bytes("data", data))
        return len(self.files)

    def admit(
        self,
        id: int,
        image: int,
        input: int = 0,
        seed: int = 1,
        pages: int = 256,
        room: int = 65536,
        asynchronous: bool = False,
    ) -> None:
        """Requests the admission of a tenant, 0 to 65535, its image and input by the numbers of
        files (of input 0 for none). The report has a line where the host refuses it."""
        in_range("id", id, 0, MOST_ID)
        in_range("image", image, 1, len(self.files))
        in_range("input", input, 0, len(self.files))
        in_bits("seed", seed, 64)
        in_bits("pages", pages, 32)
        in_bits("room", room, 32)
        mode = " async" if asynchronous else ""
        self._enter(
            f"admit {id} image {image} input {input} seed {seed:016x} frames {pages} out {room}"
            f"{mode}"
        )

    def slice(self, id: int, steps: int) -> None:
        """Lets a tenant attempt at most `steps` instructions, at most 1048576."""
        in_range("id", id, 0, MOST_ID)
        self._enter(f"slice {id} {in_range('steps', steps, 0, MOST_STEPS)}")

    def stop(self, id: int) -> None:
        """Stops a tenant."""
        self._enter(f"stop {in_range('id', id, 0, MOST_ID)}")

    def _enter(self, line: str) -> None:
        """Enters an event, unless there are too many: ScriptError, and nothing is entered."""
        if len(self._lines) >= MOST_EVENTS:
            raise ScriptError(MOST_EVENTS + 1, ScriptFault.TOO_MANY_EVENTS)
        self._lines.append(f"{line}\n")

    def report(self) -> bytes:
        """The report of the events so far."""
        return session(self.frames, self.script.encode(), self.files)

    def lines_of(self, id: int) -> list[str]:
        """What the report says of a tenant, without its first line and its last; KeyError where it
        was never admitted."""
        lines = self.report().decode().splitlines()
        if f"tenant {id}" not in lines:
            raise KeyError(id)
        rest = lines[lines.index(f"tenant {id}") + 1 :]
        return rest[: rest.index("end")]

    def __repr__(self) -> str:
        return (f"Session(frames={self.frames}: {len(self._lines)} events, "
                f"{len(self.files)} files)")
