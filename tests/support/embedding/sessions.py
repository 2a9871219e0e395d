"""What sessions must answer: reports, script faults, buffers that are too short."""

from collections.abc import Iterator

from tests.support.embedding.lines import Line, hexed, line, words
from tests.support.embedding.memory import BAD_ARGUMENT, NO_ROOM, OK
from tests.support.places import EXAMPLES

SCRIPT = 11
SYNTAX, BAD_NUMBER, NO_SUCH_FILE, TOO_MANY_EVENTS = 1, 2, 3, 4
ADMIT = "admit 1 image 1 input 0 seed 0000000000000001 frames 5 out 16\n"
REPORT = b"tenant 1\nstatus exit 0\nsteps 8\noutput 2 4869\nheap 0\nend\n"


def session(frames: int, script: str, *answer: int, room: int = 4, report: bytes = b"") -> Line:
    """A session of the image hi.elf; what it leaves of a buffer of 0xee is as it was."""
    files = [hexed((EXAMPLES / "hi.elf").read_bytes())]
    text = words([frames, room, hexed(script.encode()), len(files), *files])
    return line(f"session {text}", *answer, hexed(report[:room].ljust(room, b"\xee")))


def ended() -> Iterator[Line]:
    """Each way in which a session ends."""
    whole, script = len(REPORT), ADMIT + "slice 1 100\n"
    yield session(11, script, OK, whole, 0, OK, 0, room=whole, report=REPORT)
    yield session(65536, "", OK, 0, 0, OK, 0)
    yield session(11, script, OK, whole, 0, OK, 0, room=whole + 3, report=REPORT)
    for room in (0, 1, whole - 1):
        yield session(11, script, NO_ROOM, whole, 0, NO_ROOM, 0, room=room, report=REPORT)
    yield session(1, "", OK, 0, 0, OK, 0, room=0)
    yield session(1, "# no event\n\n", OK, 0, 0, OK, 0)
    for frames in (0, 65537, 0xFFFFFFFF):
        yield session(frames, script, BAD_ARGUMENT, 0, 0, BAD_ARGUMENT, 0)
    refused = b"refused 1 NoFrames\nrefused 2 NotLive\n"
    yield session(10, script, OK, len(refused), 0, OK, 0, room=64, report=refused)


def faults() -> Iterator[Line]:
    """Each fault of a script, with its line."""
    for text, number, fault in (
        ("slice 1\n", 1, SYNTAX), ("# no event\n\nslices 1 1\n", 3, SYNTAX),
        (f"{ADMIT}slice 1 1048577\n", 2, BAD_NUMBER),
        (ADMIT.replace("image 1", "image 2"), 1, NO_SUCH_FILE),
        (ADMIT + "slice 1 0\n" * 10000, 10001, TOO_MANY_EVENTS),
    ):
        yield session(11, text, SCRIPT, 0, number, SCRIPT, fault)
