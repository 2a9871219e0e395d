#!/usr/bin/env python3
"""Runs tenants with and without a debugger, and compares how they end: a debugger's stops, steps
and returns change nothing of a run.

    compare_runs.py PROGRAM COUNT SEED [IMAGE...]       PROGRAM is mte_run

It runs each IMAGE, and COUNT random programs, alone under random options. It debugs them with
random breakpoints, watchpoints, steps and returns, then continues to the end, and compares the
output, the exit status or the signal, the number of steps, and the report with its registers,
pages and cause. Where they differ the image is kept in the folder `differ`.
"""

import collections
import os
import pathlib
import random
import subprocess
import sys
import tempfile
from collections.abc import Sequence

sys.path.insert(0, str(pathlib.Path(__file__).resolve().parent.parent))
import command_line  # noqa: E402
from build_image import ENTRY, image  # noqa: E402
from packets import Front  # noqa: E402

STEPS, STACK = 20_000, 0x3FFFC000
# The signals of GDB that the exit statuses of mte_run stand for (docs/MTE_RUN.md).
SIGNALS = {129: (b"T0b", b"T0a"), 130: (b"T0b",), 131: (b"T06",), 132: (b"T04",), 133: (b"T05",),
           134: (b"T18",), 135: (b"T18",)}
STOPS = (b"T05replaylog:end", b"T05swbreak", b"T05watch", b"T05rwatch", b"T05awatch")
SVC, BREAK, NOTHING = 0xD4000001, 0xD4200000, 0xD503201F
# What the front itself says of an end, how it begins and ends.
SENTENCES = ((b"the tenant exits with ", b"let it)\n"),
             (b"the tenant has ended here, ", b"(monitor why)\n"))
CUT = b"mte_run: output was cut: there was no more room (--out)\n"


def move(register: int, value: int) -> int:
    """MOV xR, #V."""
    return 0xD2800000 | (value & 0xFFFF) << 5 | register


def call(service: int, draw: random.Random) -> list[int]:
    """A service with arguments that are mostly sensible."""
    words = [move(8, service)]
    if draw.random() < 0.7:
        words.append(move(1, draw.choice([0, 8, 24, 40, 100, 5000])))
    if service in (3, 5, 7) and draw.random() < 0.9:
        words.append(move(0, draw.choice([1, 16, 24, 64, 300, 4096, 65535])))
    elif draw.random() < 0.8:
        words.append(0xAA0003E0 | draw.randrange(19, 23) << 16)  # MOV x0, x19..x22
    words.append(SVC)
    return words + [0xAA0003E0 | draw.randrange(19, 23)]  # MOV x19..x22, x0


def accesses(kind: int, one: int, two: int, draw: random.Random) -> list[int]:
    """A few accesses: by the stack or by a pointer, of one byte or of pairs, of tags."""
    pointer, at = draw.randrange(19, 23), draw.randrange
    if kind == 5:
        return [0xF9000000 | at(16) << 10 | 31 << 5 | one,
                0xF9400000 | at(16) << 10 | 31 << 5 | two]
    if kind == 6:
        return [0xF9000000 | at(6) << 10 | pointer << 5 | one]
    if kind == 7:
        return [0x39400000 | at(48) << 10 | pointer << 5 | one,
                0x39000000 | at(48) << 10 | pointer << 5 | two]
    if kind == 8:
        return [0xA9000000 | at(8) << 15 | one << 10 | 31 << 5 | two]
    # ADD x18, sp; IRG; STG; STR
    return [0x91000000 | at(4) << 14 | 31 << 5 | 18, 0x9ADF1000 | 18 << 5 | 18,
            0xD9200800 | 18 << 5 | 18, 0xF9000000 | 18 << 5 | one]


def piece(draw: random.Random) -> list[int]:
    """A few words: a service, arithmetic, accesses, anything."""
    kind, one, two = draw.randrange(12), draw.randrange(8), draw.randrange(8)
    if kind < 4:
        return call(draw.choice([1, 1, 2, 3, 3, 3, 4, 5, 6, 7, 8, 9, 10, 11]), draw)
    if kind == 4:
        return [0x8B000000 | one << 16 | two << 5 | draw.randrange(8),
                move(two, draw.randrange(65536))]
    if kind < 10:
        return accesses(kind, one, two, draw)
    if kind == 10:
        return [0xB4000000 | draw.randrange(1, 4) << 5 | one]  # CBZ, forwards
    return [draw.choice([BREAK, draw.getrandbits(32), NOTHING, NOTHING, NOTHING, NOTHING])]


def program(draw: random.Random) -> bytes:
    """A random program: pieces, some of them repeated, and an exit."""
    words = [0xD10403FF]  # SUB sp, sp, 256
    for pointer in range(19, 23) if draw.random() < 0.8 else ():
        words += [move(0, 300), move(8, 3), SVC, 0xAA0003E0 | pointer]  # MOV x19..x22, x0
    for _ in range(draw.randrange(2, 14)):
        body = piece(draw) + (piece(draw) if draw.random() < 0.5 else [])
        if draw.random() < 0.25:
            back = 0xB5000000 | (-(len(body) + 1) & 0x7FFFF) << 5 | 17
            body = [move(17, draw.randrange(1, 40)), *body, 0xD1000631, back]
        words += body
    made: bytes = image(words + [move(0, draw.randrange(256)), move(8, 0), SVC])
    return made


def options(path: str, draw: random.Random) -> list[str]:
    """Random options of a tenant alone."""
    words = ["--steps", str(STEPS), "--last", "0", "--seed", f"{draw.getrandbits(64):x}"]
    if draw.random() < 0.3:
        words += ["--input", path]
    if draw.random() < 0.3:
        words += ["--async"]
    if draw.random() < 0.3:
        lengths = [0, 1, 7, 50, 400, 1000, 3000]
        slices = [str(draw.choice(lengths)) for _ in range(draw.randrange(1, 9))]
        words += ["--slices", ",".join(slices)]
    return words


def new_point(kind: int, draw: random.Random) -> bytes:
    """A breakpoint or a watchpoint somewhere."""
    if kind == 0:
        return b"%d,%x,4" % (draw.randrange(2), ENTRY + 4 * draw.randrange(80))
    where = draw.choice([STACK + 0x3F00 + 8 * draw.randrange(32),
                         0x12000000 + 8 * draw.randrange(64), ENTRY])
    return b"%d,%x,%x" % (draw.randrange(2, 5), where, draw.choice([1, 8, 64]))


def move_once(front: Front, draw: random.Random) -> None:
    """A step, a run or a return; behind an exit it goes back."""
    stop = front.ask(draw.choice([b"vCont;s:p1.1", b"vCont;c:p1.-1", b"bs", b"bc", b"bs",
                                  b"vCont;r10000,10040:p1.1"]))
    if stop[:1] != b"T":
        assert stop[:1] == b"W", stop
        front.ask(b"bs")


def roam(front: Front, draw: random.Random) -> int:
    """Random stops, steps and returns; returns how many."""
    points, moves = [], draw.randrange(1, 25)
    for _ in range(moves):
        kind = draw.randrange(8)
        if kind < 2:
            points.append(new_point(kind, draw))
            assert front.ask(b"Z" + points[-1]) == b"OK"
        elif kind == 2 and points:
            assert front.ask(b"z" + points.pop(draw.randrange(len(points)))) == b"OK"
        else:
            move_once(front, draw)
    assert [front.ask(b"z" + it) for it in points] == [b"OK"] * len(points)
    return moves


def ends(front: Front) -> tuple[bytes, bytes]:
    """Continues to the end: the last stop, and the number of steps."""
    stop = front.ask(b"vCont;c:p1.-1")
    while stop.startswith(STOPS):
        stop = front.ask(b"vCont;c:p1.-1")
    return stop, front.ask(b"p23")


def without_story(console: bytes, why: bytes) -> bytes:
    """The user's text without what the front itself said of ends: the tenant's output."""
    mark = b"\ninstruction at "
    told = why[: why.index(mark) + 1] if mark in why else why
    console = console.replace(told, b"") if told else console
    for first, last in SENTENCES:
        parts = console.split(first)
        console = parts[0] + b"".join(it.partition(last)[2] for it in parts[1:])
    return console


def difference(stop: bytes, plain: "subprocess.CompletedProcess[bytes]", why: bytes) -> str:
    """How a debugged end differs from a plain one; empty where it does not."""
    if stop[:1] == b"W":
        is_same = int(stop[1:3], 16) == plain.returncode
        return "" if is_same else f"{stop!r} for {plain.returncode}"
    if not stop.startswith(SIGNALS.get(plain.returncode, (b"-",))):
        return f"{stop!r} for {plain.returncode}"
    is_same = plain.stderr.replace(CUT, b"").startswith(why)
    return "" if is_same else f"reports: {plain.stderr!r} and {why!r}"


def compare(path: str, words: Sequence[str], program_path: str, draw: random.Random) -> str:
    """How the two runs end where they end alike, or what differs."""
    plain = subprocess.run([program_path, *words, path], capture_output=True, timeout=600)
    if plain.returncode == 136:
        return "refused"
    front = Front([program_path, "--gdb", *words, path])
    roam(front, draw)
    stop, _ = ends(front)
    output, front.console = front.console, b""
    why = front.ask_user("why")
    status, said = front.end()
    if status != 0 or said:
        return f"the front ended with {status}: {said!r}"
    if without_story(output, why) != plain.stdout:
        return f"output: {plain.stdout!r} and {output!r}"
    kind = "exits" if stop[:1] == b"W" else f"ends by {stop[:3].decode()}"
    return difference(stop, plain, why) or kind


def kept_image(seed: int, number: int, path: str) -> str:
    """A copy of an image that is to be looked at."""
    os.makedirs("differ", exist_ok=True)
    kept = f"differ/{seed}.{number}.elf"
    pathlib.Path(kept).write_bytes(pathlib.Path(path).read_bytes())
    return kept


def main() -> int:
    """The command line."""
    program_path, counted, seeded, *images = command_line.read_words(__doc__, 3)
    count, seed = int(counted), int(seeded)
    draw = random.Random(seed)
    kinds: collections.Counter[str] = collections.Counter()
    with tempfile.TemporaryDirectory() as work:
        for number in range(len(images) + count):
            path = images[number] if number < len(images) else f"{work}/random.elf"
            if number >= len(images):
                pathlib.Path(path).write_bytes(program(draw))
            words = options(path, draw)
            kind = compare(path, words, program_path, draw)
            if kind not in ("exits", "refused") and not kind.startswith("ends by"):
                print(f"{' '.join(words)} {kept_image(seed, number, path)}: {kind}", flush=True)
                kind = "differs"
            kinds[kind] += 1
    print("".join(f"{times} {kind}\n" for kind, times in sorted(kinds.items())), end="")
    return 1 if kinds["differs"] else 0


if __name__ == "__main__":
    sys.exit(main())
