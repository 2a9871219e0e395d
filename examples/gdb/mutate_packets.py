#!/usr/bin/env python3
"""Sends a front mutated streams of packets, and counts what came of them. A stream that a signal
ended or that took longer than a minute, or one of whose packets was not answered, is kept in the
folder `mutated` and told.

    mutate_packets.py PROGRAM COUNT SEED IMAGE...       PROGRAM is mte_run
"""

import collections
import os
import pathlib
import random
import subprocess
import sys
from collections.abc import Sequence
from typing import Optional

sys.path.insert(0, str(pathlib.Path(__file__).resolve().parent.parent))
import command_line  # noqa: E402
from packets import frame  # noqa: E402

SMAPS, OTHER = (path.encode().hex().encode() for path in ("/proc/1/smaps", "/etc/passwd"))
SENT = [
    b"?", b"g", b"p20", b"p24", b"P0=0500000000000000", b"G0500", b"m10000,40", b"m400000,40",
    b"x10000,10", b"M10000,1:00", b"X10000,2:ab", b"X10000,0:", b"c", b"s", b"C0b", b"S05",
    b"vCont?", b"vCont;c:p1.-1", b"vCont;s:p1.1", b"vCont;r10000,10010:p1.1;c:p1.-1", b"vCont;t",
    b"bs", b"bc", b"Z0,10010,4", b"z0,10010,4", b"Z1,400200,4", b"Z2,3fffff00,8", b"z2,3fffff00,8",
    b"Z3,12000010,8", b"Z4,3ffffff0,10", b"z4,3ffffff0,10", b"Z9,0,0", b"Hg0", b"Hcp1.-1", b"Tp1.1",
    b"vMustReplyEmpty", b"qSupported:swbreak+;hwbreak+;xmlRegisters=i386", b"qSupported",
    b"qXfer:features:read:target.xml:0,ffb", b"qXfer:siginfo:read::0,80",
    b"qXfer:exec-file:read:1:0,ffb", b"qMemTags:12000010,1:1", b"qMemTags:3ffffff0,100:1",
    b"QMemTags:12000010,1:1:01", b"vFile:setfs:0", b"vFile:open:" + SMAPS + b",0,0",
    b"vFile:open:" + OTHER + b",0,0", b"vFile:pread:3,4000,0", b"vFile:fstat:3", b"vFile:close:3",
    b"vFile:readlink:" + SMAPS, b"qC", b"qfThreadInfo", b"qsThreadInfo", b"qAttached:1",
    b"qOffsets", b"qSymbol::", b"qTStatus", b"QStartNoAckMode", b"qRcmd,776879",
    b"qRcmd,63616c6c73", b"qRcmd,73746570", b"qRcmd," + b"chunk 0x12000010".hex().encode(),
    b"qRcmd,68656c70", b"qRcmd," + b"goto 5".hex().encode(), b"!", b"vRun;", b"vRun;612e656c66;31",
    b"",
]
# Those that a front must refuse or leave unanswered, in whatever state it is.
MALFORMED = [
    b"m", b"mzz,4", b"m0", b"Z0", b"p", b"pzzzz", b"P1", b"qMemTags:1", b"QMemTags:0,10:1:",
    b"vFile:open:zz,0,0", b"vFile:pread:99,10,0", b"qXfer:features:read:x:0", b"vCont;r1",
    b"qRcmd,zz", b"G00", b"H", b"T",
]
ENDS = (b"k", b"D", b"vKill")
WELL = ("damaged frames, ended well", "each packet answered")


def mutated(sent: bytes, draw: random.Random) -> bytes:
    """The data with a few bytes changed, cut, doubled or lengthened."""
    data = bytearray(sent)
    for _ in range(draw.choice([0, 0, 1, 1, 2, 5])):
        kind, at = draw.randrange(6), draw.randrange(len(data) + 1)
        if kind == 0 and at < len(data):
            data[at] ^= 1 << draw.randrange(8)
        elif kind == 1 and at < len(data):
            data[at] = draw.choice(b"0f,:;=.-pz#$}*\x03\x00\xff")
        elif kind == 2:
            del data[at : at + draw.randrange(4)]
        elif kind == 3:
            data[at:at] = draw.choice(
                [b"ffffffffffffffff", b"10000000000000000", b"-1", b"0", b",", b";", b":"]
            )
        elif kind == 4:
            data[at:at] = data[at : at + 8]
        else:
            data[at:at] = draw.randbytes(draw.randrange(9))
    return bytes(data)


def stream_of(draw: random.Random) -> tuple[bytes, Optional[int]]:
    """A stream, and how many packets of it are to be answered; None where frames are damaged."""
    payloads = [mutated(draw.choice(MALFORMED if draw.random() < 0.2 else SENT), draw)
                for _ in range(draw.randrange(1, 30))]
    payloads = [it for it in payloads if not it.startswith(ENDS)]
    stream = b"".join(draw.choice([b"", b"", b"+", b"\x03"]) + frame(it) for it in payloads)
    if draw.random() < 0.3:
        return mutated(mutated(stream, draw), draw), None
    return stream, len(payloads)


def answers_in(out: bytes) -> int:
    """How many packets were answered: those that tell the user something do not count."""
    count = 0
    for piece in out.split(b"$")[1:]:
        data = piece.split(b"#")[0]
        count += data == b"OK" or data[:1] != b"O"
    return count


def kind_of(words: Sequence[str], stream: bytes, wanted: Optional[int]) -> str:
    """What came of a stream."""
    try:
        ran = subprocess.run(words, input=stream, capture_output=True, timeout=600)
    except subprocess.TimeoutExpired:
        return "hung"
    if ran.returncode != 0 or ran.stderr:
        return f"status {ran.returncode}"
    if wanted is None:
        return "damaged frames, ended well"
    return "each packet answered" if answers_in(ran.stdout) == wanted else "not answered"


def main() -> int:
    """The command line."""
    program, counted, seeded, *images = command_line.read_words(__doc__, 4)
    count, seed = int(counted), int(seeded)
    draw = random.Random(seed)
    kinds: collections.Counter[str] = collections.Counter()
    for number in range(count):
        stream, wanted = stream_of(draw)
        words = [program, "--gdb", "--steps", "3000", draw.choice(images)]
        if draw.random() < 0.2:
            words.insert(1, "--async")
        kind = kind_of(words, stream, wanted)
        kinds[kind] += 1
        if kind not in WELL:
            os.makedirs("mutated", exist_ok=True)
            path = f"mutated/{seed}.{number}"
            pathlib.Path(path).write_bytes(stream)
            print(f"{kind}: {' '.join(words)} < {path}", flush=True)
    print("".join(f"{times} {kind}\n" for kind, times in sorted(kinds.items())), end="")
    return 1 if set(kinds) - set(WELL) else 0


if __name__ == "__main__":
    sys.exit(main())
