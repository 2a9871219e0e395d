"""A client of GDB's remote serial protocol over a program's standard input and output."""

import subprocess
from collections.abc import Sequence
from typing import IO


class Ended(Exception):
    """The program closed its output."""


class Front:
    """A front that was started, with acknowledgements off unless they are wanted."""

    def __init__(self, words: Sequence[str], acknowledges: bool = False) -> None:
        self.process = subprocess.Popen(
            words, stdin=subprocess.PIPE, stdout=subprocess.PIPE, stderr=subprocess.PIPE
        )
        assert self.process.stdin and self.process.stdout and self.process.stderr
        self.given: IO[bytes] = self.process.stdin
        self.out: IO[bytes] = self.process.stdout
        self.errors: IO[bytes] = self.process.stderr
        self.console = b""
        # The last answer that tells why it stands still.
        self.stopped = b""
        self.acknowledges = True
        if not acknowledges:
            self.ask(b"QStartNoAckMode")
            self.acknowledges = False

    def byte(self) -> bytes:
        """The next byte of its output."""
        got = self.out.read(1)
        if not got:
            raise Ended
        return got

    def packet(self) -> bytes:
        """The next packet's data, without their escapes."""
        while self.byte() != b"$":
            pass
        data = bytearray()
        while True:
            got = self.byte()
            if got == b"#":
                break
            data += bytes([self.byte()[0] ^ 0x20]) if got == b"}" else got
        self.out.read(2)
        return bytes(data)

    def send(self, stream: bytes) -> None:
        """Sends bytes as they are."""
        self.given.write(stream)
        self.given.flush()

    def ask(self, data: bytes) -> bytes:
        """The answer to a packet. What is for the user is kept in `console`."""
        self.send(frame(data))
        while True:
            answer = self.packet()
            if not (answer[:1] == b"O" and answer != b"OK"):
                self.stopped = answer if answer[:1] in (b"T", b"W", b"X") else self.stopped
                return answer
            self.console += bytes.fromhex(answer[1:].decode())

    def ask_user(self, text: str) -> bytes:
        """What a user's command tells."""
        self.console = b""
        self.ask(b"qRcmd," + text.encode().hex().encode())
        told, self.console = self.console, b""
        return told

    def end(self) -> tuple[int, bytes]:
        """Closes its input, and returns its exit status and standard error."""
        self.given.close()
        said = self.errors.read()
        self.out.read()
        status = self.process.wait(timeout=600)
        self.out.close()
        self.errors.close()
        return status, said


def frame(data: bytes) -> bytes:
    """A packet's data with their escapes and the frame."""
    escaped = bytearray()
    for byte in data:
        escaped += bytes([0x7D, byte ^ 0x20]) if byte in b"#$}*" else bytes([byte])
    return b"$" + bytes(escaped) + b"#%02x" % (sum(escaped) & 255)
