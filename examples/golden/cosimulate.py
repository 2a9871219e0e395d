#!/usr/bin/env python3
"""Runs a program under QEMU's user mode, step by step beside the library's tb_step, and tells the
first difference with the states of both.

    cosimulate.py [--steps N] [--cpu NAME] [--take-over] [--plant STEP REGISTER] PROGRAM [WORD...]

PROGRAM is a static program of Linux for AArch64. QEMU makes one instruction at a time, over its gdb
stub; behind each one registers, SP, PC and NZCV are compared, and the bytes that a store wrote, and
every 1,000 steps and at system calls all pages that may be written. Memory is taken from QEMU when
it is used first. What a system call leaves is QEMU's, and so is the tag of IRG, whose generator no
program sees; with --take-over also what words leave that are no instruction of the profile.
--plant flips the lowest bit of a register (x0 to x30) in QEMU behind a step. What PROGRAM writes
goes to standard error. A loop over exclusive accesses does not end, since QEMU's steps break them.

The exit status is 0 where both do the same up to the end, or up to the limit of --steps (100,000);
1 where they differ; 2 for a wrong command line. Needed: Debian's qemu-user, and the library
(TOMBOLOPAN).
"""
from __future__ import annotations

import argparse
import pathlib
import socket
import struct
import subprocess
import sys
import tempfile
import time
from dataclasses import dataclass, field

HERE = pathlib.Path(__file__).resolve().parent
sys.path[:0] = [str(HERE.parent / "embed"), str(HERE.parent)]
import tombolopan as tb  # noqa: E402
from command_line import Parser  # noqa: E402

PAGE, PLAIN, SECONDS, EVERY = 4096, (1 << 56) - 1, 20, 1000
# What the stub reads at once at most.
PIECE = 1024
REGISTERS = struct.Struct("<33QI")
# Signals of the answers to a step: what a program under Linux gets.
SIGNALS = {0x04: "illegal instruction", 0x05: "trap", 0x07: "fault", 0x0B: "fault"}
# How the library's step ends that QEMU tells as a signal.
ENDS = {"fault": "fault", "illegal instruction": "illegal instruction", "breakpoint": "trap"}
IRG_MASK, IRG = 0xFFE0FC00, 0x9AC01000


class Ended(Exception):
    """QEMU ended, or does not answer."""


class Stub:
    """QEMU's gdb stub, over a socket."""

    def __init__(self, words: list[str], path: pathlib.Path) -> None:
        self.process = subprocess.Popen(words, stdin=subprocess.DEVNULL, stdout=sys.stderr)
        self.socket = socket.socket(socket.AF_UNIX)
        self.socket.settimeout(SECONDS)
        self.held = b""
        for _ in range(10 * SECONDS):
            try:
                self.socket.connect(str(path))
                return
            except OSError:
                time.sleep(0.1)
        self.close()
        raise Ended("its gdb stub cannot be reached")

    def byte(self) -> int:
        """The next byte that it sends."""
        if not self.held:
            try:
                self.held = self.socket.recv(65536)
            except OSError as error:
                raise Ended(str(error)) from error
            if not self.held:
                raise Ended("it closed the connection")
        first, self.held = self.held[0], self.held[1:]
        return first

    def send(self, data: bytes) -> None:
        """Sends bytes as they are."""
        try:
            self.socket.sendall(data)
        except OSError as error:
            raise Ended(str(error)) from error

    def ask(self, text: str) -> str:
        """The answer to a packet."""
        data = text.encode()
        self.send(b"$%b#%02x" % (data, sum(data) % 256))
        while self.byte() != ord("$"):
            pass
        answer = bytearray()
        while (it := self.byte()) != ord("#"):
            answer.append(it)
        self.byte(), self.byte()
        self.send(b"+")
        return answer.decode()

    def registers(self) -> tb.Regs:
        """The registers as they are."""
        *x, sp, pc, flags = REGISTERS.unpack(bytes.fromhex(self.ask("g"))[:REGISTERS.size])
        return tb.Regs(x, sp=sp, pc=pc, nzcv=flags & 0xF0000000)

    def flip(self, number: int) -> None:
        """Flips the lowest bit of x0 to x30."""
        data = bytearray.fromhex(self.ask("g"))
        data[8 * number] ^= 1
        if self.ask(f"G{data.hex()}") != "OK":
            raise Ended("its registers cannot be written")

    def memory(self, address: int, length: int) -> bytes | None:
        """Bytes, or nothing where they are not mapped."""
        data = b""
        for at in range(address, address + length, PIECE):
            answer = self.ask(f"m{at:x},{min(PIECE, address + length - at):x}")
            if answer.startswith("E"):
                return None
            data += bytes.fromhex(answer)
        return data

    def step(self) -> str:
        """Makes an instruction: `next`, `exit` with a number, or what a signal tells."""
        answer = self.ask("s")
        if answer[:1] in "WX":
            return f"exit {int(answer[1:3], 16)}"
        name = SIGNALS.get(int(answer[1:3], 16), f"signal {int(answer[1:3], 16)}")
        return "next" if name == "trap" else name

    def close(self) -> None:
        """Ends it."""
        self.socket.close()
        self.process.kill()
        self.process.wait()


def segments(path: pathlib.Path) -> list[tuple[int, int, int]]:
    """The loaded segments of an ELF file: first and last page, and what may be done with them."""
    data = path.read_bytes()
    if data[:5] != b"\x7fELF\x02" or data[16:20] != b"\x02\x00\xb7\x00":
        sys.exit(f"cosimulate.py: {path} is no static program for AArch64")
    at, size, count = struct.unpack_from("<32xQ14xHH", data)
    found = []
    for each in range(count):
        kind, flags, _, address, _, _, length = struct.unpack_from("<IIQQQQQ", data,
                                                                   at + size * each)
        if kind == 1 and length:
            attrs = tb.READ * bool(flags & 4) | tb.WRITE * bool(flags & 2) | tb.EXEC * (flags & 1)
            found.append((address // PAGE, (address + length - 1) // PAGE, attrs))
    return found


@dataclass
class Core:
    """The library's side: registers, and what of QEMU's memory was used."""

    stub: Stub
    segments: list[tuple[int, int, int]]
    regs: tb.Regs
    memory: tb.Memory = field(default_factory=tb.Memory)
    pages: dict[int, int] = field(default_factory=dict)

    def attrs_of(self, number: int) -> int:
        """What may be done with a page: as its segment says, else reads and writes."""
        for first, last, attrs in self.segments:
            if first <= number <= last:
                return attrs
        return tb.READ | tb.WRITE

    def take(self, address: int) -> bool:
        """Takes a page over from QEMU; whether it is one that was not there."""
        number = (address & PLAIN) // PAGE
        data = None if number in self.pages else self.stub.memory(number * PAGE, PAGE)
        if data is None:
            return False
        self.pages[number] = self.attrs_of(number)
        self.memory.map(number * PAGE, PAGE, self.pages[number])
        self.memory.load(number * PAGE, data)
        return True

    def step(self) -> tuple[tb.Stop, list[tb.Access]]:
        """Makes an instruction over the memory that it needs, and tells its access."""
        accesses: list[tb.Access] = []
        self.take(self.regs.pc)
        stop = tb.trace_step(self.memory, self.regs, accesses)
        while stop.fault is not None and stop.fault.kind == "Translation" \
                and self.take(stop.fault.address):
            stop = tb.trace_step(self.memory, self.regs, accesses)
        return stop, accesses

    def word(self) -> int:
        """The instruction at PC, or 0."""
        self.take(self.regs.pc)
        is_there = (self.regs.pc & PLAIN) // PAGE in self.pages and self.regs.pc % 4 == 0
        return int.from_bytes(self.memory.peek(self.regs.pc, 4), "little") if is_there else 0

    def take_over(self, regs: tb.Regs) -> None:
        """Goes on with QEMU's registers and memory."""
        self.regs.restore(regs)
        for number in [it for it, attrs in self.pages.items() if attrs & tb.WRITE]:
            self.memory.unmap(number * PAGE, PAGE)
            del self.pages[number]

    def other_bytes(self, address: int, length: int) -> list[str]:
        """The first byte of a range that differs, if one does."""
        mine, theirs = self.memory.peek(address, length), self.stub.memory(address & PLAIN, length)
        if mine == theirs:
            return []
        at = next(i for i in range(length) if theirs is None or mine[i] != theirs[i])
        told = "not mapped" if theirs is None else f"{theirs[at]:#04x}"
        return [f"the byte at {(address & PLAIN) + at:#x} is {told} in QEMU, {mine[at]:#04x} by "
                "tb_step"]

    def other_pages(self) -> list[str]:
        """What differs of all pages that may be written."""
        return [line for number, attrs in sorted(self.pages.items()) if attrs & tb.WRITE
                for line in self.other_bytes(number * PAGE, PAGE)]


def values(regs: tb.Regs) -> dict[str, int]:
    """All registers by their names."""
    return {**{f"x{n}": it for n, it in enumerate(regs.x)}, "sp": regs.sp, "pc": regs.pc,
            "nzcv": regs.nzcv >> 28}


def other_registers(mine: tb.Regs, theirs: tb.Regs) -> list[str]:
    """In what registers differ."""
    pairs = zip(values(mine).items(), values(theirs).values())
    return [f"{name} is {other:#x} in QEMU, {own:#x} by tb_step"
            for (name, own), other in pairs if own != other]


def state_lines(title: str, regs: tb.Regs) -> list[str]:
    """A state, four registers a line."""
    texts = [f"{name} {value:#x}" for name, value in values(regs).items()]
    return [f"  {title}:", *(f"    {'  '.join(texts[at:at + 4])}" for at in range(0, 34, 4))]


@dataclass
class Pair:
    """Both sides, and what is asked for."""

    core: Core
    stub: Stub
    takes_over: bool
    plant: tuple[int, int] | None
    taken: int = 0

    def planted(self, number: int) -> None:
        """Flips a bit of QEMU's registers behind the step that was asked for."""
        if self.plant is not None and self.plant[0] == number:
            self.stub.flip(self.plant[1])

    def is_theirs(self, word: int, stop: tb.Stop) -> bool:
        """Whether what a step leaves is QEMU's alone."""
        return stop.code == "svc" or word & IRG_MASK == IRG or \
            (self.takes_over and stop.code == "illegal instruction")

    def compare(self, stop: tb.Stop, accesses: list[tb.Access], end: str) -> list[str]:
        """In what the two differ behind a step that QEMU ended so."""
        mine = "next" if stop.code == "ok" else ENDS[stop.code]
        if mine != end and not (mine == "trap" and end == "next"):
            return [f"QEMU's step ends with {end}, tb_step's with {stop.code}"]
        told = other_registers(self.core.regs, self.stub.registers())
        for it in accesses:
            if it.write:
                told += self.core.other_bytes(it.address, it.size)
        return told

    def step(self, number: int) -> tuple[str, list[str]]:
        """Makes a step: how the program ended, if it did, and what differs."""
        before, word = self.core.regs.copy(), self.core.word()
        stop, accesses = self.core.step()
        told = self.core.other_pages() if stop.code == "svc" else []
        end = self.stub.step()
        if end.startswith("exit"):
            told += [] if stop.code == "svc" else [f"QEMU ends, tb_step's code is {stop.code}"]
            return end, told
        self.planted(number)
        if self.is_theirs(word, stop):
            self.core.take_over(self.stub.registers())
            self.taken += 1
            return "", told
        told = self.compare(stop, accesses, end)
        if not told and number % EVERY == 0:
            told = self.core.other_pages()
        if told:
            told.insert(0, f"step {number}: {before.pc:#x}: {word:08x}")
            told += state_lines("before", before) + state_lines("tb_step", self.core.regs)
            told += state_lines("QEMU", self.stub.registers())
        return "" if stop.code == "ok" else str(stop.code), told


def run(pair: Pair, steps: int) -> int:
    """Makes steps up to the first difference; the exit status."""
    end, told, number = "", list[str](), 0
    while number < steps and not end and not told:
        number += 1
        end, told = pair.step(number)
    if not told and not end.startswith("exit"):
        told = pair.core.other_pages()
    if told:
        print("\n".join(told))
        return 1
    print(f"the same for {number} steps, {pair.taken} of them taken over"
          + (f"; both end: {end}" if end else ""))
    return 0


def arguments() -> argparse.Namespace:
    """Reads the command line."""
    parser = Parser(__doc__)
    parser.add_argument("--steps", type=int, default=100000)
    parser.add_argument("--cpu", default="max")
    parser.add_argument("--take-over", action="store_true")
    parser.add_argument("--plant", nargs=2, metavar=("STEP", "REGISTER"))
    parser.add_argument("program", type=pathlib.Path)
    parser.add_argument("words", nargs=argparse.REMAINDER)
    return parser.parse_args()


def main() -> int:
    """Starts QEMU, and compares."""
    options = arguments()
    plant = None
    if options.plant:
        step, register = options.plant
        if not (step.isdecimal() and register[:1] == "x" and register[1:].isdecimal()
                and int(register[1:]) < 31):
            print("cosimulate.py: --plant needs a number and x0 to x30", file=sys.stderr)
            return 2
        plant = int(step), int(register[1:])
    if not options.program.is_file():
        print(f"cosimulate.py: {options.program} is not there", file=sys.stderr)
        return 2
    parts = segments(options.program)
    with tempfile.TemporaryDirectory(prefix="cosimulate-") as folder:
        path = pathlib.Path(folder) / "stub"
        words = ["qemu-aarch64", "-cpu", options.cpu, "-g", str(path), str(options.program)]
        stub = None
        try:
            stub = Stub([*words, *options.words], path)
            stub.ask("?")
            core = Core(stub, parts, stub.registers())
            return run(Pair(core, stub, options.take_over, plant), options.steps)
        except (Ended, FileNotFoundError) as error:
            sys.exit(f"cosimulate.py: QEMU: {error}")
        finally:
            if stub is not None:
                stub.close()


if __name__ == "__main__":
    sys.exit(main())
