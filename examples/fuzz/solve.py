#!/usr/bin/env python3
"""Solves comparisons of a tenant, for a fuzzer that is not told them.

    solve.py IMAGE CORPUS [--dictionary FILE] [--rounds N] [--seed HEX] [--pages N]

Runs each input of the folder CORPUS. Where an operand of a comparison stands in the input, or a
text of a call of memcmp, strcmp and such, the other one is put in its place. What reaches new edges
is written to CORPUS as solved-.., what crashes as crash-.., and is run in the next of N rounds (4).
FILE gets a dictionary of the operands and texts that inputs were compared with. The package of
Python is found as docs/PYTHON.md says. Needed (Debian): llvm.
"""
import hashlib
import itertools
import pathlib
import shutil
import subprocess
import sys
from collections.abc import Iterator

HERE = pathlib.Path(__file__).resolve().parent
sys.path[:0] = [str(HERE.parent / "embed"), str(HERE.parent)]
from command_line import Parser  # noqa: E402
from tombolopan import Compared, Comparison, Fuzz  # noqa: E402

# Functions that compare texts of a length, and those that end at a zero.
SIZED = ("memcmp", "bcmp", "strncmp", "strncasecmp")
ENDED = ("strcmp", "strcoll", "strcasecmp", "strstr", "strcasestr")
TEXT, PLACES, LEAST, SETUP = 64, 4, 3, 10_000_000
Pair = tuple[bytes, bytes]


def functions(image: pathlib.Path) -> dict[int, str]:
    """The names of functions that compare texts, by their addresses."""
    told = subprocess.run(["llvm-nm", "--defined-only", str(image)], stdout=subprocess.PIPE,
                          stderr=subprocess.DEVNULL, text=True, check=False).stdout
    lines = (line.split() for line in told.splitlines())
    return {int(it[0], 16): it[2] for it in lines if it[2] in SIZED + ENDED}


def forms(left: int, right: int, most: int) -> Iterator[Pair]:
    """Two numbers as bytes, in each length that both fit."""
    for width in (1, 2, 4, 8):
        if width <= most and max(left, right) < 1 << 8 * width:
            yield left.to_bytes(width, "little"), right.to_bytes(width, "little")
            yield left.to_bytes(width, "big"), right.to_bytes(width, "big")


def numbers(it: Comparison) -> Iterator[Pair]:
    """The operands of an instruction. An addition compares with the opposite number."""
    right = it.right
    if it.kind in (Compared.ADDS, Compared.CCMN):
        right = -right % (1 << 8 * it.width)
    if it.kind not in (Compared.ANDS, Compared.TBZ):
        yield from forms(it.left, right, it.width)
        yield from forms(right, it.left, it.width)


def replaced(text: bytes, had: bytes, wanted: bytes) -> Iterator[bytes]:
    """An input with some bytes in the place of others: the first places of these."""
    places = (at for at in range(len(text)) if text.startswith(had, at))
    for at in itertools.islice(places, PLACES):
        yield text[:at] + wanted + text[at + len(had):]


class Solver:
    """A tenant, and what its inputs have reached."""

    def __init__(self, fuzz: Fuzz, names: dict[int, str]) -> None:
        self.fuzz, self.addresses, self.names = fuzz, list(names), list(names.values())
        self.reached: set[int] = set()
        self.tried: set[bytes] = set()
        self.words: set[bytes] = set()

    def pairs(self, text: bytes) -> Iterator[Pair]:
        """What an input has, and what it was compared with, as bytes."""
        _, compared = self.fuzz.compare(text, functions=self.addresses, room=16384)
        for it in compared:
            is_call = it.kind == Compared.CALL
            yield from self.texts(text, it) if is_call else numbers(it)

    def texts(self, text: bytes, call: Comparison) -> Iterator[Pair]:
        """The texts of a call, as they were then."""
        self.fuzz.run(text, slices=[call.step - 1])
        left, right = self.read(call.left), self.read(call.right)
        if self.names[call.width] in SIZED:
            left, right = left[:call.length], right[:call.length]
        if self.names[call.width] in ("memcmp", "bcmp"):
            yield left, right
            yield right, left
        left, right = left.split(b"\0")[0], right.split(b"\0")[0]
        yield left, right
        yield right, left

    def read(self, address: int) -> bytes:
        """The bytes at an address, up to the end of its page if no other follows."""
        for length in (TEXT, min(TEXT, 4096 - address % 4096)):
            try:
                return self.fuzz.read(address, length)
            except LookupError:
                pass
        return b""

    def is_new(self) -> bool:
        """Whether the last run takes an edge that none did, or more often."""
        edges = {place << 4 | count.bit_length() for place, count in enumerate(self.fuzz.counts)
                 if count}
        has_more = not edges <= self.reached
        self.reached |= edges
        return has_more

    def solved(self, text: bytes) -> Iterator[bytes]:
        """Inputs with one operand in the place of another."""
        for had, wanted in sorted(set(self.pairs(text))):
            if any(had) and had != wanted:
                if wanted not in text and len(wanted) >= LEAST:
                    self.words.add(wanted)
                yield from replaced(text, had, wanted)

    def keep(self, text: bytes, corpus: pathlib.Path) -> bool:
        """Runs an input, and writes it where it is of use. Whether it may lead further."""
        if text in self.tried:
            return False
        self.tried.add(text)
        run = self.fuzz.run(text)
        is_new = self.is_new()
        if is_new:
            kind = "crash" if run.is_crash else "solved"
            (corpus / f"{kind}-{hashlib.sha1(text).hexdigest()}").write_bytes(text)
        return is_new and not run.is_crash


def write_words(words: set[bytes], path: pathlib.Path) -> None:
    """Writes a dictionary, as AFL++ and libFuzzer read it."""
    lines = ("".join(f"\\x{byte:02x}" for byte in word) for word in sorted(words))
    path.write_text("".join(f'"{line}"\n' for line in lines))


def main() -> None:
    """The command line."""
    parser = Parser(__doc__)
    parser.add_argument("image", type=pathlib.Path)
    parser.add_argument("corpus", type=pathlib.Path)
    parser.add_argument("--dictionary", type=pathlib.Path)
    parser.add_argument("--rounds", type=int, default=4)
    parser.add_argument("--seed", default="1")
    parser.add_argument("--pages", type=int, default=256)
    wanted = parser.parse_args()
    if not shutil.which("llvm-nm"):
        sys.exit("solve.py: llvm-nm is not there (Debian: llvm)")
    texts = [it.read_bytes() for it in sorted(wanted.corpus.iterdir()) if it.is_file()]
    with Fuzz(wanted.image.read_bytes(), setup=[SETUP], seed=int(wanted.seed, 16),
              pages=wanted.pages) as fuzz:
        solver = Solver(fuzz, functions(wanted.image))
        for text in texts:
            fuzz.run(text)
            solver.is_new()
        for _ in range(wanted.rounds):
            texts = [new for text in texts for new in solver.solved(text)
                     if solver.keep(new, wanted.corpus)]
    if wanted.dictionary:
        write_words(solver.words, wanted.dictionary)
    print(f"{len(solver.tried)} inputs tried, {len(solver.words)} words")


if __name__ == "__main__":
    main()
