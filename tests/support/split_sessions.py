"""A session in parts by mte_split."""

import hashlib
import pathlib
import random
import re
from collections.abc import Sequence
from dataclasses import dataclass

from tests.support.embedding.folders import words_of
from tests.support.running import Ran, Word, run

LEDGER = "ledger"
# What the last line of a part has: a word, a blank, the digits and the end.
LAST_LINE = 4 + 64 + 1


def resealed(text: bytes) -> bytes:
    """A part that was changed, with the sum of what it is now: no accident does this."""
    kept = text[:-LAST_LINE]
    return kept + b"sum " + hashlib.sha256(kept).hexdigest().encode() + b"\n"


def admitted(ledger: Ran) -> list[str]:
    """The tenants that a ledger admits, in their order."""
    return re.findall(r"^admitted (\d+) \d+$", ledger.output, re.M)


@dataclass(frozen=True)
class SplitSession:
    """A session in a folder, with the words of mte_host in `args`, and a folder for its parts."""

    split: pathlib.Path
    folder: pathlib.Path
    parts: pathlib.Path

    def words(self, *options: str) -> list[Word]:
        """The command of a part."""
        return [self.split, *options, *words_of(self.folder)]

    def make(self, *options: str) -> Ran:
        """Makes a part."""
        return run(self.words(*options), cwd=self.folder)

    def write_parts(self) -> list[str]:
        """Makes all parts, and gives their names: the ledger, and then each tenant's."""
        ledger = self.make("--list")
        assert (ledger.status, ledger.errors) == (0, "")
        made = {LEDGER: ledger.out}
        for number in admitted(ledger):
            part = self.make("--tenant", number)
            assert (part.status, part.errors) == (0, "")
            made[f"tenant-{number}"] = part.out
        self.parts.mkdir(exist_ok=True)
        for name, text in made.items():
            (self.parts / name).write_bytes(text)
        return list(made)

    def merge(self, names: Sequence[str]) -> Ran:
        """Puts parts together."""
        return run([self.split, "--merge", *names], cwd=self.parts)

    def shuffled(self, names: Sequence[str], seed: int) -> list[str]:
        """The names in another order."""
        found = list(names)
        random.Random(seed).shuffle(found)
        return found
