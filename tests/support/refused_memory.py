"""Runs a program of which one allocation is refused, each in turn."""

import pathlib
from collections.abc import Mapping, Sequence
from dataclasses import dataclass

from tests.support.once import make_once
from tests.support.places import TESTS
from tests.support.running import Ran, Word, run, succeed
from tests.support.tools import need


@dataclass(frozen=True)
class Preloaded:
    """A program, with the library in front of it that refuses one allocation."""

    program: pathlib.Path
    library: pathlib.Path
    folder: pathlib.Path

    @property
    def out_of_memory(self) -> Ran:
        """What comes of a run that ends for want of memory."""
        return Ran(4, b"", f"{self.program.name}: out of memory\n".encode())

    def run(self, words: Sequence[Word], refused: int) -> Ran:
        """Runs it where the allocation with this number is refused; 0 refuses none."""
        extra: Mapping[str, str] = {
            "LD_PRELOAD": str(self.library), "REFUSE": str(refused),
            "COUNT": str(self.folder / "count"),
        }
        return run([self.program, *words], cwd=self.folder, extra=extra)

    def counted(self) -> int:
        """How many allocations the last run made."""
        return int((self.folder / "count").read_text())


def preload(program: pathlib.Path, shared: pathlib.Path, folder: pathlib.Path) -> Preloaded:
    """A program with its allocations at hand, that is run in a folder."""
    need("cc")

    def compile_library(path: pathlib.Path) -> None:
        source = TESTS / "support" / "refuse_allocations.c"
        succeed(["cc", "-shared", "-fPIC", "-O2", "-Wall", "-Wextra", "-Werror", "-o", path,
                 source])

    library = make_once(shared / "refuse_allocations.so", compile_library)
    return Preloaded(program, library, folder)


def refuse_each(preloaded: Preloaded, words: Sequence[Word]) -> tuple[Ran, int, int]:
    """The run that is refused nothing, how many allocations it makes, and how many of the runs
    that are refused one of these end by it.

    Any other has to write the whole report: where a list that was to grow was refused more room
    than it needs, and then got what it needs.
    """
    whole = preloaded.run(words, 0)
    made = preloaded.counted()
    ended = 0
    for number in range(1, made + 1):
        ran = preloaded.run(words, number)
        if ran == preloaded.out_of_memory:
            ended += 1
        else:
            assert ran == whole, f"allocation {number} of {made}"
    return whole, made, ended
