"""Runs a drawn program by `mte_run`: by its trace, and checked."""

import json
import pathlib
import re
from dataclasses import dataclass
from typing import Any, Optional

from tests.reference.moments import Moment, moments
from tests.support.instructions import program
from tests.support.running import Word, run

# What a program may read.
INPUT = bytes(range(1, 60))


@dataclass(frozen=True)
class Verdict:
    """What `mte_run` says of a run that is checked: the step and the kind of a finding, or none."""

    step: int
    name: Optional[str]
    address: int
    document: dict[str, Any]
    text: str

    @property
    def origins(self) -> frozenset[tuple[str, int]]:
        """The heap calls that the chunks of its cause were made by, or the address of the
        instruction that moved SP."""
        made = {("chunk", it["allocated"]["number"]) for it in self.document["chunks"]
                if it["allocated"]}
        moved = re.findall(r"^  SP was moved there by 0x([0-9a-f]+)$", self.text, re.M)
        return frozenset(made | {("stack", int(it, 16)) for it in moved})


@dataclass(frozen=True)
class Runner:
    """The program mte_run, and a folder for its files."""

    alone: pathlib.Path
    folder: pathlib.Path

    def prepare(self, words: list[int]) -> list[Word]:
        """Writes an image and its input; the words of a command without options."""
        (self.folder / "tenant.elf").write_bytes(program(words))
        (self.folder / "input").write_bytes(INPUT)
        return ["--input", self.folder / "input", self.folder / "tenant.elf"]

    def trace(self, words: list[int], *options: str) -> tuple[list[Moment], dict[str, Any]]:
        """Each instruction of a run that nothing checks, and what --json writes of it."""
        files = [self.folder / "trace", self.folder / "trace.json"]
        run([self.alone, "--last", "0", *options, "--trace", "--trace-file", files[0], "--json",
             files[1], *self.prepare(words)])
        document: dict[str, Any] = json.loads(files[1].read_text(encoding="utf-8"))
        return list(moments(files[0].read_text(encoding="utf-8"))), document

    def check(self, words: list[int], kinds: str) -> Verdict:
        """What --check says of it."""
        file = self.folder / "checked.json"
        ran = run([self.alone, f"--check={kinds}", "--json", file, *self.prepare(words)])
        document = json.loads(file.read_text(encoding="utf-8"))
        status = document["status"]
        is_found = status["kind"] == "check"
        return Verdict(document["steps"], status["name"] if is_found else None,
                       int(status["address"], 16) if is_found else 0, document, ran.errors)
