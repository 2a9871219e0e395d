"""Runs of the acts of an image, with all that mte_run tells of each."""

import json
import pathlib
from dataclasses import dataclass
from functools import cached_property
from typing import Any

from tests.support.acts import ASYNC, LIMIT, NOT_ENDED, Act, acts_of
from tests.support.chunk_model import ChunkModel
from tests.support.running import Ran
from tests.support.told import Frame, Told, explain, read_told
from tests.support.traces import Step, read_trace

REQUESTED = ("--statistics", "--leaks", "--calls", "65536", "--map", "text", "--trace")


@dataclass
class Explained:
    """An act of an image: what was told of it, its whole trace and its JSON."""

    act: Act
    build: str
    ran: Ran
    trace: str
    json_text: str

    @cached_property
    def told(self) -> Told:
        """The values of standard error."""
        return read_told(self.ran.errors)

    @cached_property
    def steps(self) -> list[Step]:
        """The instructions of the trace."""
        return read_trace(self.trace)

    @cached_property
    def json(self) -> dict[str, Any]:
        """The object of --json."""
        value: dict[str, Any] = json.loads(self.json_text)
        return value

    @property
    def status(self) -> dict[str, Any]:
        """How it ended, by its JSON."""
        return dict(self.json["status"])

    @cached_property
    def model(self) -> ChunkModel:
        """The chunks, by the services of the trace."""
        return ChunkModel((step.number, step.service) for step in self.steps if step.service)

    @property
    def has_failed_last(self) -> bool:
        """Whether the last instruction of the trace is the one that is told of."""
        return self.act.status not in (ASYNC, LIMIT, NOT_ENDED)

    @property
    def lists(self) -> list[list[Frame]]:
        """The lists of calls that led to the end, to the heap calls and to the store behind a jump,
        in their order."""
        stores = [self.told.store] if self.told.store_step else []
        return [self.told.end, *(call.frames for call in self.told.calls), *stores]

    @cached_property
    def addresses(self) -> list[list[int]]:
        """The addresses of these calls, by the command that is told last."""
        left = [int(word, 16) for word in self.told.symbolizer[3:]]
        taken = []
        for frames in self.lists:
            taken.append(left[: len(frames)])
            left = left[len(frames):]
        assert not left, "the command has more addresses than there are calls"
        return taken


@dataclass
class ImageActs:
    """An image, and runs of all acts of its tenant."""

    source: str
    build: str
    runs: list[Explained]


def run_act(
    alone: pathlib.Path, act: Act, build: str, folder: pathlib.Path, *options: str,
) -> Explained:
    """Runs an act with all that is told on request."""
    trace, told = folder / "trace", folder / "json"
    words = ("--trace-file", str(trace), "--json", str(told), *REQUESTED, *options)
    ran = explain(alone, act, build, folder, *words)
    return Explained(act, build, ran, trace.read_text(), told.read_text())


def run_acts(
    alone: pathlib.Path, source: str, build: str, folder: pathlib.Path,
) -> ImageActs:
    """Runs all acts of an image."""
    runs = [run_act(alone, act, build, folder) for act in acts_of(source)]
    return ImageActs(source, build, runs)
