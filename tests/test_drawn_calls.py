"""Drawn sequences of calls of the Python package, each made beside a model of the object
(tests/support/drawn_calls.py): a memory, a heap, a session, a machine and a core, with wrong
arguments, copies and pickles in between; the sessions also by `mte_host`. TOMBOLOPAN_DRAWN is how
many objects of each kind are drawn, with 40 calls each, a memory with 200."""

import os
import pathlib
import sys

import pytest

from tests.support import library
from tests.support.embedding.built import EMBED
from tests.support.places import ROOT
from tests.support.running import run, succeed

DRAWN = int(os.environ.get("TOMBOLOPAN_DRAWN", "60"))
# Kinds of answers that 60 objects reach, each at least three times.
LEAST = 3
REACHED = {
    "memory": {
        "map", "unmap", "protect", "read", "write", "load", "peek", "load_tag", "store_tags",
        "exchange", "ValueError", "TypeError", "Fault Translation", "Fault Permission",
        "Fault TagCheck", "Fault Alignment", "MappingError page already mapped",
        "MappingError page not mapped", "MappingError no room",
    },
    "heap": {"ok", "fault", "heap abort", "ValueError", "TypeError"},
    "session": {"tenant ok", "tenant KeyError", "ValueError", "TypeError"},
    "machine": {"slice", "set", "read", "write", "spoil"},
    "core": {"ok", "stopped", "fault", "breakpoint", "illegal instruction"},
}


def drawn(shared: pathlib.Path, kind: str, folder: pathlib.Path) -> set[str]:
    """What drawn objects of a kind have reached often enough."""
    path = os.pathsep.join(map(str, (EMBED, ROOT)))
    ran = succeed(
        [sys.executable, "-B", "-m", "tests.support.drawn_calls", kind, "1", str(DRAWN), folder],
        cwd=ROOT,
        extra={"PYTHONPATH": path, "TOMBOLOPAN": str(library.shared_object(shared))})
    rows = (line.split(" ", 1) for line in ran.output.splitlines())
    return {name for times, name in rows if int(times) >= LEAST}


@pytest.mark.parametrize("kind", ["memory", "heap", "machine", "core"])
def test_calls_are_those_of_a_model(
    shared: pathlib.Path, tmp_path: pathlib.Path, kind: str
) -> None:
    """What each call answers or raises, and what is there in the end, is the model's; a wrong
    argument raises ValueError or TypeError and changes nothing."""
    found = drawn(shared, kind, tmp_path)
    assert DRAWN < 60 or REACHED[kind] <= found, REACHED[kind] - found


def test_sessions_are_those_of_mte_host(
    shared: pathlib.Path, tmp_path: pathlib.Path, host: pathlib.Path
) -> None:
    """The report of events that were entered one by one is what mte_host writes of the script."""
    found = drawn(shared, "session", tmp_path)
    assert DRAWN < 60 or REACHED["session"] <= found, REACHED["session"] - found
    folders = sorted(tmp_path.iterdir())
    assert len(folders) == DRAWN
    for folder in folders:
        names = sorted((it.name for it in folder.iterdir() if it.name.isdigit()), key=int)
        frames = (folder / "frames").read_text(encoding="utf-8")
        ran = run([host, "--frames", frames, "script", *names], cwd=folder)
        assert (ran.status, ran.err) == (0, b"")
        assert ran.out == (folder / "report").read_bytes(), folder
