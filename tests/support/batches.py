"""Runs tools/batch: over the library, or over one that goes wrong."""

import importlib.util
import json
import pathlib
import sys
from collections.abc import Sequence
from dataclasses import dataclass
from typing import Any

from tests.support.places import EXAMPLES, ROOT
from tests.support.running import Ran, Word, run

BATCH = ROOT / "tools" / "batch"
# A tombolopan.py that goes wrong before some sessions: {act} has what it does with a session's
# frames, script and files.
FAULTY = """import os, pathlib, signal, sys, time
_faulty = sys.modules.pop("tombolopan")
sys.path.insert(0, {real!r})
import tombolopan as _real
del sys.path[0]
sys.modules["tombolopan"] = _faulty
ScriptError, alone = _real.ScriptError, _real.alone
heap_abort_name = _real.heap_abort_name

def once(name):
    try:
        os.close(os.open(os.path.join({folder!r}, name), os.O_CREAT | os.O_EXCL))
        return True
    except FileExistsError:
        return False

def end():
    os.kill(os.getpid(), signal.SIGKILL)

def wait():
    pathlib.Path({folder!r}, "waits").write_text(str(os.getpid()))
    time.sleep(900)

def session(frames, script, files):
    {act}
    return _real.session(frames, script, files)
"""


def validate(document: object, part: str = "") -> None:
    """Compares what was written with the schema, or with a part of it, where Debian's
    python3-jsonschema is there."""
    if importlib.util.find_spec("jsonschema") is None:
        return
    import jsonschema
    schema = json.loads((BATCH / "results.schema.json").read_text(encoding="utf-8"))
    if part:
        schema = {"$ref": f"#/$defs/{part}", "$defs": schema["$defs"]}
    jsonschema.Draft202012Validator(schema).validate(document)


@dataclass(frozen=True)
class Batch:
    """A folder or a table of sessions, the variables of the command, and options of each run."""

    sessions: pathlib.Path
    extra: dict[str, str]
    options: tuple[Word, ...] = ("--jobs", "2")

    @property
    def store(self) -> pathlib.Path:
        """Where answers are kept."""
        return self.sessions.with_name(f"{self.sessions.name}.results")

    def words(self, *options: Word) -> list[Word]:
        """The command."""
        return [sys.executable, BATCH, self.sessions, *self.options, *options]

    def run(self, *options: Word, before: Sequence[Word] = ()) -> Ran:
        """Runs the sessions."""
        return run([*before, *self.words(*options)], extra=self.extra)

    def told(self, *options: Word) -> dict[str, Any]:
        """What a run says as JSON."""
        path = self.sessions.with_name(f"{self.sessions.name}.json")
        ran = self.run(*options, "--json", path)
        assert ran.status in (0, 1) and ran.errors == "", ran.errors
        found: dict[str, Any] = json.loads(path.read_text(encoding="utf-8"))
        assert found["right"] == (ran.status == 0)
        validate(found)
        return found

    def going_wrong(self, act: str) -> "Batch":
        """The same over a library that goes wrong."""
        folder = self.sessions.with_name("faulty")
        folder.mkdir()
        text = FAULTY.format(real=str(EXAMPLES / "embed"), folder=str(folder),
                             act=act)
        (folder / "tombolopan.py").write_text(text, encoding="utf-8")
        return Batch(self.sessions, {**self.extra, "PYTHONPATH": str(folder)}, self.options)


def summary(ran: Ran) -> list[str]:
    """The last two lines: the numbers of verdicts, and of what was done."""
    return ran.output.splitlines()[-2:]


def script(folder: pathlib.Path, name: str, text: str) -> pathlib.Path:
    """A script of the shell."""
    path = folder / name
    path.write_text(f"#!/usr/bin/env bash\n{text}", encoding="utf-8")
    path.chmod(0o755)
    return path
