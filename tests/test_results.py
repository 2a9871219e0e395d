"""What programs read of sessions: JSON by a schema, with statuses as `mte_run` has them."""

import copy
import hashlib
import json
import pathlib
import random
import sys
from collections.abc import Iterator
from typing import Any

import pytest

from tests.support.batches import Batch, validate
from tests.support.embedding import folders
from tests.support.library import shared_object
from tests.support.once import make_once
from tests.support.places import ROOT
from tests.support.running import run
from tests.support.tools import give_up

sys.path.insert(0, str(ROOT / "tools"))
from batch.reports import refused_of, tenants_of  # noqa: E402

IMAGES = sorted((pathlib.Path(__file__).parent / "images").glob("*.elf"))
ACTS = "afmuxz"
TERMS = "seed 0000000000000005 frames 256 out 4096"
CHANGES = 60


def need_schemas() -> None:
    """Skips a case where what reads schemas is not there."""
    if run([sys.executable, "-c", "import jsonschema"]).status:
        give_up("missing: python3-jsonschema (tests/packages.txt)")


@pytest.mark.parametrize("image", IMAGES, ids=[path.stem for path in IMAGES])
def test_tenants_beside_mte_run(host: pathlib.Path, alone: pathlib.Path, tmp_path: pathlib.Path,
                                image: pathlib.Path) -> None:
    """Status, steps and output of a tenant of a report are those that mte_run has of it, in both
    tag modes."""
    given, out, script = tmp_path / "input", tmp_path / "told", tmp_path / "script"
    for number, act in enumerate(ACTS):
        given.write_text(act)
        mode = " async" if number % 2 else ""
        admit = f"admit 7 image 1 input 2 {TERMS}"
        script.write_text(f"{admit}{mode}\n{admit}\nslice 7 1048576\nslice 7 {number}\n"
                          + "stop 7\n" * (number % 3))
        report = run([host, "--frames", "1000", script, image, given]).out
        tenant, = tenants_of(report)
        ran = run([alone, "--script", script, "7", "--frames", "1000", "--raw-output", "--json",
                   out, image, given])
        document = json.loads(out.read_text())
        assert tenant == {"id": 7, "status": document["status"], "steps": document["steps"],
                          "output": {"bytes": len(ran.out),
                                     "sha256": hashlib.sha256(ran.out).hexdigest()}}
        wrong = [(2, "Duplicate"), *[(6, "NotLive")] * (number % 3 == 2)]
        assert refused_of(report) == [{"event": event, "reason": why} for event, why in wrong]
        validate(tenant, "tenant")


def told_of_all(host: pathlib.Path, shared: pathlib.Path) -> dict[str, Any]:
    """What is written of sessions of every kind."""
    folder = make_once(shared / "batch" / "sessions", lambda path: folders.make(host, path))
    return Batch(folder, {"TOMBOLOPAN": str(shared_object(shared))}).told()


def test_the_schema_has_all(host: pathlib.Path, shared: pathlib.Path) -> None:
    """Sessions of every kind are as the schema says, and each refused event and tenant is told."""
    need_schemas()
    told = told_of_all(host, shared)
    assert told["format"] == "tombolopan results 2"
    tenants = [tenant for it in told["sessions"] for tenant in it.get("tenants", ())]
    kinds = {tenant["status"]["kind"] for tenant in tenants}
    assert {"exit", "fault", "running", "stopped"} <= kinds, kinds
    assert any(it.get("refused") for it in told["sessions"])


def places(value: Any) -> Iterator[tuple[Any, Any]]:
    """Each member of objects and lists within a value: what has it, and its name or number."""
    members = value.items() if isinstance(value, dict) else enumerate(value)
    for name, member in list(members):
        yield value, name
        if isinstance(member, (dict, list)):
            yield from places(member)


def test_the_schema_has_nothing_else(host: pathlib.Path, shared: pathlib.Path) -> None:
    """A member of another type or with another name, drawn, is refused."""
    need_schemas()
    import jsonschema
    told, source = told_of_all(host, shared), random.Random(11)
    told["sessions"] = [it for it in told["sessions"] if it.get("tenants")][:8]
    for _ in range(CHANGES):
        changed = copy.deepcopy(told)
        holder, name = source.choice(list(places(changed)))
        if isinstance(holder, dict) and source.random() < 0.5:
            holder[f"{name}s"] = holder.pop(name)
        else:
            holder[name] = {"other": 1.5}
        with pytest.raises(jsonschema.ValidationError):
            validate(changed)
