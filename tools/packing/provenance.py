"""The statement of how the files of a release were made: in-toto, with the provenance of SLSA."""

import pathlib
from collections.abc import Iterable, Sequence
from typing import Any, Optional

import mark
from batch.envelope import STATEMENT, sum_of
from packing.gate_log import Gate
from packing.release import Release, git

PREDICATE = "https://slsa.dev/provenance/v1"
BUILD, BUILDER = "tombolopan/release/v1", "tombolopan/tools/release.sh"


def described(path: pathlib.Path, name: str = "") -> dict[str, Any]:
    """A file, by its name and its sum."""
    return {"name": name or path.name, "digest": sum_of(path.read_bytes())}


def statement(files: Iterable[pathlib.Path], built: Sequence[pathlib.Path], release: Release,
              gate: Optional[Gate]) -> dict[str, Any]:
    """The statement of files that were made of what was built. It has no time but that by which
    files are dated, so that it is the same each time."""
    sources = {"name": "sources", "digest": {"gitCommit": git("rev-parse", "HEAD")}}
    toolchain = {"name": "toolchain", "annotations": {"archive": mark.toolchain()["toolchain"]}}
    return {
        "_type": STATEMENT, "predicateType": PREDICATE,
        "subject": [described(it) for it in files],
        "predicate": {
            "buildDefinition": {
                "buildType": BUILD,
                "externalParameters": {"version": release.version},
                "internalParameters": {"SOURCE_DATE_EPOCH": release.seconds,
                                       "gate": gate.counts if gate else {}},
                "resolvedDependencies": [sources, toolchain, *(described(it) for it in built)],
            },
            "runDetails": {"builder": {"id": BUILDER}},
        },
    }
