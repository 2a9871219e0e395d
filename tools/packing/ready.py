"""What a release needs before it is made: each thing that stands in the way, in a sentence."""

import hashlib
import pathlib
import re
from collections.abc import Mapping
from typing import Optional

import mark
from packing import gate_log
from packing.built import PROGRAMS, is_of_proved, is_unproved
from packing.gate_log import Gate
from packing.release import ROOT, git, is_tagged, read_version

LIBRARIES = ("lib/libc.a", "lib/libc++.a", "rust/version")


def of_the_tree() -> list[str]:
    """The commit: clean, with the version's tag, and a day in the changes."""
    version, found = read_version(), []
    changed = git("status", "--porcelain").splitlines()
    if changed:
        found.append(f"the tree is not clean: {changed[0].split(maxsplit=1)[1]} differs, one of "
                     f"{len(changed)}")
    if not is_tagged(version):
        found.append(f"the commit has no tag v{version}")
    text = (ROOT / "CHANGELOG.md").read_text(encoding="utf-8")
    heading = re.findall(r"^## (.*)$", text, re.M)[0]
    if not re.fullmatch(rf"{re.escape(version)}, \d{{4}}-\d\d-\d\d", heading):
        found.append(f"the first heading of CHANGELOG.md has no day of {version}: {heading}")
    return found


def of_the_gate(gate: Optional[Gate]) -> list[str]:
    """The log of the gate."""
    if gate is None:
        return ["no log of the gate is given (--gate)"]
    return gate_log.complaints(gate, git("rev-parse", "HEAD"))


def of_programs(files: Mapping[str, pathlib.Path], gate: Optional[Gate]) -> list[str]:
    """The programs that were built: proved, and those that the gate had, where it came to the sums
    of them. A library that is missing is made."""
    found = []
    for name, path in files.items():
        if not path.exists():
            found += [f"{name} is not built"] if name in PROGRAMS else []
        elif is_unproved(path):
            found.append(f"{name} is built without proof")
        elif gate and (gate.sums or gate.is_whole) and name in PROGRAMS:
            total = hashlib.sha256(path.read_bytes()).hexdigest()
            if gate.sums.get(name) != total:
                found.append(f"{name} is not the program that the gate proved")
    return found


def of_libraries(folder: pathlib.Path) -> list[str]:
    """The libraries of tenants."""
    return [f"the libraries of tenants are not built: no {name} in {folder} (tools/build.sh)"
            for name in LIBRARIES if not (folder / name).exists()]


def of_arm64(files: Mapping[str, pathlib.Path]) -> list[str]:
    """What is compiled for arm64."""
    return [f"{name} is not built for arm64 of the proved build of these sources (tools/build.sh "
            "--arm64)" for name, path in files.items() if not is_of_proved(path)]


def of_marks(folder: pathlib.Path, names: tuple[str, ...], build: str = "proved") -> list[str]:
    """What the files say of themselves: this version, this commit, this toolchain, this build."""
    values = {**mark.commit_and_changes(), **mark.toolchain(), "build": build}
    wanted, found = mark.text_of(values), []
    for name in names:
        held = mark.HELD.search((folder / name).read_bytes())
        if held is None or held[0] != wanted:
            said = held[0].decode(errors="replace").replace("\n", ", ") if held else "nothing"
            found.append(f"{name} says of itself: {said}")
    return found
