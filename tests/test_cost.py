"""What the gate and single functions cost the prover: how seconds are given to crates, layers and
functions. The lists of modules are those of a run of the prover."""

import pathlib
import re
import sys

import pytest
from cost import Event, shares, split_module
from gate_cost import Crate, crate_of, kind_of, longest_chain, read_crates, report

from tests.support.checkout import make_stub
from tests.support.places import ROOT
from tests.support.running import run

LIST = """\
# The crates, lowest first: NAME: what it uses.

# Ground: words.
a64_bits:
limits:

# Core: instructions.
a64_step: a64_bits limits core
a64_run: a64_step
lone: limits
"""


@pytest.mark.parametrize("module, wanted", [
    ("proofs.parser.Parser.nested.Tie", ("parser.Parser.nested", "Tie")),
    ("specs.contracts.size", ("size", "type")),
    ("proofs.size.Goal-3", ("size", "Goal")),
    ("proofs.Names.TheLaws", ("Names.TheLaws", "type")),
    ("proofs.read.Proof.Loops-1", ("read", "Loops")),
])
def test_modules(module: str, wanted: tuple[str, str]) -> None:
    """The function and the part of a module's name."""
    assert split_module(module) == wanted


def test_shares() -> None:
    """The prover checks the statement of `outer`, makes its proof, takes up `inner`, which it
    calls, ends that, and checks what it made of `outer`."""
    events = [Event(f"proofs.{module}", seconds) for module, seconds in (
        ("outer.Code", 1), ("outer.Statement", 2), ("inner.Code", 8), ("inner.Statement", 1),
        ("inner.Tie", 4), ("inner.Proof", 2), ("outer.Tie", 16), ("outer.Proof", 3),
        ("Names.TheLaws", 5), ("other.Code", 7))]
    assert shares(events) == {
        "outer": {"Code": 1, "making": 10, "Tie": 16, "Proof": 3},
        "inner": {"making": 1, "Tie": 4, "Proof": 2},
        "Names.TheLaws": {"type": 5}, "other": {"Code": 7},
    }


@pytest.mark.parametrize("name, words, folder, wanted", [
    ("rattle", "build --crate-name mte_tags src/lib.rt", "/run/crates/mte_tags", "proof"),
    ("rattle", "check --crate-name mte_tags --test", "/run/crates/mte_tags", "tests"),
    ("rattle", "check --crate-name mte_tags", "/tmp/rt-edit-2227-x", "edits"),
    ("rattle", "check --crate-name mte_tags --incremental /tmp/rt-edits-2/seed", "/x", "edits"),
    ("clang", "-c module.bc", "/run/crates/mte_tags/out", "programs"),
    ("rattle", "fmt", "/run", ""), ("python3", "--crate-name mte_tags", "/run", ""),
])
def test_kinds(name: str, words: str, folder: str, wanted: str) -> None:
    """The kind of work by the words of a process and its folder; and its crate."""
    assert kind_of(name, words.split(), folder) == wanted
    known = "mte_tags" if "mte_tags" in words + folder else ""
    assert crate_of(words.split(), folder) == known


def test_tables() -> None:
    """Sums by layer, by crate and along the dearest chain, in units of a64_bits' proof."""
    crates = read_crates(LIST)
    assert crates["a64_step"] == Crate("Core", ("a64_bits", "limits", "core"))
    sums = {("a64_bits", "proof"): 10.0, ("limits", "proof"): 20.0, ("a64_step", "proof"): 30.0,
            ("a64_run", "tests"): 5.0, ("lone", "proof"): 25.0, ("", "programs"): 10.0}
    lines = list(report(crates, sums))
    assert lines[2:6] == [
        "| Ground | 30 | 0 | 0 | 0 | 30 | 3.0 |", "| Core | 55 | 5 | 0 | 0 | 60 | 6.0 |",
        "| other | 0 | 0 | 0 | 10 | 10 | 1.0 |", "| all | 85 | 5 | 0 | 10 | 100 | 10.0 |"]
    assert [line.split()[1] for line in lines[9:14]] == [
        "a64_step", "lone", "limits", "a64_bits", "a64_run"]
    assert lines[-1] == ("Longest chain of proofs: 50 seconds, 5.0 units: `limits` 20, "
                         "`a64_step` 30.")
    assert longest_chain(crates, {"lone": 1.0, "limits": 1.0}) == ["limits", "lone"]


def test_a_run(tmp_path: pathlib.Path) -> None:
    """A command whose prover works for a while is sampled, and its status is passed on."""
    prover = tmp_path / "rattle"
    prover.write_text("#!/bin/bash\nfor ((at = 0; at < 400000; at++)); do :; done\n",
                      encoding="utf-8")
    prover.chmod(0o755)
    gate = make_stub(tmp_path / "bin", "gate", f"{prover} check --crate-name a64_bits\nexit 3\n")
    ran = run([sys.executable, ROOT / "tools" / "gate_cost.py", "gate"], cwd=tmp_path, extra=gate)
    found = re.search(r"^\| a64_bits \| (\d+) \| 0 \| 0 \| 0 \| \1 \| 1.0 \|$", ran.output, re.M)
    assert ran.status == 3 and found, ran.output
    total = re.search(r"^The command took (\d+) seconds .* of which (\d+) are", ran.output, re.M)
    assert total and int(found[1]) == int(total[2]) <= int(total[1]) + 1
