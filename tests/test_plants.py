"""The wrong bodies and definitions that are planted by hand, and what builds and tries them."""

import pathlib
import re
import sys
import tomllib

import pytest
import wrong_definitions
from plants import STORED, Plant, read_plants

from tests.support.places import ROOT
from tests.support.running import Word, run, succeed
from tests.support.tools import need

FILES = sorted((ROOT / "tools" / "wrong_bodies").glob("*.toml"))
PLANTS = read_plants(FILES, "")
NOTICED = tomllib.loads(STORED.read_text(encoding="utf-8"))


@pytest.mark.parametrize("plant", PLANTS, ids=[plant.name for plant in PLANTS])
def test_its_text_is_there_once(plant: Plant) -> None:
    """A body that has moved is planted nowhere."""
    assert (ROOT / plant.file).read_text(encoding="utf-8").count(plant.old) == 1
    assert plant.file.split("/")[1] == plant.crate


def test_names_are_distinct() -> None:
    """Each wrong body has a name of its own."""
    names = [plant.name for plant in PLANTS]
    assert len(set(names)) == len(names) >= 89


def test_what_is_stored_of_them() -> None:
    """No more is noticed than there is, all bodies of files count, and each that is let through is
    there, with what is known of it."""
    functions = re.compile(r"\bfn (\w+)")
    for name, shares in NOTICED.items():
        assert 0 < shares["noticed"] <= shares["count"], name
        left = shares.get("let_through", {})
        assert name == "sample" or len(left) == shares["count"] - shares["noticed"], name
        for title, reason in left.items():
            crate, _, function = re.sub(", .*", "", title).partition("::")
            texts = [path.read_text() for path in (ROOT / "crates" / crate / "src").rglob("*.rt")]
            known = functions.findall("".join(texts)) if function else [it.name for it in PLANTS]
            assert title.split(",")[0].split("::")[-1] in known and reason, title
    assert NOTICED["files"]["count"] == len(PLANTS)


def test_a_sample_is_noticed(alone: pathlib.Path) -> None:
    """Of bodies that are drawn in mte_run as many are noticed as once were."""
    need("objdump", "clang", "ld.lld", "gdb", "c++filt", "prlimit")
    words: list[Word] = [sys.executable, ROOT / "tools" / "plants.py", "--sample",
                         "--built", alone.parent]
    ran = run(words, seconds=3600)
    assert ran.status == 0, ran.output + ran.errors


def test_one_is_noticed(tmp_path: pathlib.Path) -> None:
    """Exchanged arguments of a call of the library are planted in a copy, and noticed."""
    need("rt", "clang", "git")
    words: list[Word] = [sys.executable, ROOT / "tools" / "plants.py", "--built", tmp_path,
             "--only", "map_arguments"]
    assert succeed(words).output.endswith("1 of 1 noticed\n")


HELLO = """#![tactic(auto)]

use std::process::ExitCode;

fn main(rt: HostRuntime) -> ExitCode {
    match rt.stdout().write_all(b"hello\\n") {
        Ok(_) => ExitCode::from(7),
        Err(_) => ExitCode::from(1),
    }
}
"""


def test_a_build_without_proof(tmp_path: pathlib.Path) -> None:
    """A crate of one function is built, and does what its source says."""
    need("rt")
    source, made = tmp_path / "crates" / "hello" / "src" / "main.rt", tmp_path / "hello"
    source.parent.mkdir(parents=True)
    source.write_text(HELLO, encoding="utf-8")
    (tmp_path / "crates.txt").write_text("hello:\n", encoding="utf-8")
    succeed([sys.executable, ROOT / "tools" / "unproved.py", tmp_path, made, "hello"])
    ran = run([made])
    assert (ran.status, ran.output, ran.errors) == (7, "hello\n", "")


WRONG = wrong_definitions.read_data()


@pytest.mark.parametrize("wrong", WRONG, ids=[wrong.name for wrong in WRONG])
def test_a_wrong_definition_is_of_what_is_there(
        wrong: wrong_definitions.WrongDefinition, tmp_path: pathlib.Path) -> None:
    """What it changes is there once, and its laws name no tenant, but those of sessions."""
    for file, old, _ in wrong.changes:
        assert (ROOT / file).read_text(encoding="utf-8").count(old) == 1
    if not wrong.of_sessions:
        laws = wrong_definitions.copy_laws(ROOT / "crates" / wrong_definitions.LAWS, tmp_path)
        assert set(wrong.laws) <= set(laws) and "careful_tenants_are_sound" not in laws
    row = ", ".join(f"`{law}`" for law in wrong.laws)
    page = (ROOT / "docs/project/CHECKED.md").read_text(encoding="utf-8")
    assert f" | {row} |\n" in page
