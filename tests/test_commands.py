"""The two scripts that the README begins with: what they print, and by which program."""

import os
import pathlib
import re
import time

import pytest

from tests.support.checkout import copy_files, link_built, make_stub
from tests.support.pages import Part, parts_of, sample_of
from tests.support.places import EXAMPLES, ROOT
from tests.support.running import Ran, run, succeed
from tests.support.samples import assert_sample, tenant
from tests.support.tools import need

# In place of tools/build.sh: says how it was called, and puts a program there with its mark.
BUILDER = """#!/usr/bin/env bash
echo "build.sh $*" >&2
cd "$(dirname "$0")/../crates/{name}"
mkdir -p out
cp "{program}" out/{name}
touch out/{name}
(cd out && sha256sum {name} >{name}.unproved)
"""
EXPLAINED = ("mte_run: fault TagCheck", "0x0000000012000010 is in the block")


@pytest.fixture
def clone(tmp_path: pathlib.Path) -> pathlib.Path:
    """A checkout in which nothing was built."""
    return copy_files(tmp_path / "clone", "examples/", "crates/mte_host/", "crates/mte_run/",
                      "crates.txt", "tools/sources.sh")


def command_of(page: str, script: str) -> str:
    """The one command of a page that runs a script."""
    found = [command for part in parts_of(page) if part.has_commands
             for command in part.commands() if command.startswith(script)]
    assert len(found) == 1, f"{page} shows {script} {len(found)} times"
    return found[0]


def report_sample() -> Part:
    """The report that the README shows."""
    return sample_of("README.md", "tenant 1\n")


def explanation_sample() -> Part:
    """The explanation that the README shows."""
    return sample_of("README.md", EXPLAINED[0])


def run_script(name: str, *words: str, folder: pathlib.Path = ROOT, built: str = "",
               path: str = "") -> Ran:
    """Runs a script of examples/ in a checkout, with programs that were built elsewhere."""
    extra = {"TOMBOLOPAN_BUILT": built, "PATH": path or os.environ["PATH"]}
    return run([folder / "examples" / name, *words], cwd=folder, extra=extra)


def stub_builder(clone: pathlib.Path, program: pathlib.Path) -> str:
    """Puts a stub in place of tools/build.sh, and gives what it says."""
    place = clone / "tools" / "build.sh"
    place.write_text(BUILDER.format(name=program.name, program=program), encoding="utf-8")
    place.chmod(0o755)
    return f"build.sh --unproved --only {program.name}\n"


def test_hi(host: pathlib.Path) -> None:
    """The README's first command prints the report that the README shows."""
    assert command_of("README.md", "examples/hi.sh") == "examples/hi.sh"
    ran = run_script("hi.sh", built=str(host.parent))
    assert (ran.status, ran.errors) == (0, "")
    assert_sample(report_sample(), ran.output)


def test_hi_by_the_built_program(host: pathlib.Path, clone: pathlib.Path) -> None:
    """Where the crate's program is there and newer than all sources, nothing is compiled."""
    stub = make_stub(clone / "stub", "rt", "exit 1")
    link_built(clone, host)
    ran = run_script("hi.sh", folder=clone, path=stub["PATH"])
    assert (ran.status, ran.output, ran.errors) == (0, report_sample().text, "")


def test_hi_builds(host: pathlib.Path, clone: pathlib.Path) -> None:
    """Without a program, and where a source is newer, it is built once, and said to be so."""
    builder = stub_builder(clone, host)
    message = "hi.sh: builds mte_host without proof, once: one to two minutes\n"
    unproved = "hi.sh: mte_host is built without proof\n"
    ran = run_script("hi.sh", folder=clone)
    wanted = (0, report_sample().text, f"{message}{builder}{unproved}")
    assert (ran.status, ran.output, ran.errors) == wanted
    ran = run_script("hi.sh", folder=clone)
    assert (ran.status, ran.output, ran.errors) == (0, report_sample().text, unproved)
    newest = time.time() + 60
    os.utime(clone / "crates" / "mte_host" / "src" / "main.rt", (newest, newest))
    ran = run_script("hi.sh", folder=clone)
    assert (ran.status, ran.output, ran.errors) == wanted


@pytest.fixture
def image(shared: pathlib.Path) -> pathlib.Path:
    """The tenant that the README explains."""
    need("clang", "ld.lld")
    return tenant(shared, EXAMPLES / "c" / "use_after_free.c")


def test_why(alone: pathlib.Path, image: pathlib.Path) -> None:
    """The explanation begins as the README shows it."""
    assert re.fullmatch(r"examples/why\.sh \w+\.elf", command_of("README.md", "examples/why.sh"))
    ran = run_script("why.sh", str(image), built=str(alone.parent))
    assert (ran.status, ran.output) == (129, "")
    assert ran.errors.startswith(EXPLAINED[0])
    assert_sample(explanation_sample(), ran.errors, EXPLAINED[1])


def test_why_draws(alone: pathlib.Path, image: pathlib.Path) -> None:
    """The picture goes to standard output."""
    ran = run_script("why.sh", "--map", "-", str(image), built=str(alone.parent))
    assert ran.status == 129
    assert ran.output.startswith("<svg") and ran.output.endswith("</svg>\n")


def test_why_by_the_built_program(alone: pathlib.Path, image: pathlib.Path,
                                  clone: pathlib.Path) -> None:
    """Where the crate's program is there, it is used."""
    stub = make_stub(clone / "stub", "rt", "exit 1")
    link_built(clone, alone)
    ran = run_script("why.sh", str(image), folder=clone, path=stub["PATH"])
    assert ran.status == 129
    assert_sample(explanation_sample(), ran.errors, EXPLAINED[1])


def test_why_builds(alone: pathlib.Path, image: pathlib.Path, clone: pathlib.Path) -> None:
    """Without a program mte_run is built once, and said to be so."""
    builder = stub_builder(clone, alone)
    message = "why.sh: builds mte_run without proof, once: one to two minutes\n"
    unproved = "why.sh: mte_run is built without proof\n"
    ran = run_script("why.sh", "--last", "3", str(image), folder=clone)
    assert ran.status == 129 and ran.errors.startswith(f"{message}{builder}{unproved}mte_run: ")
    ran = run_script("why.sh", "--last", "3", str(image), folder=clone)
    assert ran.status == 129 and ran.errors.startswith(f"{unproved}mte_run: ")


def test_why_usage(clone: pathlib.Path) -> None:
    """Asked for help, and without a word, it says what it wants."""
    for words, status in (((), 2), (("--help",), 0)):
        ran = run_script("why.sh", *words, folder=clone)
        assert (ran.status, ran.errors) == (status, "")
        assert ran.output.startswith("Tells why a tenant ended")
        assert "    why.sh [OPTION..] ELF\n" in ran.output


def test_first_image(tmp_path: pathlib.Path) -> None:
    """The first example's image is what build_image.py makes of its words."""
    image = (EXAMPLES / "hi.elf").read_bytes()
    words = [image[at:at + 4][::-1].hex() for at in range(0x78, len(image), 4)]
    made = tmp_path / "made.elf"
    succeed([EXAMPLES / "build_image.py", made, *words])
    assert made.read_bytes() == image
    ran = run([EXAMPLES / "build_image.py", made, "no-word"])
    assert (ran.status, ran.errors) == (
        1, "build_image.py: a WORD isn't 8 hexadecimal digits\n")
