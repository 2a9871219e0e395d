"""tools/mark.py: programs and the library say how they were built, and are otherwise as they
were."""

import pathlib
import re
import shutil
import sys

import pytest

import mark
from tests.support.checkout import copy_files
from tests.support.library import kit, static_library
from tests.support.notes import SECTION, noted
from tests.support.places import ROOT
from tests.support.running import Word, run, succeed
from tests.support.tools import git, need

TOOL = ROOT / "tools" / "mark.py"
LINES = rb"\ncommit:    .{40}\nchanges:   .{4}\ntoolchain: .{40}\nbuild:     .{8}"
CALL = """\
#include <stdio.h>
#include "tombolopan.h"
int main(void)
{
    uint8_t text[160], few[4] = {0, 0, 0, 42};
    uint32_t length = tb_build_info(text, sizeof text);
    printf("%.*s|", (int)length, (const char *)text);
    printf("%d %.3s%d", tb_build_info(few, 3) == length, (const char *)few, few[3]);
    return 0;
}
"""


def unmarked(path: pathlib.Path, folder: pathlib.Path) -> pathlib.Path:
    """A copy of a file as it was before it was marked."""
    copy = folder / path.name
    dashes = b"\n" + mark.text_of({}).partition(b"\n")[2]
    copy.write_bytes(re.sub(LINES, dashes, path.read_bytes()))
    copy.chmod(0o755)
    if path.suffix != ".a":
        succeed(["objcopy", "--remove-section", SECTION, copy])
    return copy


def loaded(path: pathlib.Path) -> bytes:
    """What of a program is loaded."""
    made = path.with_suffix(".loaded")
    succeed(["objcopy", "-O", "binary", path, made])
    return made.read_bytes()


@pytest.fixture
def tool() -> list[str]:
    """The command, with what it needs."""
    need("git", "rt", "objcopy", "readelf")
    return [sys.executable, str(TOOL)]


def test_one_text() -> None:
    """The lines that the tool writes over are those of the crate."""
    source = (ROOT / "crates/common/src/build_info.rt").read_text(encoding="utf-8")
    text = mark.text_of({}).decode()
    assert f'const TEXT: &str = "{text}";' in source
    for path in ("crates/common/src/build_info.rt", "crates/tombolopan_c/src/build_calls.rt"):
        contract = (ROOT / path).read_text(encoding="utf-8")
        assert f"ensures length {{ result ≡ {len(text)} }}" in contract


def test_a_program(tool: list[str], alone: pathlib.Path, tmp_path: pathlib.Path) -> None:
    """Its version gets lines with the commit, the changes, the toolchain and proved or not; a
    second time nothing is written; and the same program has the same bytes in any folder."""
    before = unmarked(alone, tmp_path)
    assert f"commit:    {'-' * 40}\n" in run([before, "--version"]).output
    helped = run([before, "--help"])
    copies = [tmp_path / name / "mte_run" for name in ("a", "b/deeper")]
    for copy in copies:
        copy.parent.mkdir(parents=True)
        shutil.copy(before, copy)
        succeed([*tool, "--unproved", copy])
    assert copies[0].read_bytes() == copies[1].read_bytes()
    commit = git("rev-parse", "HEAD").strip()
    told = run([copies[0], "--version"])
    wanted = rf"mte_run \d+\.\d+\ncommit:    {commit}\nchanges:   (none|some)\n" \
             r"toolchain: [0-9a-f]{40}\nbuild:     unproved\n"
    assert told.status == 0 and re.fullmatch(wanted, told.output), told.output
    assert noted(copies[0]) == told.output.removeprefix("mte_run ")
    assert run([copies[0], "--help"]) == helped
    data = copies[0].read_bytes()
    succeed([*tool, copies[0]])
    assert copies[0].read_bytes() == data
    succeed([*tool, before])
    assert run([before, "--version"]).output.endswith("\nbuild:       proved\n")


def test_the_host(tool: list[str], host: pathlib.Path, tmp_path: pathlib.Path) -> None:
    """A program whose command line is fixed has a note alone, and what is loaded stays."""
    copy = unmarked(host, tmp_path)
    before, helped = loaded(copy), run([copy, "--help"])
    succeed([*tool, copy])
    assert loaded(copy) == before and run([copy, "--help"]) == helped
    assert re.search(r"\ncommit:    [0-9a-f]{40}\n", noted(copy))


def test_the_library(tool: list[str], shared: pathlib.Path, tmp_path: pathlib.Path) -> None:
    """The library's call gives the lines, as far as a buffer goes."""
    need("cc")
    archive = unmarked(static_library(shared), tmp_path)
    (tmp_path / "call.c").write_text(CALL, encoding="utf-8")
    words: list[Word] = ["cc", "-I", ROOT / "include", "call.c", archive,
                         kit() / "c" / "liblibc_c.a"]
    succeed([*words, "-o", "before"], cwd=tmp_path)
    succeed([*tool, "--unproved", archive])
    succeed([*words, "-o", "after"], cwd=tmp_path)
    outputs = [run([tmp_path / it]).output for it in ("before", "after")]
    assert outputs[0] == f"{mark.text_of({}).decode()}|1 {outputs[0][:3]}42"
    assert re.fullmatch(rf"{outputs[0][:3]}\ncommit:    [0-9a-f]{{40}}\nchanges:   (none|some)\n"
                        rf"toolchain: [0-9a-f]{{40}}\nbuild:     unproved\|1 {outputs[0][:3]}42",
                        outputs[1])


def test_without_a_commit(tool: list[str], alone: pathlib.Path, tmp_path: pathlib.Path) -> None:
    """In a folder that is no clone the commit stays dashes."""
    top = copy_files(tmp_path / "clone", "tools/", "VERSION")
    copy = unmarked(alone, tmp_path)
    extra = {"GIT_CEILING_DIRECTORIES": str(tmp_path)}
    succeed([sys.executable, top / "tools" / "mark.py", copy], extra=extra)
    told = run([copy, "--version"]).output
    assert f"\ncommit:    {'-' * 40}\nchanges:   ----\ntoolchain: " in told
    assert told.endswith("build:       proved\n")


def test_refusals(tool: list[str], tmp_path: pathlib.Path) -> None:
    """A program or a library of another version is refused; words are wanted."""
    for name in ("mte_run", "libtombolopan_c.a"):
        (tmp_path / name).write_bytes(b"!<arch>\n1.0\ncommit: none")
        ran = run([*tool, tmp_path / name])
        assert (ran.status, ran.output) == (1, "") and "has no lines of version" in ran.errors
    for words in ("", "--help", "--unproved"):
        assert "mark.py [--unproved] FILE.." in run([*tool, *words.split()]).errors
