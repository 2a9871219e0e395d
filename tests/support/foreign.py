"""In place of what tools/build.sh --arm64 builds, which takes minutes: programs and a library for
arm64 that do nothing, but have the lines and the calls of those."""

import json
import pathlib
import re

import mark
from tests.support.places import ROOT
from tests.support.running import Word, succeed
from tests.support.tools import need

PROGRAM = "int main(void) { return puts(%s) < 0; }\n"
CALL = "unsigned %s(void) { return puts(%s) < 0; }\n"


def calls() -> dict[str, list[str]]:
    """The calls that each header of the library declares, by the header's name."""
    form = re.compile(r"^(?:uint32_t|void) (tb_\w+)\(", re.M)
    found = {path.stem: form.findall(path.read_text(encoding="utf-8"))
             for path in sorted((ROOT / "include").glob("*.h"))}
    assert len(found) > 1 and all(found.values())
    return found


def compiled(text: str, path: pathlib.Path, *more: str) -> pathlib.Path:
    """A file for arm64 of a source."""
    words: list[Word] = ["aarch64-linux-gnu-gcc", "-include", "stdio.h", *more, "-o", path]
    succeed([*words, "-x", "c", "-"], stdin=text.encode())
    return path


def build(folder: pathlib.Path) -> pathlib.Path:
    """Builds them into a folder: the archive has an object for each header."""
    need("aarch64-linux-gnu-gcc", "aarch64-linux-gnu-ar")
    folder.mkdir(parents=True)
    lines = json.dumps(mark.text_of({}).decode())
    for name in ("mte_host", "mte_run"):
        compiled(PROGRAM % lines, folder / name)
    parts = [compiled("".join(CALL % (it, lines) for it in names), folder / f"{header}.o",
                      "-c", "-fPIC") for header, names in calls().items()]
    succeed(["aarch64-linux-gnu-ar", "rcsD", folder / "libtombolopan_c.a", *parts])
    for part in parts:
        part.unlink()
    return folder
