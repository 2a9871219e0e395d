"""Sessions whose tenants are led on by tools/batch, and the scripts that it writes of them."""

import pathlib
import sys
from collections.abc import Sequence
from typing import Any

from tests.support.embedding import folders
from tests.support.places import ROOT
from tests.support.running import Ran, run

sys.path.insert(0, str(ROOT / "tools"))
from batch.reports import refused_of, tenants_of  # noqa: E402


def write_led(folder: pathlib.Path, images: Sequence[bytes], script: Sequence[str],
              frames: int) -> None:
    """Writes a session with these images as its files."""
    folder.mkdir(parents=True)
    names = [f"image-{number}" for number in range(len(images))]
    for name, image in zip(names, images):
        (folder / name).write_bytes(image)
    (folder / "script").write_text("".join(f"{it}\n" for it in script), encoding="utf-8")
    words = ["--frames", str(frames), "script", *names]
    (folder / "args").write_text("".join(f"{it}\n" for it in words), encoding="utf-8")


def run_over(host: pathlib.Path, folder: pathlib.Path, script: pathlib.Path) -> Ran:
    """What mte_host writes of a session by another script."""
    words = folders.words_of(folder)
    return run([host, *words[:2], script, *(folder / it for it in words[3:])])


def check_script(host: pathlib.Path, folder: pathlib.Path, reports: pathlib.Path,
                 told: dict[str, Any]) -> bytes:
    """The script of a session is its own and further slices, mte_host has the report over it, and
    nothing else is refused than by its own, whose report is answered."""
    own, before = (folder / "script").read_text(), run_over(host, folder, folder / "script").out
    assert refused_of(before) == told.get("refused", [])
    script = reports / f"{folder.name}.script"
    if told["verdict"] == "no script":
        assert not script.exists()
        return before
    text = script.read_text()
    assert text.startswith(own)
    more = [it.split() for it in text[len(own):].splitlines() if it]
    assert all(len(it) == 3 and it[0] == "slice" for it in more)
    ran = run_over(host, folder, script)
    assert ran.out == (reports / f"{folder.name}.out").read_bytes()
    assert (ran.status, ran.errors) == (0, "") and tenants_of(ran.out) == told.get("tenants", [])
    return before
