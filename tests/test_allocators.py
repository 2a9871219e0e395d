"""The heap beside LLVM's Scudo: the tables of docs/ALLOCATORS.md are what both do."""

import pathlib
import subprocess
import sys

from tests.support.library import shared_object
from tests.support.pages import read_page
from tests.support.places import EXAMPLES
from tests.support.running import Ran, run
from tests.support.tools import give_up, need

SCRIPT = EXAMPLES / "alloc" / "beside_scudo.py"
PAGE = "docs/ALLOCATORS.md"


def need_scudo() -> None:
    """Skips the test where LLVM's Scudo is missing."""
    need("clang")
    folder = subprocess.run(["clang", "--print-resource-dir"], stdout=subprocess.PIPE, text=True,
                            check=True).stdout.strip()
    name = "libclang_rt.scudo_standalone-x86_64.a"
    if not (pathlib.Path(folder) / "lib" / "linux" / name).exists():
        give_up(f"missing: {name} (tests/packages.txt has the Debian packages)")


def measure(shared: pathlib.Path, script: pathlib.Path = SCRIPT) -> Ran:
    """What the script writes."""
    return run([sys.executable, script],
               extra={"TOMBOLOPAN": str(shared_object(shared))})


def test_the_page_has_what_both_do(shared: pathlib.Path) -> None:
    """Each row is as the script says, and the page has both tables and the counts."""
    need_scudo()
    ran = measure(shared)
    assert ran.status == 0, ran.output + ran.errors
    assert f"beside_scudo.py: -->\n\n{ran.output}\n<!-- to here" in read_page(PAGE)


def test_a_row_that_is_not_so_is_told(shared: pathlib.Path, tmp_path: pathlib.Path) -> None:
    """Where Scudo's program has other classes than it should, the row is named."""
    need_scudo()
    folder = tmp_path / "examples" / "alloc"
    folder.mkdir(parents=True)
    for name in ("embed", "command_line.py"):
        (tmp_path / "examples" / name).symlink_to(EXAMPLES / name)
    for path in SCRIPT.parent.glob("*.*"):
        text = path.read_text(encoding="utf-8").replace("malloc(size)", "malloc(size + 16)")
        (folder / path.name).write_text(text, encoding="utf-8")
    ran = measure(shared, folder / SCRIPT.name)
    assert ran.status == 1, ran.output
    assert "beside_scudo.py: blocks of requests of 1 to 131,040 bytes: " in ran.errors
    assert len(ran.errors.splitlines()) == 1


def test_words_are_refused() -> None:
    """The script takes none."""
    ran = run([sys.executable, SCRIPT, "more"])
    assert ran.status in (1, 2) and ran.errors and ran.output == ""
