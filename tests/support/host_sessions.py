"""Scripts and images for the host program, and what came of it."""

import pathlib
import shutil
import sys
from collections.abc import Sequence
from typing import Union

from tests.support.places import EXAMPLES
from tests.support.running import Ran, succeed

# What the script examples/hi.script reports on the image examples/hi.elf.
HI_REPORT = "tenant 1\nstatus exit 0\nsteps 8\noutput 2 4869\nheap 0\nend\n"


def with_hi(folder: pathlib.Path) -> pathlib.Path:
    """The folder, with the image and the script of the first example in it."""
    for name in ("hi.elf", "hi.script"):
        shutil.copy(EXAMPLES / name, folder)
    return folder


def admission(tenant: int, image: int = 1, pages: int = 5, room: int = 16) -> str:
    """The line of a script that admits a tenant."""
    return (f"admit {tenant} image {image} input 0 seed 0000000000000001"
            f" frames {pages} out {room}")


def make_image(path: pathlib.Path, words: Sequence[str]) -> None:
    """Makes an image of instruction words, as docs/HOST.md says."""
    succeed([sys.executable, EXAMPLES / "build_image.py", path, *words])


def sparse(path: pathlib.Path, size: int) -> None:
    """Makes a file of so many zeros, which takes no place on the disk."""
    with open(path, "wb") as file:
        file.truncate(size)


def assert_ended(ran: Ran, status: int, errors: str) -> None:
    """Compares the status and all of standard error; of a failed run nothing was written."""
    assert (ran.status, ran.errors) == (status, errors), ran.output[:1000]
    assert status == 0 or ran.out == b"", ran.output[:1000]


def assert_reports(ran: Ran, lines: Union[str, Sequence[str]]) -> None:
    """Compares the whole report of a run that did what it should."""
    wanted = lines if isinstance(lines, str) else "".join(f"{line}\n" for line in lines)
    assert_ended(ran, 0, "")
    assert ran.output == wanted
