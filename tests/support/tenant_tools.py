"""tenant-args and tenant-run, over images of tenant-cc."""

import os
import pathlib
import sys
from collections.abc import Sequence
from typing import Optional

from tests.support.places import EXAMPLES
from tests.support.programs import tenant_cc
from tests.support.running import Ran, run
from tests.support.tools import need

LIBC = EXAMPLES / "libc"
TENANT_ARGS, TENANT_RUN = LIBC / "tenant-args", LIBC / "tenant-run"


def tenant_args(*words: str) -> Ran:
    """Runs tenant-args."""
    return run([sys.executable, TENANT_ARGS, *words])


def tenant_run(
    alone: pathlib.Path, *words: str, cwd: Optional[pathlib.Path] = None, stdin: bytes = b""
) -> Ran:
    """Runs tenant-run over a program mte_run."""
    command = [sys.executable, str(TENANT_RUN), "--alone", str(alone), *words]
    return run(command, cwd=cwd, stdin=stdin)


def built(
    library: pathlib.Path, folder: pathlib.Path, text: str, *words: str, name: str = "program"
) -> pathlib.Path:
    """The image of a source by clang, and nothing that is said of it."""
    need("clang", "ld.lld")
    source, image = folder / f"{name}.c", folder / f"{name}.elf"
    source.write_text(text, encoding="utf-8")
    flags: Sequence[str] = ("--compiler=clang", "-O1", "-g", "-w", *words)
    ran = tenant_cc(library, *flags, "-o", os.fspath(image), os.fspath(source))
    assert (ran.status, ran.errors) == (0, "")
    return image
