"""Programs over the C library of tenants, as tenants by tenant-cc and natively."""

import pathlib
import re
import shlex
import sys
from collections.abc import Sequence
from typing import Optional

from tests.support.places import EXAMPLES
from tests.support.running import Ran, run, succeed

TENANT_CC, TENANT_CXX = EXAMPLES / "libc" / "tenant-cc", EXAMPLES / "libc" / "tenant-c++"
LEVELS = ("-O0", "-O2", "-Os")
WARNINGS = ("-Wall", "-Wextra")
STEPS = "100000000"


def comment_value(source: pathlib.Path, name: str) -> Optional[str]:
    """What the first comment of a source says under a name."""
    comment = source.read_text(encoding="utf-8").partition("*/")[0]
    found = re.search(rf"^[ /*]*{name}: *(.*?) *$", comment, re.M)
    return found[1] if found else None


def is_for_clang(source: pathlib.Path) -> bool:
    """Whether gcc cannot compile it: it has no `double` without registers of floating point."""
    return re.search(r"clang's alone|for clang", source.read_text(encoding="utf-8")) is not None


def tenant_cc(library: pathlib.Path, *words: str, cwd: Optional[pathlib.Path] = None) -> Ran:
    """Runs tenant-cc over a library."""
    return run([sys.executable, TENANT_CC, f"--library={library}", *words], cwd=cwd)


def tenant_cxx(library: pathlib.Path, *words: str) -> Ran:
    """Runs tenant-c++ over a library."""
    return run([sys.executable, TENANT_CXX, f"--library={library}", *words])


def is_refused(ran: Ran, said: str) -> None:
    """What the driver says of words that it doesn't take."""
    assert (ran.status, ran.errors) == (2, f"tenant-cc: {said}\n")


def compiled(
    library: pathlib.Path, source: pathlib.Path, compiler: str, level: str, image: pathlib.Path,
    flags: Sequence[str] = WARNINGS,
) -> pathlib.Path:
    """The tenant of a source. Nothing may be said of it."""
    own = shlex.split(comment_value(source, "flags") or "")
    words = [f"--compiler={compiler}", level, "-g", *flags, *own, "-o", str(image), str(source)]
    ran = tenant_cc(library, *words)
    assert (ran.status, ran.output, ran.errors) == (0, "", "")
    return image


def native(source: pathlib.Path, program: pathlib.Path, *flags: str) -> pathlib.Path:
    """The same source for this machine."""
    compiler = "c++" if source.suffix == ".cpp" else "cc"
    succeed([compiler, *flags, "-o", program, source, "-lm"])
    return program


def run_as_tenant(alone: pathlib.Path, image: pathlib.Path, *options: str) -> Ran:
    """Runs a tenant alone."""
    return run([str(alone), "--steps", STEPS, *options, str(image)])
