"""The tenants of examples/c: what their comments expect, how they are built, and how they run in a
session and alone."""

import pathlib
import re
from collections.abc import Sequence
from dataclasses import dataclass
from functools import cached_property

from tests.support.places import EXAMPLES
from tests.support.running import Ran, run, succeed

FOLDER = EXAMPLES / "c"
LEVELS = ("-O0", "-O2", "-Os")
COMPILERS = {
    "clang": ["clang", "--target=aarch64-linux-gnu", "-fuse-ld=lld"],
    "gcc": ["aarch64-linux-gnu-gcc"],
}
FLAGS = ["-g", "-ffreestanding", "-nostdlib", "-static", "-mgeneral-regs-only", "-Wall", "-Wextra"]
SLICE, ROOM = 1048576, 64
# What a tenant of a hundred million instructions may take on a busy machine.
SECONDS = 300


@dataclass(frozen=True)
class Tenant:
    """A tenant, and what its first comment says of it."""

    source: pathlib.Path

    @cached_property
    def comment(self) -> str:
        """The first comment."""
        return self.source.read_text(encoding="utf-8").partition("*/")[0]

    def values(self, name: str) -> list[str]:
        """What the comment says under a name."""
        return re.findall(rf"^ *{name}: (.*?) *$", self.comment, re.M)

    def number(self, name: str, none: int) -> int:
        """A number of the comment."""
        return int((self.values(name) or [str(none)])[0])

    @property
    def name(self) -> str:
        """Its name."""
        return self.source.stem

    @property
    def ends(self) -> int:
        """The exit status of mte_run."""
        return self.number("ends", 0)

    @property
    def pages(self) -> int:
        """Its reservation."""
        return self.number("frames", 8)

    @property
    def slices(self) -> int:
        """How many slices it gets."""
        return self.number("slices", 1)

    @property
    def is_long(self) -> bool:
        """Whether it takes seconds."""
        return self.slices > 1

    @property
    def input(self) -> str:
        """What it may read."""
        return (self.values("input") or [""])[0]


def tenants() -> list[Tenant]:
    """All of them."""
    return [Tenant(path) for path in sorted(FOLDER.glob("*.c")) if path.stem != "start"]


def build(tenant: Tenant, compiler: str, level: str, image: pathlib.Path) -> pathlib.Path:
    """Its image, by a compiler for AArch64."""
    files = [str(path) for path in (image, FOLDER / "start.c", tenant.source)]
    said = succeed([*COMPILERS[compiler], level, *FLAGS, "-o", *files])
    assert not said.err, said.errors
    return image


def report_of(host: pathlib.Path, tenant: Tenant, image: pathlib.Path) -> str:
    """What the host reports of it, in a session of its own."""
    script, data = image.parent / "script", image.parent / "input"
    data.write_text(tenant.input, encoding="utf-8")
    admission = f"frames {tenant.pages} out {ROOM}"
    lines = [f"admit 1 image 1 input 2 seed 0000000000000001 {admission}",
             *[f"slice 1 {SLICE}"] * tenant.slices]
    script.write_text("\n".join(lines) + "\n", encoding="utf-8")
    frames = str(2 * tenant.pages + 1)
    return succeed([host, "--frames", frames, script, image, data]).output


def run_alone(
    alone: pathlib.Path, tenant: Tenant, image: pathlib.Path, *options: str
) -> Ran:
    """The same run alone."""
    data = image.parent / "input"
    data.write_text(tenant.input, encoding="utf-8")
    words: Sequence[str] = (
        "--pages", str(tenant.pages), "--out", str(ROOM), "--input", str(data),
        "--steps", str(SLICE * tenant.slices), *options, str(image),
    )
    return run([str(alone), *words], seconds=SECONDS)
