"""What is fuzzed: tenants of examples/fuzz, and the fuzzers over them."""

import pathlib
import sys
from typing import Optional

from tests.support import library
from tests.support.once import make_once
from tests.support.places import EXAMPLES
from tests.support.running import Ran, Word, run, succeed
from tests.support.tools import need

FUZZ = EXAMPLES / "fuzz"
BUILT = ("cards", "labels", "magic", "commands")
START = EXAMPLES / "c" / "start.c"
CLANG = ("clang", "--target=aarch64-linux-gnu", "-march=armv8.5-a+memtag", "-fuse-ld=lld", "-O2",
         "-g", "-ffreestanding", "-nostdlib", "-static", "-mgeneral-regs-only", "-Wall", "-Wextra")


def bare_tenant(shared: pathlib.Path, name: str, source: str, *words: str) -> pathlib.Path:
    """The image of a source of examples/fuzz, and of another one or with a definition."""
    need("clang", "ld.lld")

    def compile_it(path: pathlib.Path) -> None:
        said = succeed([*CLANG, "-o", path, START, FUZZ / source, *words], cwd=FUZZ)
        assert not said.err, said.errors

    return make_once(shared / f"{name}.elf", compile_it)


def witness(shared: pathlib.Path) -> pathlib.Path:
    """The tenant that ends by all that it finds in its machine."""
    return bare_tenant(shared, "witness", "witness.c")


def cards(shared: pathlib.Path) -> pathlib.Path:
    """The tenant with three planted bugs."""
    return bare_tenant(shared, "cards", "cards_tenant.c", "cards.c")


def labels(shared: pathlib.Path) -> pathlib.Path:
    """The tenant whose planted bug no tag shows."""
    return bare_tenant(shared, "labels", "labels.c")


def guarded(shared: pathlib.Path, name: str) -> pathlib.Path:
    """A tenant whose planted bug a comparison guards."""
    return bare_tenant(shared, name, "guarded.c", f"-D{name.upper()}")


def field(kind: str, text: bytes = b"") -> bytes:
    """A field of a card."""
    return kind.encode() + bytes([len(text)]) + text


def card(*fields: bytes) -> bytes:
    """A card."""
    return b"CARD" + b"".join(fields)


# By name: a card that shows a planted bug, and words of mte_run's report.
NAME, ENTER, FORGET, SEE = field("N", b"Ada"), field("{"), field("F"), field("C")
PLANTED = {
    "use after free": (card(NAME, ENTER * 3, FORGET, SEE), "Use After Free"),
    "double free": (card(NAME, ENTER, field("=")), "Double Free"),
    "overflow": (card(field("Q", b"." * 16 + b'"' * 40)), "Buffer Overflow"),
}


def fuzzers(shared: pathlib.Path, name: str) -> pathlib.Path:
    """The folder in which build.py has built some tenants and one fuzzer."""
    archive = library.static_library(shared)

    def fill(path: pathlib.Path) -> None:
        made = path.with_name(f"{path.name}.new")
        succeed([sys.executable, FUZZ / "build.py", made, "--library", archive, "--fuzzer", name,
                 *(word for it in BUILT for word in ("--tenant", it))])
        made.rename(path)

    return make_once(shared / f"fuzz-{name}", fill)


def fuzz(folder: pathlib.Path, words: list[Word], cwd: Optional[pathlib.Path] = None,
         seconds: int = 120, given: bytes = b"", **variables: str) -> Ran:
    """What a fuzzer says of the cards."""
    extra = {"TENANT": str(folder / "cards.elf"), "AFL_NO_UI": "1", "AFL_SKIP_CPUFREQ": "1",
             "AFL_NO_AFFINITY": "1", "AFL_I_DONT_CARE_ABOUT_MISSING_CRASHES": "1", **variables}
    return run(words, cwd=cwd or folder, stdin=given, extra=extra, seconds=seconds)
