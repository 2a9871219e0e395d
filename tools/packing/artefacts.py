"""The files of a release, each by the script that makes it."""

import gzip
import hashlib
import os
import pathlib
import shutil
import sys
import tempfile
from collections.abc import Callable, Sequence
from dataclasses import dataclass, field
from typing import Any, Optional

from batch.envelope import enclose
from packing import built, provenance, ready
from packing.built import NotMade, run
from packing.gate_log import Gate
from packing.release import ROOT, Release, find_release

TOOLS = ROOT / "tools"
SUMS, PAGE = "SHA256SUMS", "tombolopan.html"
# The steps of a trial, which takes seconds; those of a release are golden_release.py's own.
FEW_STEPS = ("--count", "860")
DOCUMENT = "./usr/share/doc/tombolopan/tombolopan.spdx.json"


def say(text: str) -> None:
    """Says how far it is."""
    print(f"release.sh: {text}", file=sys.stderr, flush=True)


@dataclass(frozen=True)
class Request:
    """What the command line asks for, with what the gate's log says and the key that signs."""

    log: Optional[pathlib.Path]
    gate: Optional[Gate]
    key: Any
    folder: Optional[pathlib.Path]
    is_dry: bool


@dataclass
class Made:
    """A folder that gets the files, one with what was built, and why a file is not there."""

    out: pathlib.Path
    built: pathlib.Path
    release: Release
    missing: dict[str, str] = field(default_factory=dict)

    def name(self, form: str) -> pathlib.Path:
        """The path of a file with the version in its name."""
        return self.out / form.format(self.release.version)


def make_sources(made: Made, _: Request) -> None:
    """The commit's files, dated by it."""
    version = find_release(is_unproved=False).version
    whole = run("git", "-C", ROOT, "-c", "tar.umask=0022", "archive", "--format=tar",
                f"--prefix=tombolopan-{version}/", "HEAD")
    path = made.out / f"tombolopan_{version}.tar.gz"
    path.write_bytes(gzip.compress(whole, compresslevel=6, mtime=0))


def make_packages(made: Made, _: Request) -> None:
    """The packages of Debian, and the list of what is inside from that of the pages."""
    paths = run(TOOLS / "deb.sh", made.out, made.built).decode().splitlines()
    pages = next(it for it in paths if "/tombolopan-doc_" in it)
    with tempfile.TemporaryDirectory(prefix="release-") as folder:
        run("dpkg-deb", "--extract", pages, folder)
        shutil.copy(pathlib.Path(folder, DOCUMENT), made.name("tombolopan_{}.spdx.json"))


def make_arm64(made: Made, _: Request) -> None:
    """The packages for arm64. A trial has them where programs and library are built for it."""
    if (made.built / built.ARM64).exists():
        run(TOOLS / "deb.sh", "--arm64", made.out, made.built)
    else:
        made.missing[made.name("tombolopan_{}_arm64.deb").name] = (
            "not built (tools/build.sh --arm64)")


def make_wheel(made: Made, _: Request) -> None:
    """The package of Python."""
    run(sys.executable, TOOLS / "python_wheel.py", made.out, made.built / built.LIBRARY)


def make_page(made: Made, request: Request) -> None:
    """The page that runs in a browser. A trial has it where it is made already."""
    path, given = made.name("tombolopan_{}.html"), request.folder and request.folder / PAGE
    if request.is_dry:
        if given and given.exists():
            shutil.copyfile(given, path)
        else:
            made.missing[path.name] = "takes minutes, and is not made here (tools/wasm.sh)"
        return
    with tempfile.TemporaryDirectory(prefix="release-") as folder:
        said = run(TOOLS / "wasm.sh", folder).decode()
        if "of a proved build" not in said:
            raise NotMade(f"the page is not of a proved build: {said}")
        shutil.copyfile(pathlib.Path(folder, PAGE), path)


def make_steps(made: Made, request: Request) -> None:
    """The golden steps."""
    few = FEW_STEPS if request.is_dry else ()
    run(sys.executable, TOOLS / "golden_release.py", *few, "--library",
        made.built / built.LIBRARY, made.out)


def take_log(made: Made, request: Request) -> None:
    """The log of the gate."""
    path = made.name("tombolopan-gate_{}.log")
    if request.log:
        shutil.copyfile(request.log, path)
    else:
        made.missing[path.name] = "no log of the gate is given"


def make_statement(made: Made, request: Request) -> None:
    """The statement of how all this was made."""
    files = sorted(made.out.iterdir())
    inputs = [made.built / name for name in built.FILES]
    said = provenance.statement(files, inputs, made.release, request.gate)
    path = made.name("tombolopan_{}.intoto.json")
    path.write_text(enclose(said, request.key), encoding="utf-8")


def make_sums(made: Made, _: Request) -> None:
    """The sums of all files, as sha256sum has them."""
    lines = [f"{hashlib.sha256(it.read_bytes()).hexdigest()}  {it.name}\n"
             for it in sorted(made.out.iterdir())]
    (made.out / SUMS).write_text("".join(lines), encoding="utf-8")


STEPS: tuple[tuple[str, Callable[[Made, Request], None]], ...] = (
    ("the sources", make_sources), ("the packages of Debian", make_packages),
    ("those for arm64", make_arm64), ("the wheel", make_wheel), ("the page", make_page),
    ("the golden steps", make_steps),
    ("the log of the gate", take_log), ("the statement", make_statement), ("the sums", make_sums),
)


def files_of(request: Request, work: pathlib.Path) -> dict[str, pathlib.Path]:
    """What was built. The library of a release is made over what the gate proved."""
    found = built.places(request.folder)
    if not request.is_dry and not found[built.LIBRARY].exists():
        say("the library for C")
        found[built.LIBRARY] = work / built.LIBRARY
        run(sys.executable, TOOLS / "static_library.py", found[built.LIBRARY])
    return found


def obstacles(request: Request, files: dict[str, pathlib.Path],
              tenants: pathlib.Path) -> Sequence[str]:
    """All that stands in the way of a release."""
    return [*ready.of_the_tree(), *ready.of_the_gate(request.gate),
            *ready.of_programs(files, request.gate), *ready.of_libraries(tenants),
            *ready.of_arm64(built.places(request.folder, built.ARM64))]


def look_at_marks(work: pathlib.Path) -> None:
    """There is no release where a file says of itself that it is another build."""
    wrong = [*ready.of_marks(work, built.FILES),
             *ready.of_marks(work / built.ARM64, built.FILES, "unproved")]
    if wrong:
        raise NotMade("\n".join(wrong))


def make_all(request: Request, out: pathlib.Path) -> Made:
    """Makes all files in a folder."""
    with tempfile.TemporaryDirectory(prefix="release-") as folder:
        work = pathlib.Path(folder, "built")
        work.mkdir()
        files = files_of(request, pathlib.Path(folder))
        tenants = built.tenants_of(request.folder)
        absent = [name for name, path in files.items() if not path.exists()]
        if absent:
            raise NotMade(f"not built: {' '.join(absent)} (tools/build.sh)")
        is_unproved = built.take(files, tenants, work)
        built.take_arm64(request.folder, work)
        os.environ["SOURCE_DATE_EPOCH"] = str(find_release(is_unproved).seconds)
        made = Made(out, work, find_release(is_unproved))
        if not request.is_dry:
            look_at_marks(work)
        for title, make in STEPS:
            say(title)
            make(made, request)
        return made


