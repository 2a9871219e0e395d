"""The packages of Debian of what was built, and a root into which they are installed."""

import os
import pathlib
import subprocess
import urllib.request
from collections.abc import Mapping, Sequence

from tests.support import installed
from tests.support.once import make_once
from tests.support.places import ROOT, TESTS
from tests.support.running import Ran, Word, run, succeed
from tests.support.tools import git, give_up, need

NAMES = {"tombolopan", "libtombolopan2", "libtombolopan-dev", "python3-tombolopan",
         "tombolopan-doc"}
# Debian's archive, of which tests/debian_root.sh makes a root.
MIRROR = os.environ.get("TOMBOLOPAN_MIRROR", "http://deb.debian.org/debian")
ROOT_SECONDS = 3600
# What the packages need of the system, which a root has at its beginning.
SYSTEM = ("libc6", "python3")
LEFT_OUT = ("Depends", "Pre-Depends", "Recommends", "Suggests", "Conflicts", "Breaks", "Replaces",
            "Conffiles")


def git_folder() -> str:
    """Where git keeps the commit of this checkout."""
    return git("rev-parse", "--absolute-git-dir").strip()


def to_pack(shared: pathlib.Path) -> pathlib.Path:
    """A folder with what is packed, after it was installed."""
    need("rt", "cc", "ar")
    return installed.prefix(shared).parent / "built"


def release(out: pathlib.Path, built: pathlib.Path, top: pathlib.Path = ROOT) -> str:
    """Makes a release of what was built, as a trial, by a checkout or a copy of its files; what it
    prints."""
    need("dpkg-deb", "dpkg-shlibdeps", "strip", "git", "objcopy")
    words: list[Word] = [top / "tools" / "release.sh", "--dry-run", "--built", built, out]
    return succeed(words, extra={"GIT_DIR": git_folder()}).output


def released(shared: pathlib.Path, built: pathlib.Path) -> tuple[pathlib.Path, str]:
    """The files of a release, made once, and what was printed."""

    def make(table: pathlib.Path) -> None:
        table.write_text(release(table.parent / "files", built), encoding="utf-8")

    table = make_once(shared / "released" / "table", make)
    return table.parent / "files", table.read_text(encoding="utf-8")


def packages(shared: pathlib.Path, built: pathlib.Path) -> dict[str, pathlib.Path]:
    """The packages by their names."""
    folder, _ = released(shared, built)
    return {path.name.partition("_")[0]: path for path in sorted(folder.glob("*.deb"))
            if not path.name.endswith("_arm64.deb")}


def older(package: pathlib.Path, folder: pathlib.Path) -> pathlib.Path:
    """A package of an earlier version, with a file that the later one has not."""
    name, version, _ = package.name.split("_")
    content, made = folder / name, folder / f"{name}.deb"
    folder.mkdir(exist_ok=True)
    succeed(["dpkg-deb", "--raw-extract", package, content])
    control = content / "DEBIAN" / "control"
    control.write_text(control.read_text(encoding="utf-8").replace(version, "0.1"),
                       encoding="utf-8")
    (content / "usr/share/doc" / name / "gone").touch()
    succeed(["dpkg-deb", "--root-owner-group", "-Znone", "--build", content, made])
    return made


def need_archive(machine: str) -> None:
    """Skips a test where no root of Debian can be made for a machine."""
    need("mmdebstrap", "chroot", *([] if machine == "amd64" else ["qemu-aarch64-static"]))
    if os.geteuid() != 0:
        give_up("a root of Debian is made by root alone")
    try:
        urllib.request.urlopen(f"{MIRROR}/dists/bookworm/Release", timeout=20).close()
    except OSError as error:
        give_up(f"{MIRROR} is not reached: {error}")


def try_in_root(machine: str, packages: pathlib.Path, image: pathlib.Path,
                earlier: pathlib.Path) -> str:
    """Installs packages in a new root of Debian, over others too, and removes them; what is said
    of it."""
    words: list[Word] = [TESTS / "debian_root.sh", machine, packages, image, earlier]
    return succeed(words, seconds=ROOT_SECONDS, extra={"TOMBOLOPAN_MIRROR": MIRROR}).errors


def stanza(name: str) -> str:
    """What the package manager knows of a package of this system, without what it needs."""
    kept: list[str] = []
    is_kept = True
    for line in succeed(["dpkg-query", "--status", name]).output.splitlines():
        if not line.startswith(" "):
            is_kept = line.partition(":")[0] not in LEFT_OUT
        if is_kept:
            kept.append(line)
    return "\n".join([*kept, ""])


class Root:
    """A root with nothing in it but a package manager's lists, which say that it has SYSTEM."""

    def __init__(self, top: pathlib.Path) -> None:
        self.top, self.usr = top, top / "usr"
        lists = top / "var" / "lib" / "dpkg"
        for name in ("info", "updates", "triggers"):
            (lists / name).mkdir(parents=True)
        (lists / "status").write_text("\n".join(map(stanza, SYSTEM)), encoding="utf-8")
        for name in SYSTEM:
            told = ["dpkg-query", "--show", "--showformat=${binary:Package}", name]
            (lists / "info" / f"{succeed(told).output}.list").touch()

    def manage(self, *words: str | pathlib.Path) -> Ran:
        """Runs the package manager, whose scripts run in this system with the root's name."""
        command = ["dpkg", f"--root={self.top}", "--log=/dev/null", "--force-script-chrootless",
                   "--force-not-root", *words]
        return succeed(command, extra={"PATH": f"{os.environ['PATH']}:/usr/sbin:/sbin"})

    def names(self) -> list[str]:
        """All that is in the root but the package manager's lists."""
        return sorted(str(it.relative_to(self.top)) for it in self.top.rglob("*")
                      if not str(it.relative_to(self.top)).startswith("var"))

    def library(self) -> pathlib.Path:
        """The folder of the libraries of this machine."""
        machine = succeed(["dpkg-architecture", "-qDEB_HOST_MULTIARCH"]).output.strip()
        return self.usr / "lib" / machine

    def variables(self) -> Mapping[str, str]:
        """What finds in the root what a system finds in its own."""
        return {"PATH": f"{self.usr}/bin{os.pathsep}{os.environ['PATH']}",
                "LD_LIBRARY_PATH": str(self.library()), "TENANT_LIBRARY": "",
                "TOMBOLOPAN_BUILT": "", "TOMBOLOPAN": "", "PYTHONDONTWRITEBYTECODE": "",
                "PKG_CONFIG_LIBDIR": f"{self.library()}/pkgconfig",
                "PYTHONPATH": f"{self.usr}/lib/python3/dist-packages",
                "MANPATH": f"{self.usr}/share/man", "MANWIDTH": "80", "LC_ALL": "C.UTF-8"}

    def run(self, words: Sequence[str], cwd: pathlib.Path) -> Ran:
        """Runs a program as one would that has the root as its own."""
        return run(words, cwd=cwd, extra=self.variables())


def files_of(package: pathlib.Path) -> dict[str, str]:
    """The files and links of a package, each with its mode."""
    told = subprocess.run(["dpkg-deb", "--contents", package], stdout=subprocess.PIPE, text=True,
                          check=True).stdout
    lines = [line.split(maxsplit=5) for line in told.splitlines()]
    return {it[5].partition(" -> ")[0].removeprefix("./"): it[0] for it in lines
            if not it[0].startswith("d")}
