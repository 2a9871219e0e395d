"""Makes the packages of Debian: sorts installed files into folders, adds what Debian wants beside
them, and packs each with the same bytes each time."""

import gzip
import hashlib
import json
import os
import pathlib
import re
import shutil
import subprocess
from collections.abc import Iterator
from dataclasses import dataclass

from packing import fields, spdx
from packing.fields import Package, all_packages
from packing.notices import notice
from packing.parts import LINKS, PAGES, PROGRAMS, Place, pkg_config, place_of
from packing.release import Release

PROGRAM_NAMES = ("mte_host", "mte_run")
CHANGELOG = """\
tombolopan ({version}) unstable; urgency=medium

  * /usr/share/doc/tombolopan/CHANGELOG.md of tombolopan-doc has what changed.

 -- {maintainer}  {date}
"""


def output(*words: object, cwd: pathlib.Path | None = None) -> str:
    """What a command writes."""
    ran = subprocess.run([str(it) for it in words], stdout=subprocess.PIPE, text=True, check=True,
                         cwd=cwd)
    return ran.stdout.strip()


def packed(data: bytes) -> bytes:
    """Compressed as Debian compresses texts: no name, no date."""
    return gzip.compress(data, compresslevel=9, mtime=0)


@dataclass(frozen=True)
class Machine:
    """The machine of packages: Debian's name of it, the folder of its libraries, the program that
    strips its files, and whether it is this one."""

    name: str
    libraries: str
    strip: str
    is_own: bool


def this_machine() -> Machine:
    """This one."""
    return Machine(output("dpkg", "--print-architecture"),
                   output("dpkg-architecture", "-qDEB_HOST_MULTIARCH"), "strip", True)


ARM64 = Machine("arm64", "aarch64-linux-gnu", "aarch64-linux-gnu-strip", False)


class Packer:
    """An installed tree on its way into packages, each in a folder of its own."""

    def __init__(self, prefix: pathlib.Path, work: pathlib.Path, release: Release,
                 machine: Machine) -> None:
        self.prefix, self.work, self.release, self.machine = prefix, work, release, machine
        self.arch = machine.libraries
        library = next(prefix.glob("lib/libtombolopan.so.[0-9]*"))
        self.number = library.name.rpartition(".")[2]
        self.shared = f"libtombolopan{self.number}"
        libraries = prefix / "share/tombolopan/examples/libc/out"
        self.libraries = sorted(it.name for pattern in ("lib/*.a", "rust/**/*.rlib")
                                for it in libraries.glob(pattern))

    def top(self, package: str) -> pathlib.Path:
        """The folder of a package, where Debian's tools look for it."""
        return self.work / "debian" / package

    def usr(self, package: str) -> pathlib.Path:
        """The folder usr of a package."""
        return self.top(package) / "usr"

    def put(self, place: Place, data: bytes) -> pathlib.Path:
        """Writes a file of a package."""
        path = self.usr(place.package) / place.name
        path.parent.mkdir(parents=True, exist_ok=True)
        path.write_bytes(data)
        path.chmod(0o644)
        return path

    def sort_files(self) -> None:
        """Copies each installed file to where its package has it."""
        for source in sorted(self.prefix.rglob("*")):
            place = None
            if source.is_symlink() or source.is_file():
                place = place_of(str(source.relative_to(self.prefix)), self.arch, self.shared)
            if place is not None:
                self.copy(source, place)
        self.add_links()
        self.mark_unproved()

    def copy(self, source: pathlib.Path, place: Place) -> None:
        """Copies a file or a link, as Debian wants it."""
        target = self.usr(place.package) / place.name
        target.parent.mkdir(parents=True, exist_ok=True)
        if source.is_symlink():
            target.symlink_to(os.readlink(source))
        elif re.search(r"/man\d/", place.name):
            self.put(Place(place.package, f"{place.name}.gz"), packed(source.read_bytes()))
        elif source.suffix == ".pc":
            self.put(place, pkg_config(source.read_text(encoding="utf-8"), self.arch).encode())
        else:
            shutil.copyfile(source, target)
            is_program = os.access(source, os.X_OK) and ".so." not in source.name
            target.chmod(0o755 if is_program else 0o644)
            self.strip(target, place)

    def strip(self, path: pathlib.Path, place: Place) -> None:
        """Takes away what only a linker or a debugger reads of what runs on this machine."""
        if place.name.startswith(("bin/", f"lib/{self.arch}/libtombolopan.so")):
            if path.read_bytes()[:4] == b"\x7fELF":
                output(self.machine.strip, "--strip-unneeded", path)
        elif path.suffix == ".a" and place.name.startswith(f"lib/{self.arch}/"):
            output(self.machine.strip, "--strip-debug", "--enable-deterministic-archives", path)

    def add_links(self) -> None:
        """Links to what is not where a checkout has it."""
        usr = self.usr(PROGRAMS)
        for name, target in LINKS.items():
            if (usr / name).parent.joinpath(target).exists():
                (usr / name).symlink_to(target)

    def mark_unproved(self) -> None:
        """Which programs are built without proof, with the sums that they have here."""
        mark = self.prefix / "share/tombolopan/unproved"
        if not mark.exists():
            return
        named = {line.rpartition("/")[2] for line in mark.read_text(encoding="utf-8").splitlines()}
        lines = []
        for name in PROGRAM_NAMES:
            if name in named:
                data = (self.usr(PROGRAMS) / "bin" / name).read_bytes()
                lines.append(f"{hashlib.sha256(data).hexdigest()}  ../../bin/{name}\n")
        if lines:
            self.put(Place(PROGRAMS, "share/tombolopan/unproved"), "".join(lines).encode())

    def needed(self, package: Package) -> str:
        """The packages that have the libraries which a package's own files need."""
        files = [*self.usr(package.name).glob(f"lib/{self.arch}/*.so.*"),
                 *(self.usr(package.name) / "bin" / it for it in PROGRAM_NAMES)]
        there = [f"-e{it}" for it in files if it.exists()]
        if not there or "{libraries}" not in package.depends:
            return ""
        if not self.machine.is_own:
            # This system does not have the packages of that machine's libraries.
            data = b"".join(it.read_bytes() for it in files if it.exists())
            newest = max(int(it) for it in re.findall(rb"\0GLIBC_2\.(\d+)", data))
            return f"libc6 (>= 2.{newest})"
        stub = f"Source: {PROGRAMS}\n\nPackage: {package.name}\nArchitecture: any\n"
        (self.work / "debian" / "control").write_text(stub, encoding="utf-8")
        told = output("dpkg-shlibdeps", "-O", *there, cwd=self.work)
        return told.partition("=")[2]

    def sums(self) -> dict[str, str]:
        """The sums of the programs and of the shared library, by their crates."""
        files = {it: self.usr(PROGRAMS) / "bin" / it for it in PROGRAM_NAMES}
        library = f"lib/{self.arch}/libtombolopan.so.{self.number}"
        files["tombolopan_c"] = self.usr(self.shared) / library
        return {name: hashlib.sha256(it.read_bytes()).hexdigest()
                for name, it in files.items() if it.exists()}

    def add_documents(self, package: Package) -> None:
        """The licence, the changes, and what lintian is told; the list of what is inside."""
        folder = f"share/doc/{package.name}"
        text = notice(package.name, self.shared, self.libraries)
        self.put(Place(package.name, f"{folder}/copyright"), text.encode())
        changes = CHANGELOG.format(version=self.release.version, maintainer=fields.maintainer(),
                                   date=self.release.mail_date)
        self.put(Place(package.name, f"{folder}/changelog.gz"), packed(changes.encode()))
        if fields.overrides(package.name):
            self.put(Place(package.name, f"share/lintian/overrides/{package.name}"),
                     fields.overrides(package.name).encode())
        if package.name == PAGES:
            listed = spdx.document(self.release, self.libraries, self.sums())
            self.put(Place(PAGES, "share/doc/tombolopan/tombolopan.spdx.json"),
                     (json.dumps(listed, indent=1) + "\n").encode())

    def control_files(self, package: Package) -> Iterator[tuple[str, str]]:
        """The files of a package's folder DEBIAN."""
        top = self.top(package.name)
        values = {"version": self.release.version, "least": self.release.least,
                  "shared": self.shared, "libraries": self.needed(package),
                  "architecture": self.machine.name}
        files = sorted(it for it in top.rglob("*") if it.is_file() and not it.is_symlink())
        kilobytes = sum((it.stat().st_size + 1023) // 1024 for it in files) + len(files)
        yield "control", fields.control(package, values, kilobytes)
        sums = [f"{hashlib.md5(it.read_bytes()).hexdigest()}  {it.relative_to(top)}\n"
                for it in files]
        yield "md5sums", "".join(sums)
        if package.name == self.shared:
            needed = f"{self.shared} (>= {self.release.version})"
            yield "shlibs", f"libtombolopan {self.number} {needed}\n"
            yield "triggers", "activate-noawait ldconfig\n"
        yield from fields.scripts(package.name).items()

    def date_files(self, top: pathlib.Path) -> None:
        """Gives every file and folder the date of the release, and folders their mode."""
        for path in [top, *top.rglob("*")]:
            if path.is_dir() and not path.is_symlink():
                path.chmod(0o755)
            os.utime(path, (self.release.seconds,) * 2, follow_symlinks=False)

    def write_packages(self, out: pathlib.Path) -> Iterator[pathlib.Path]:
        """Packs each package into a folder, and gives its path. Those of all machines are packed
        with this machine's."""
        os.environ["SOURCE_DATE_EPOCH"] = str(self.release.seconds)
        for package in all_packages(self.shared):
            if package.architecture == fields.ALL and not self.machine.is_own:
                continue
            top = self.top(package.name)
            self.add_documents(package)
            (top / "DEBIAN").mkdir()
            made = dict(self.control_files(package))
            for name, text in made.items():
                path = top / "DEBIAN" / name
                path.write_text(text, encoding="utf-8")
                path.chmod(0o755 if text.startswith("#!") else 0o644)
            self.date_files(top)
            architecture = re.findall(r"^Architecture: (.*)$", made["control"], re.M)[0]
            path = out / f"{package.name}_{self.release.version}_{architecture}.deb"
            # -z3: the library of Rust takes a third of the time, and a tenth more bytes.
            output("dpkg-deb", "--root-owner-group", "--threads-max=1", "-z3", "--build", top, path)
            yield path
