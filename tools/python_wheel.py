#!/usr/bin/env python3
"""Makes a wheel of the package of Python, with the library inside.

    python_wheel.py OUT [LIBRARY.a]

OUT is a folder; the wheel's name is written to standard output. LIBRARY.a is by default what
tools/build.sh has built, or libtombolopan_c.a in the folder that TOMBOLOPAN_BUILT names. Nothing is
built or proved here. `pip install .` makes its wheel by this too, without a package of others
(pyproject.toml names it as the backend); `--config-settings library=LIBRARY.a` names another one.

The wheel of a library that is built without proof has a version that sorts below that of a proved
one. The same sources and library give the same bytes. Needed: cc, rt.
"""
import base64
import hashlib
import os
import pathlib
import platform
import re
import subprocess
import sys
import tempfile
import tomllib
import zipfile
from collections.abc import Iterator, Mapping
from typing import Optional

from packing.release import ROOT, read_version

ARCHIVE = "libtombolopan_c.a"
PACKAGES = [ROOT / "examples" / "embed" / name for name in ("tombolopan", "tombolopan_profile")]
# The oldest of the systems' C libraries that wheels name.
OLDEST = 17
METADATA = """Metadata-Version: 2.1
Name: {name}
Version: {version}
Summary: {description}
Requires-Python: {python}
"""
WHEEL = """Wheel-Version: 1.0
Generator: tools/python_wheel.py
Root-Is-Purelib: false
Tag: {tag}
"""


class NotBuilt(Exception):
    """There is no library to put into a wheel."""


def find_archive(named: Optional[str]) -> pathlib.Path:
    """The static library."""
    folder = os.environ.get("TOMBOLOPAN_BUILT") or ROOT / "crates" / "tombolopan_c" / "out"
    path = pathlib.Path(named) if named else pathlib.Path(folder) / ARCHIVE
    if not path.is_file():
        raise NotBuilt(f"{path} is not there: tools/build.sh [--unproved] --only {ARCHIVE}")
    return path.resolve()


def is_unproved(archive: pathlib.Path) -> bool:
    """Whether it is marked as built without proof."""
    mark = archive.with_name(f"{archive.name}.unproved")
    total = hashlib.sha256(archive.read_bytes()).hexdigest()
    return mark.is_file() and total in mark.read_text(encoding="utf-8")


def linked(archive: pathlib.Path, folder: pathlib.Path) -> bytes:
    """The shared object, which says how it was built."""
    path = folder / "libtombolopan.so"
    subprocess.run([ROOT / "examples/embed/shared.sh", path, archive], check=True)
    how = ["--unproved"] if is_unproved(archive) else []
    subprocess.run([sys.executable, ROOT / "tools/mark.py", *how, path], check=True)
    return path.read_bytes()


def tag_of(library: bytes) -> str:
    """The systems that can load it: by the newest version of the C library that it names."""
    needed = [int(it) for it in re.findall(rb"\0GLIBC_2\.(\d+)", library)]
    return f"py3-none-manylinux_2_{max([OLDEST, *needed])}_{platform.machine()}"


def row(name: str, data: bytes) -> str:
    """A line of the list of files."""
    total = base64.urlsafe_b64encode(hashlib.sha256(data).digest()).rstrip(b"=").decode()
    return f"{name},sha256={total},{len(data)}\n"


def files_of(library: bytes, version: str) -> Iterator[tuple[str, bytes]]:
    """The files of the wheel, but for the list of them."""
    about = tomllib.loads((ROOT / "pyproject.toml").read_text(encoding="utf-8"))["project"]
    for package in PACKAGES:
        for path in sorted([*package.glob("*.py"), package / "py.typed"]):
            yield f"{package.name}/{path.name}", path.read_bytes()
    yield "tombolopan/libtombolopan.so", library
    text = METADATA.format(**about, version=version, python=about["requires-python"])
    yield f"tombolopan-{version}.dist-info/METADATA", text.encode()
    yield f"tombolopan-{version}.dist-info/WHEEL", WHEEL.format(tag=tag_of(library)).encode()


def write_wheel(path: pathlib.Path, files: Mapping[str, bytes], record: str) -> None:
    """Writes the archive, whose times say nothing."""
    rows = "".join(row(name, data) for name, data in files.items())
    whole = {**files, record: f"{rows}{record},,\n".encode()}
    with zipfile.ZipFile(path, "w") as archive:
        for name, data in whole.items():
            it = zipfile.ZipInfo(name)
            it.external_attr = (0o100755 if name.endswith(".so") else 0o100644) << 16
            archive.writestr(it, data, zipfile.ZIP_DEFLATED)


def make(out: pathlib.Path, named: Optional[str]) -> str:
    """Makes the wheel in a folder; its name."""
    archive = find_archive(named)
    version = read_version() + (".dev0+unproved" if is_unproved(archive) else "")
    with tempfile.TemporaryDirectory() as folder:
        library = linked(archive, pathlib.Path(folder))
    name = f"tombolopan-{version}-{tag_of(library)}.whl"
    out.mkdir(parents=True, exist_ok=True)
    files = dict(files_of(library, version))
    write_wheel(out / name, files, f"tombolopan-{version}.dist-info/RECORD")
    return name


def build_wheel(wheel_directory: str, config_settings: Optional[Mapping[str, str]] = None,
                metadata_directory: Optional[str] = None) -> str:
    """What pip calls (PEP 517)."""
    return make(pathlib.Path(wheel_directory), (config_settings or {}).get("library"))


def build_sdist(sdist_directory: str,
                config_settings: Optional[Mapping[str, str]] = None) -> str:
    """There is no archive of the sources of the package alone (PEP 517)."""
    raise NotBuilt("the package is made in a checkout, in which the library is built")


def main() -> None:
    """Reads the command line."""
    if len(sys.argv) not in (2, 3) or sys.argv[1].startswith("-"):
        sys.exit(__doc__)
    try:
        print(make(pathlib.Path(sys.argv[1]), sys.argv[2] if len(sys.argv) == 3 else None))
    except NotBuilt as error:
        sys.exit(f"python_wheel.py: {error}")


if __name__ == "__main__":
    main()
