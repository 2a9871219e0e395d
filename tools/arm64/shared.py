"""Links the library for C for arm64 as a shared object: its own calls alone are seen from outside,
and all that the headers declare.

    PYTHONPATH=tools python3 -m arm64.shared LIBRARY.a OUT.so

As examples/embed/shared.sh does it for this machine. Needed (Debian): gcc-aarch64-linux-gnu.
"""

import pathlib
import re
import subprocess
import sys
import tempfile

from arm64.command import COMPILER

NAME = "libtombolopan.so.2"
HEADERS = pathlib.Path(__file__).resolve().parents[2] / "include"


def link(archive: pathlib.Path, out: pathlib.Path) -> None:
    """Links it."""
    with tempfile.NamedTemporaryFile("w", suffix=".map") as calls:
        calls.write("{ global: tb_*; local: *; };\n")
        calls.flush()
        subprocess.run(
            [COMPILER, "-shared", "-o", out, f"-Wl,-soname,{NAME}",
             f"-Wl,--version-script={calls.name}", "-Wl,-z,defs", "-Wl,--gc-sections",
             "-Wl,--build-id=none", "-Wl,--whole-archive", archive, "-Wl,--no-whole-archive"],
            check=True)


def missing(library: pathlib.Path) -> list[str]:
    """The calls that the headers declare and a shared object has not."""
    ran = subprocess.run(["aarch64-linux-gnu-nm", "-D", "--defined-only", library], check=True,
                         stdout=subprocess.PIPE, text=True)
    declared = {name for path in HEADERS.glob("*.h")
                for name in re.findall(r"^\w+ (tb_\w+)\(", path.read_text("utf-8"), re.M)}
    return sorted(declared - set(re.findall(r" T (\w+)$", ran.stdout, re.M)))


def main() -> None:
    """Reads the command line."""
    if len(sys.argv) != 3:
        sys.exit(__doc__)
    archive, out = map(pathlib.Path, sys.argv[1:])
    link(archive, out)
    if missing(out):
        sys.exit(f"arm64.shared: {archive.name} has no {' '.join(missing(out))}")


if __name__ == "__main__":
    main()
