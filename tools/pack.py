#!/usr/bin/env python3
"""Makes the packages of Debian of an installed tree (tools/deb.sh installs it).

    pack.py [--arm64] PREFIX OUT

PREFIX is the folder usr of the tree, OUT the folder to write into; the packages' paths are printed.
With --arm64 programs and libraries are that machine's, and only packages that have some are made.
Needed: dpkg-dev, binutils, git; for arm64 binutils-aarch64-linux-gnu.
"""

import pathlib
import sys
import tempfile

from packing.packages import ARM64, Packer, this_machine
from packing.release import find_release


def main() -> None:
    """The command line."""
    words, machine = sys.argv[1:], this_machine()
    if words[:1] == ["--arm64"]:
        words, machine = words[1:], ARM64
    if len(words) != 2 or words[0].startswith("-"):
        sys.exit(__doc__)
    prefix, out = (pathlib.Path(it).resolve() for it in words)
    release = find_release((prefix / "share/tombolopan/unproved").exists())
    out.mkdir(parents=True, exist_ok=True)
    with tempfile.TemporaryDirectory(prefix="packages-") as folder:
        packer = Packer(prefix, pathlib.Path(folder), release, machine)
        packer.sort_files()
        for path in packer.write_packages(out):
            print(path)


if __name__ == "__main__":
    main()
