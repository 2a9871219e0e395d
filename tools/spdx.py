#!/usr/bin/env python3
"""Writes the list of what is inside the programs, the library and the libraries of tenants.

    spdx.py [LIBRARY..]

On standard output, as JSON of SPDX 2.3: the crates of crates.txt, those of the toolchain, what is
linked into which program, and the licence of each. LIBRARY is the name of a library of tenants that
is there (libc.a, libc++.a, libcore.rlib, ..; without one: libc.a). SOURCE_DATE_EPOCH is the date in
place of the commit's. This repository has no licence yet, so its own parts have none either
(NOASSERTION).
"""

import json
import sys

from packing import spdx
from packing.release import find_release


def main() -> None:
    """The command line."""
    words = sys.argv[1:]
    if any(it.startswith("-") for it in words):
        sys.exit(__doc__)
    document = spdx.document(find_release(is_unproved=False), words or ["libc.a"], {})
    print(json.dumps(document, indent=1))


if __name__ == "__main__":
    main()
