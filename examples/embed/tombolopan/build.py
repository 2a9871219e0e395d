"""How the library was built."""
from __future__ import annotations

import ctypes

from .abi import _library


def build_info() -> str:
    """How the library was built: lines with the version of the release, the commit, whether files
    differed from it, the toolchain's sum, and proved or unproved."""
    lines = ctypes.create_string_buffer(160)
    length = _library.tb_build_info(lines, len(lines))
    return lines.raw[:length].decode()
