"""The note in an ELF file that says how it was built."""

import pathlib
import re

from tests.support.running import succeed
from tests.support.tools import need

SECTION = ".note.tombolopan"


def noted(path: pathlib.Path) -> str:
    """The lines of the note, which readelf shows as the strings of its section."""
    need("readelf")
    told = succeed(["readelf", "--string-dump", SECTION, path]).output
    return "".join(f"{line}\n" for line in re.findall(r"^ +(?:\[.*?\] +)?(.*)\\n$", told, re.M))
