"""Images for first steps."""
from __future__ import annotations

_IMAGES = {
    "hi.elf": bytes.fromhex(
        "7f454c460201010000000000000000000200b7000100000000000100000000004000000000000000"
        "00000000000000000000000040003800010000000000000001000000050000007800000000000000"
        "00000100000000000000010000000000240000000000000024000000000000000100000000000000"
        "2000a0d200800091410080d2280080d2010000d4000080d2080080d2010000d448690000"
    ),
}


def example(name: str) -> bytes:
    """An image of this documentation by its name; KeyError for another name. `hi.elf` writes `Hi`
    and ends, in 8 steps.

    >>> len(example("hi.elf"))
    156
    """
    return _IMAGES[name]
