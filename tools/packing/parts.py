"""Which of the installed files is in which package of Debian, and where it is there."""

import re
from dataclasses import dataclass
from typing import Optional

PROGRAMS, DEVELOPMENT, PYTHON, PAGES = (
    "tombolopan", "libtombolopan-dev", "python3-tombolopan", "tombolopan-doc",
)
# What is built for tenants may not be in usr/share, where all machines' files are alike.
TENANTS = "lib/tombolopan/libc"
IMAGE = "lib/tombolopan/hi.elf"
# A name below the prefix, its package, and its name in usr: of each file the first that fits.
# {arch} is the folder of this machine's libraries, {shared} the package of the shared object.
RULES = (
    (r"share/tombolopan/(?:installed|unproved)", "", ""),
    (r"lib/(libtombolopan\.so\.\d+)", "{shared}", r"lib/{arch}/\1"),
    (r"lib/(libtombolopan\.\w+|pkgconfig/.*)", DEVELOPMENT, r"lib/{arch}/\1"),
    (r"(include/tombolopan(?:_explain)?\.h|share/man/man3/.*)", DEVELOPMENT, r"\1"),
    (r"(share/tombolopan/tombolopan\.rs)", DEVELOPMENT, r"\1"),
    (r"share/tombolopan/(tombolopan(?:_profile)?/.*)", PYTHON, r"lib/python3/dist-packages/\1"),
    (r"share/doc/tombolopan/(.*)", PAGES, r"share/doc/tombolopan/\1"),
    (r"share/zsh/site-functions/(.*)", PROGRAMS, r"share/zsh/vendor-completions/\1"),
    (r"share/tombolopan/examples/libc/out/(.*)", PROGRAMS, TENANTS + r"/\1"),
    (r"share/tombolopan/examples/hi\.elf", PROGRAMS, IMAGE),
    (r"(.*)", PROGRAMS, r"\1"),
)
# Links in the package of the programs to what is elsewhere in it.
LINKS = {
    "share/tombolopan/examples/libc/out": f"../../../../{TENANTS}",
    "share/tombolopan/examples/hi.elf": f"../../../{IMAGE}",
}


@dataclass(frozen=True)
class Place:
    """A package, and a name in its folder usr."""

    package: str
    name: str


def place_of(name: str, arch: str, shared: str) -> Optional[Place]:
    """Where an installed file goes; None where no package has it."""
    for pattern, package, target in RULES:
        found = re.fullmatch(pattern, name)
        if found:
            kept = found.expand(target.replace("{arch}", arch))
            return Place(package.replace("{shared}", shared), kept) if package else None
    raise AssertionError(name)


def pkg_config(text: str, arch: str) -> str:
    """The file for pkg-config, which is a folder deeper than in a prefix."""
    text = text.replace("${pcfiledir}/../..", "${pcfiledir}/../../..")
    return text.replace("libdir=${prefix}/lib", f"libdir=${{prefix}}/lib/{arch}")
