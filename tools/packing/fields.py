"""What each package of Debian says of itself: fields, scripts, overrides."""

import os
from dataclasses import dataclass

from packing.parts import DEVELOPMENT, IMAGE, PAGES, PROGRAMS, PYTHON, TENANTS

MAINTAINER = "Tombolopan <tombolopan@example.org>"
ANY, ALL = "any", "all"


@dataclass(frozen=True)
class Package:
    """A package. {version}, {least}, {shared} and {libraries} of `depends` are the version and the
    lowest one of its sources, the package of the shared object, and what has the libraries that its
    files need."""

    name: str
    architecture: str
    section: str
    synopsis: str
    description: str
    depends: str = ""
    recommends: str = ""
    suggests: str = ""
    multi_arch: str = ""


def all_packages(shared: str) -> tuple[Package, ...]:
    """The packages, by the name of that of the shared object."""
    return (
        Package(PROGRAMS, ANY, "devel", "host of A64 programs with memory tagging",
                "Runs the A64 programs of several tenants on one modelled Arm core with memory\n"
                "tagging, and says why a tenant ended. tenant-cc and tenant-c++ build tenants of\n"
                "programs in C and C++. With the libraries of tenants in C, C++ and Rust.",
                depends="{libraries}, python3:any",
                recommends="clang, lld, llvm, binutils-aarch64-linux-gnu",
                suggests=f"rustc, rust-src, cargo, gdb-multiarch, {PAGES}, {DEVELOPMENT}"),
        Package(shared, ANY, "libs", "sessions of A64 tenants with memory tagging",
                "A library that runs sessions of A64 programs, or one of them step by step, over\n"
                "a modelled memory with tags. This package has the shared library.",
                depends="{libraries}", multi_arch="same"),
        Package(DEVELOPMENT, ANY, "libdevel", "development files of Tombolopan",
                "A library that runs sessions of A64 programs, or one of them step by step, over\n"
                "a modelled memory with tags. This package has the headers, the static library,\n"
                "the manual pages of the calls, and a module of Rust.",
                depends="{shared} (= {version})", suggests=PAGES),
        Package(PYTHON, ALL, "python", "Tombolopan's library for Python",
                "A library that runs sessions of A64 programs, or one of them step by step, over\n"
                "a modelled memory with tags. This package has the module for Python 3.",
                depends="{shared} (>= {least}), python3:any", suggests=PAGES),
        Package(PAGES, ALL, "doc", "pages of Tombolopan",
                "The pages of Tombolopan: sessions, tenants, reports, debugging, embedding, and\n"
                "what is proved. With the list of what is inside, in SPDX's format.",
                suggests=PROGRAMS),
    )


def maintainer() -> str:
    """Who the package is from, as Debian's own tools are told."""
    name, mail = os.environ.get("DEBFULLNAME"), os.environ.get("DEBEMAIL")
    return f"{name} <{mail}>" if name and mail else MAINTAINER


def control(package: Package, values: dict[str, str], kilobytes: int) -> str:
    """The file control."""
    architecture = package.architecture.replace(ANY, values["architecture"])
    fields = {
        "Package": package.name, "Version": values["version"], "Architecture": architecture,
        "Source": "" if package.name == PROGRAMS else PROGRAMS, "Maintainer": maintainer(),
        "Installed-Size": str(kilobytes), "Depends": package.depends.format(**values),
        "Recommends": package.recommends, "Suggests": package.suggests,
        "Section": package.section, "Priority": "optional", "Multi-Arch": package.multi_arch,
        "Description": package.synopsis,
    }
    lines = [f"{name}: {value}" for name, value in fields.items() if value]
    return "\n".join([*lines, *(f" {line}" for line in package.description.splitlines()), ""])


# Python keeps what it compiled beside modules, which no list of files has.
CLEAN = """#!/bin/sh
set -e
find "${{DPKG_ROOT:-}}"{folder} -type d -name __pycache__ -prune \\
    -exec rm -rf {{}} + 2>/dev/null || true
"""
MODULES = "/usr/lib/python3/dist-packages/tombolopan*"
COMPILE_MODULE = """#!/bin/sh
set -e
if [ "$1" = configure ] && [ -z "${DPKG_ROOT:-}" ] && command -v py3compile >/dev/null 2>&1; then
    py3compile -p python3-tombolopan
fi
"""


def scripts(name: str) -> dict[str, str]:
    """The scripts of a package, by the names of their files."""
    if name == PROGRAMS:
        return {"prerm": CLEAN.format(folder="/usr/share/tombolopan")}
    if name == PYTHON:
        return {"postinst": COMPILE_MODULE, "prerm": CLEAN.format(folder=MODULES)}
    return {}


OVERRIDES = f"""# These run on the modelled core, whatever machine has the package.
binary-from-other-architecture [usr/{IMAGE}]
binary-from-other-architecture [usr/{TENANTS}/lib/start.o]
binary-from-other-architecture [usr/{TENANTS}/lib/large_blocks.o]
statically-linked-binary [usr/{IMAGE}]
# Crates of Rust, which are metadata beside objects.
no-code-sections [usr/{TENANTS}/rust/*.rlib]
"""


def overrides(name: str) -> str:
    """What lintian is told of a package, each with why."""
    return "".join(f"{name}: {line}\n" if not line.startswith("#") else f"{line}\n"
                   for line in OVERRIDES.splitlines()) if name == PROGRAMS else ""
