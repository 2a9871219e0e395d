"""The file copyright of a package: what has which licence."""

import pathlib
import textwrap
from collections.abc import Iterator

from packing.components import Component, linked_crates, read_components
from packing.parts import DEVELOPMENT, PROGRAMS

LICENCES = pathlib.Path(__file__).resolve().parent / "licences"
OWN = """\
Copyright 2026 the owner of Tombolopan.

Tombolopan has no licence yet: its owner has not chosen one. So this file gives no right to copy or
to change it.
"""
ALSO = """\
Linked into what this package has, with licences of their own:
"""
APACHE = """\
On Debian systems the text of the Apache License, Version 2.0 is in
/usr/share/common-licenses/Apache-2.0.
"""
TEXTS = {"MIT": "MIT.txt", "BSD-3-Clause": "BSD-3-Clause.txt",
         "LLVM-exception": "LLVM-exception.txt"}


def inside(package: str, shared: str, libraries: list[str]) -> list[Component]:
    """The components that a package has in its files."""
    components = read_components()
    linked = linked_crates(components)
    names = {shared: linked["tombolopan_c"], DEVELOPMENT: linked["tombolopan_c"],
             PROGRAMS: [it for crate, names in linked.items() if crate != "tombolopan_c"
                        for it in names]}.get(package, [])
    held = libraries if package == PROGRAMS else []
    return [it for it in components if it.name in names or it.linked in held]


def paragraphs(found: list[Component]) -> Iterator[str]:
    """The parts of the file."""
    yield OWN
    if not found:
        return
    yield ALSO
    for it in found:
        licence = "no licence is known" if it.licence == "NOASSERTION" else it.licence
        notice = textwrap.indent(it.copyright.strip(), "    ")
        yield f"  {it.title}: {it.about}; {licence}\n{notice}".rstrip() + "\n"
    licences = " ".join(it.licence for it in found)
    for name, file in TEXTS.items():
        if name in licences:
            text = (LICENCES / file).read_text(encoding="utf-8")
            yield f"{name}:\n\n{textwrap.indent(text, '    ')}"
    if "Apache-2.0" in licences:
        yield APACHE


def notice(package: str, shared: str, libraries: list[str]) -> str:
    """The text of the file."""
    return "\n".join(paragraphs(inside(package, shared, libraries)))
