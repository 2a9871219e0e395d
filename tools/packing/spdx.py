"""The list of what is inside, as a document of SPDX 2.3 (clauses 6, 7 and 11)."""

from collections.abc import Iterator, Mapping, Sequence
from typing import Union

from packing.components import (
    UNKNOWN, Component, all_edges, linked_crates, own_crates, read_components,
)
from packing.release import Release

Value = Union[str, bool, list[str], list[dict[str, str]], dict[str, Union[str, list[str]]]]
Entry = dict[str, Value]
WHOLE = "SPDXRef-tombolopan"
DOCUMENT = "SPDXRef-DOCUMENT"


def identifier(name: str, kind: str = "part") -> str:
    """The identifier of a crate or of a piece of others."""
    return f"SPDXRef-{kind}-{name.replace('_', '-').replace('+', 'p')}"


def product(name: str) -> str:
    """The identifier of what is built of a crate."""
    return identifier(name, "built")


def library(name: str) -> str:
    """The identifier of a library of tenants."""
    return identifier(name, "tenants")


def entry(identity: str, name: str, about: str, purpose: str) -> Entry:
    """A part of this repository, which has no licence yet."""
    return {"SPDXID": identity, "name": name, "downloadLocation": UNKNOWN, "filesAnalyzed": False,
            "licenseConcluded": UNKNOWN, "licenseDeclared": UNKNOWN, "copyrightText": UNKNOWN,
            "primaryPackagePurpose": purpose, "summary": about}


def entry_of(component: Component) -> Entry:
    """A piece of others."""
    made = entry(identifier(component.name), component.name, component.about, "LIBRARY")
    made.update(downloadLocation=component.place, licenseConcluded=component.licence,
                licenseDeclared=component.licence,
                copyrightText=component.copyright or UNKNOWN)
    if component.version:
        made["versionInfo"] = component.version
    return made


def relation(first: str, kind: str, second: str) -> dict[str, str]:
    """A relationship."""
    return {"spdxElementId": first, "relationshipType": kind, "relatedSpdxElement": second}


def built_entry(name: str, sums: Mapping[str, str]) -> Entry:
    """What is built of a crate, with the sum of its file where there is one."""
    purpose = "LIBRARY" if name == "tombolopan_c" else "APPLICATION"
    made = entry(product(name), name, f"what is built of the crate {name}", purpose)
    if name in sums:
        made["checksums"] = [{"algorithm": "SHA256", "checksumValue": sums[name]}]
    return made


def entries(release: Release, components: Sequence[Component], libraries: Sequence[str],
            sums: Mapping[str, str]) -> Iterator[Entry]:
    """The packages of the document."""
    whole = entry(WHOLE, "tombolopan", "a host of A64 programs with memory tagging", "APPLICATION")
    yield {**whole, "versionInfo": release.version}
    linked = linked_crates(list(components))
    yield from (built_entry(name, sums) for name in linked)
    for name in libraries:
        yield entry(library(name), name, "a library of tenants", "LIBRARY")
    own = own_crates()
    inside = {name for names in linked.values() for name in names}
    for name in sorted(inside.intersection(own)):
        yield entry(identifier(name), name, "a crate of this repository", "LIBRARY")
    for component in components:
        if component.name in inside or component.linked in libraries:
            yield entry_of(component)


def relations(components: Sequence[Component],
              libraries: Sequence[str]) -> Iterator[dict[str, str]]:
    """What the document describes, what is linked into what, and what a crate stands on."""
    yield relation(DOCUMENT, "DESCRIBES", WHOLE)
    linked = linked_crates(list(components))
    inside = {name for names in linked.values() for name in names}
    for name, crates in linked.items():
        yield relation(WHOLE, "CONTAINS", product(name))
        yield from (relation(product(name), "STATIC_LINK", identifier(it)) for it in crates)
    for name in libraries:
        yield relation(WHOLE, "CONTAINS", library(name))
    for component in components:
        if component.linked in libraries:
            yield relation(library(component.linked), "CONTAINS", identifier(component.name))
    for name, below in sorted(all_edges(list(components)).items()):
        if name in inside:
            yield from (relation(identifier(name), "DEPENDS_ON", identifier(it)) for it in below)


def document(release: Release, libraries: Sequence[str],
             sums: Mapping[str, str]) -> dict[str, object]:
    """The document, for these libraries of tenants, with the sums of files by their crates."""
    components = read_components()
    name = f"tombolopan-{release.version}"
    created = release.moment.strftime("%Y-%m-%dT%H:%M:%SZ")
    return {
        "spdxVersion": "SPDX-2.3", "dataLicense": "CC0-1.0", "SPDXID": DOCUMENT, "name": name,
        "documentNamespace": f"https://spdx.org/spdxdocs/{name.replace('~', '-')}",
        "creationInfo": {"created": created, "creators": ["Tool: tombolopan-tools-spdx.py"]},
        "packages": list(entries(release, components, libraries, sums)),
        "relationships": list(relations(components, libraries)),
    }
