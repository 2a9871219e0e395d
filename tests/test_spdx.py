"""The list of what is inside (SPDX 2.3), and the one version: they are what the sources, the
toolchain's pages and the fetched archives say."""

import functools
import json
import re
import sys
from typing import Any

import pytest

from packing.components import Component, read_components
from tests.support.cache import package_source
from tests.support.library import kit
from tests.support.places import ROOT, program
from tests.support.running import run, succeed

TOOL = ROOT / "tools" / "spdx.py"
VERSION = (ROOT / "VERSION").read_text(encoding="utf-8").strip()
EPOCH = {"SOURCE_DATE_EPOCH": "1700000000"}
LIBRARIES = ("libc.a", "libc++.a", "libc++abi.a", "libunwind.a", "liballoc.rlib", "libcore.rlib")
PORTED = [it for it in read_components() if it.linked == "crates"]
# SPDX 2.3, annex D: expressions of the licences that are here.
LICENCES = {"MIT", "MIT OR Apache-2.0", "BSD-3-Clause", "Apache-2.0 WITH LLVM-exception",
            "NOASSERTION"}
PROGRAMS = {"mte_host", "mte_run"}


@functools.cache
def document(*libraries: str) -> dict[str, Any]:
    """The document that the tool writes."""
    told = succeed([sys.executable, TOOL, *libraries], extra=EPOCH)
    made: dict[str, Any] = json.loads(told.output)
    return made


def names_by_identifier(made: dict[str, Any]) -> dict[str, str]:
    """The names of the packages, by their identifiers."""
    return {it["SPDXID"]: it["name"] for it in made["packages"]}


def related(made: dict[str, Any], kind: str) -> set[tuple[str, str]]:
    """The pairs of names in a relationship."""
    names = {**names_by_identifier(made), "SPDXRef-DOCUMENT": "document"}
    return {(names[it["spdxElementId"]], names[it["relatedSpdxElement"]])
            for it in made["relationships"] if it["relationshipType"] == kind}


def test_form() -> None:
    """It has the fields that SPDX asks for (clauses 6 and 7), and identifiers of its form."""
    made = document()
    assert made["spdxVersion"] == "SPDX-2.3" and made["dataLicense"] == "CC0-1.0"
    assert made["SPDXID"] == "SPDXRef-DOCUMENT" and VERSION in made["name"]
    assert re.fullmatch(r"https://[\w./-]+", made["documentNamespace"])
    assert made["creationInfo"]["created"] == "2023-11-14T22:13:20Z"
    assert made["creationInfo"]["creators"][0].startswith("Tool: ")
    identifiers = [it["SPDXID"] for it in made["packages"]]
    assert len(identifiers) == len(set(identifiers))
    for it in made["packages"]:
        assert re.fullmatch(r"SPDXRef-[A-Za-z0-9.-]+", it["SPDXID"])
        assert it["name"] and it["downloadLocation"] and it["copyrightText"]
        assert it["filesAnalyzed"] is False and it["licenseConcluded"] == it["licenseDeclared"]
        assert it["licenseDeclared"] in LICENCES


def test_crates() -> None:
    """What is linked into a program is what crates.txt says below it, with the toolchain's crates
    and their own; a crate that no program has is not in the list."""
    made = document()
    edges: dict[str, list[str]] = {}
    for line in (ROOT / "crates.txt").read_text(encoding="utf-8").splitlines():
        head, _, below = line.partition("#")[0].partition(":")
        if head.strip():
            edges[head.split()[0]] = below.split()
    assert related(made, "DEPENDS_ON") == {
        (name, it) for name in related_crates(made) & set(edges) for it in edges[name]
    } | {("clap", "strsim")}
    linked = related(made, "STATIC_LINK")
    for name in (*PROGRAMS, "tombolopan_c"):
        reached, left = {"rattle"}, [name]
        while left:
            it = left.pop()
            reached.add(it)
            left += {*edges.get(it, ()), *(["strsim"] if it == "clap" else [])} - reached
        assert {second for first, second in linked if first == name} == reached
    assert "unit_tests" not in names_by_identifier(made).values()


def related_crates(made: dict[str, Any]) -> set[str]:
    """The crates that a program has."""
    return {second for _, second in related(made, "STATIC_LINK")}


def test_own_parts_have_no_licence() -> None:
    """The licence of this repository is not chosen, and nothing says one of its parts."""
    own = {line.partition(":")[0].split()[0]
           for line in (ROOT / "crates.txt").read_text(encoding="utf-8").splitlines()
           if line and not line.startswith("#")}
    found = [it for it in document()["packages"] if it["name"] in own | {"tombolopan"}]
    assert len(found) > 50
    for it in found:
        assert it["licenseDeclared"] == it["copyrightText"] == "NOASSERTION"


def test_libraries_of_tenants() -> None:
    """Each library has what it is made of."""
    contained = related(document(*LIBRARIES), "CONTAINS")
    assert {it for it in contained if it[0] != "tombolopan"} == {
        ("libc.a", "musl"), ("libc.a", "compiler-rt"), ("libc++.a", "libc++"),
        ("libc++abi.a", "libc++abi"), ("libunwind.a", "libunwind"),
        ("liballoc.rlib", "rust-alloc"), ("libcore.rlib", "rust-core")}
    whole = {second for first, second in contained if first == "tombolopan"}
    assert whole == {*PROGRAMS, "tombolopan_c", *LIBRARIES}
    names = set(names_by_identifier(document()).values())
    assert "musl" in names and "libunwind" not in names


def test_listed() -> None:
    """Each crate of the toolchain that crates.txt names is in the table."""
    text = (ROOT / "crates.txt").read_text(encoding="utf-8")
    lines = [line for line in text.splitlines() if line and not line.startswith("#")]
    own = {line.partition(":")[0].split()[0] for line in lines}
    below = {it for line in lines for it in line.partition(":")[2].split()} - own
    assert {it.name for it in PORTED} == below | {"strsim"}


@pytest.mark.parametrize("component", PORTED, ids=[it.name for it in PORTED])
def test_ported_crate(component: Component) -> None:
    """The toolchain's page of a crate names its version, and its folder has the licence."""
    folder = kit() / "rattle" / component.name
    files = {it.name: it.read_text(encoding="utf-8") for it in folder.glob("LICENSE*")}
    if component.licence == "NOASSERTION":
        assert folder.is_dir() and not files and not (folder / "COPYING").exists()
        return
    page = (folder / "README.md").read_text(encoding="utf-8")
    assert re.search(rf"\b{re.escape(component.version)}\b", page)
    text = " ".join("\n".join(files.values()).replace("©", "(c)").split())
    assert " ".join(component.copyright.split()) in text
    wanted = {"BSD-3-Clause": "Neither the name of the copyright holder"}
    assert wanted.get(component.licence, "Permission is hereby granted, free of charge") in text
    if "Apache-2.0" in component.licence:
        assert "Apache License" in text or re.search(r"Apache[- ]2\.0", page)


def test_sources_of_tenants() -> None:
    """The C library is of the version that the table says, and of its licence."""
    musl = next(it for it in read_components() if it.name == "musl")
    source = package_source("musl")
    assert (source / "VERSION").read_text(encoding="utf-8").strip() == musl.version
    text = (source / "COPYRIGHT").read_text(encoding="utf-8").replace("©", "(c)")
    assert musl.copyright in text and "standard MIT license" in text


def test_words() -> None:
    """An option that is none is refused."""
    ran = run([sys.executable, TOOL, "--help"])
    assert ran.status == 1 and "spdx.py [LIBRARY..]" in ran.errors


def test_version() -> None:
    """One file has the version; programs say it, and the page of changes begins with it."""
    assert re.fullmatch(r"\d+\.\d+", VERSION)
    source = (ROOT / "crates/common/src/build_info.rt").read_text(encoding="utf-8")
    assert f'const TEXT: &str = "{VERSION}\n' in source
    told = run([program("mte_run"), "--version"])
    assert told.output.startswith(f"mte_run {VERSION}\ncommit: ")
    page = (ROOT / "CHANGELOG.md").read_text(encoding="utf-8")
    first = re.findall(r"^## (.*)$", page, re.M)[0]
    assert re.fullmatch(rf"{re.escape(VERSION)}, (not released yet|\d{{4}}-\d\d-\d\d)", first)
