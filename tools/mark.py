#!/usr/bin/env python3
"""Writes into programs and libraries of this checkout how they were built.

    mark.py [--unproved] FILE..

A build leaves dashes in the lines that tb_build_info and the option --version of mte_run give:
they get the commit, whether files differ from it, the toolchain's sum, and proved or unproved, in
as many bytes.
A program or shared object gets the same lines as a note too, in a section that is not loaded:
`readelf -p .note.tombolopan FILE`. Nothing else changes. What is marked already stays as it is.
Needed: git, rt, objcopy; what git or rt does not say stays dashes.
"""

import hashlib
import pathlib
import re
import struct
import subprocess
import sys
import tempfile

from packing.release import ROOT, is_changed, read_version

SECTION, OWNER, KIND = ".note.tombolopan", b"tombolopan\0", 1
# The machine of an ELF file whose processor is Arm's.
ARM64 = (183).to_bytes(2, "little")
# What gives the lines.
SAYING = ("mte_run", "libtombolopan")
LINES = """\
{version}
commit:    {commit:->40}
changes:   {changes:->4}
toolchain: {toolchain:->40}
build:     {build:->8}"""
HELD = re.compile(rb"\d+\.\d+\ncommit:    .{40}\nchanges:   .{4}\n"
                  rb"toolchain: .{40}\nbuild:     .{8}")
UNKNOWN = {"commit": "", "changes": "", "toolchain": "", "build": ""}


def commit_and_changes() -> dict[str, str]:
    """The commit of the checkout, and whether files differ from it."""
    words = ["git", "-C", str(ROOT), "rev-parse", "--verify", "--quiet", "HEAD"]
    try:
        ran = subprocess.run(words, stdout=subprocess.PIPE, stderr=subprocess.DEVNULL, text=True,
                             check=True)
    except (OSError, subprocess.CalledProcessError):
        return {}
    return {"commit": ran.stdout.strip(), "changes": "some" if is_changed() else "none"}


def toolchain() -> dict[str, str]:
    """The first digits of the sum of the toolchain's archive; of its name where that has none."""
    try:
        ran = subprocess.run(["rt", "doc"], stdout=subprocess.PIPE, text=True, check=True)
    except (OSError, subprocess.CalledProcessError):
        return {}
    kit = pathlib.Path(ran.stdout.splitlines()[0]).resolve().parent
    what = kit / "WHAT"
    said = re.findall(r"^archive ([0-9a-f]{40})", what.read_text("utf-8") if what.exists() else "",
                      re.M)
    sums = said or [hashlib.sha256((kit / "KIT-ID").read_bytes()).hexdigest()]
    return {"toolchain": sums[0][:40]}


def text_of(values: dict[str, str]) -> bytes:
    """The lines with some values, dashes in place of others."""
    # A word that is shorter than its place has spaces before it.
    padded = {"build": f"{values['build']:>8}"} if values.get("build") else {}
    return LINES.format(version=read_version(), **{**UNKNOWN, **values, **padded}).encode()


def note(text: bytes) -> bytes:
    """An ELF note: sizes and kind, owner, and content, each padded to four bytes."""
    owner, content = (it + bytes(-len(it) % 4) for it in (OWNER, text + b"\n"))
    return struct.pack("<III", len(OWNER), len(text) + 1, KIND) + owner + content


def add_note(path: pathlib.Path, text: bytes) -> None:
    """Adds the note to a program or a shared object."""
    with tempfile.NamedTemporaryFile() as file:
        file.write(note(text))
        file.flush()
        is_arm64 = path.read_bytes()[18:20] == ARM64
        words = ["aarch64-linux-gnu-objcopy" if is_arm64 else "objcopy", "--add-section"]
        subprocess.run([*words, f"{SECTION}={file.name}", path], check=True)


def mark(path: pathlib.Path, text: bytes) -> None:
    """Writes the lines of a build into a file that has none yet. A library that is linked of an
    archive has the lines of that."""
    data, empty = path.read_bytes(), text_of({})
    if empty in data:
        data = data.replace(empty, text)
        path.write_bytes(data)
    held = HELD.search(data)
    if held is None and path.name.startswith(SAYING):
        sys.exit(f"mark.py: {path} has no lines of version {read_version()}")
    if not data.startswith(b"!<arch>") and SECTION.encode() not in data:
        add_note(path, held[0] if held else text)


def main() -> None:
    """The command line."""
    words = sys.argv[1:]
    build = "proved"
    if words[:1] == ["--unproved"]:
        words, build = words[1:], "unproved"
    if not words or words[0].startswith("-"):
        sys.exit(__doc__)
    text = text_of({**commit_and_changes(), **toolchain(), "build": build})
    for word in words:
        mark(pathlib.Path(word), text)


if __name__ == "__main__":
    main()
