#!/usr/bin/env python3
"""The map of the crates in docs/project/ARCHITECTURE.md, and their table in crates/README.md, from
crates.txt and the first sentence of each crate.

    crates.py            write both between the markers of their pages
    crates.py --check    exit with 1 where they are not what is written, where a crate has no line,
                         no status or no sentence, or where an edge leads to a higher status

A section of crates.txt is a layer, `# NAME (STATUS): what it is.` The statuses, lowest first, are
exact (contracts say what calls do), explaining (safety alone, but where a contract says more),
program and tests.
"""

import pathlib
import re
import sys
from collections.abc import Iterator
from dataclasses import dataclass

import findings

ROOT = pathlib.Path(__file__).resolve().parent.parent
MAP, TABLE = "docs/project/ARCHITECTURE.md", "crates/README.md"
MARKS = ("<!-- Written by tools/crates.py: -->\n\n", "\n<!-- to here. -->\n")
STATUSES = ("exact", "explaining", "program", "tests")
MOST_LAYERS = 24
LONG = 100
SECTION = re.compile(r"# (\w[\w ]*) \((\w+)\): (.+)\.")
BORDER = "| | *Above: safety alone. Below: contracts say what calls do.* | |"


@dataclass(frozen=True)
class Layer:
    """A layer: its name, its status, its sentence, and its crates with what each depends on."""

    name: str
    status: str
    sentence: str
    crates: dict[str, list[str]]


def read_layers(text: str) -> list[Layer]:
    """The layers of crates.txt, the lowest first; one whose head is wrong has no name."""
    layers = []
    for part in text.split("\n\n")[1:]:
        head, *lines = part.strip().split("\n")
        found = SECTION.fullmatch(head)
        name, status, sentence = found.groups() if found else ("", "", "")
        pairs = (line.partition(":") for line in lines)
        layers.append(Layer(name, status, sentence,
                            {crate.split()[0]: below.split() for crate, _, below in pairs}))
    return layers


def sentence_of(crate: pathlib.Path) -> str:
    """The first sentence of a crate's own comment, of a long one what comes before its colon; empty
    where it has none."""
    source = next((it for it in (crate / "src/lib.rt", crate / "src/main.rt") if it.exists()), None)
    text = source.read_text(encoding="utf-8") if source else ""
    comment = re.match(r"(?://!.*\n)*", text)
    words = re.sub(r"^//! ?", "", comment[0] if comment else "", flags=re.M)
    first = " ".join(words.split("\n\n")[0].split())
    found = re.match(r"(.*?[.:])(?= [A-Z]|$)", first)
    sentence = found[1].rstrip(".:") if found else ""
    is_long = len(sentence) > LONG and not sentence.startswith("`")
    return sentence.partition(": ")[0] if is_long else sentence


def map_of(layers: list[Layer]) -> Iterator[str]:
    """The map, the highest layer first, with a row between what is exact and what is above it."""
    yield "| Layer | Crates | |"
    yield "|---|---|---|"
    above = ""
    for layer in reversed(layers):
        if layer.status == "exact" != above and above:
            yield BORDER
        above = layer.status
        names = " ".join(f"`{it}`" for it in layer.crates)
        yield f"| {layer.name} | {names} | {layer.sentence} |"


def table_of(root: pathlib.Path, layers: list[Layer]) -> Iterator[str]:
    """The table of the crates, each after those that it depends on."""
    yield "| Crate | What it has |"
    yield "|---|---|"
    for layer in layers:
        for name in layer.crates:
            yield f"| `{name}` | {sentence_of(root / 'crates' / name)} |"


def between(root: pathlib.Path, name: str, lines: Iterator[str]) -> str:
    """A page with these lines between its markers."""
    page = (root / name).read_text(encoding="utf-8")
    before, mark, rest = page.partition(MARKS[0])
    _, end, after = rest.partition(MARKS[1])
    if not mark or not end:
        raise ValueError(f"{name}: the lines around what tools/crates.py writes are missing")
    return before + mark + "\n".join(lines) + "\n" + end + after


def edges_upward(layers: list[Layer]) -> Iterator[str]:
    """The edges that lead to a crate of a higher status."""
    rank = {name: STATUSES.index(layer.status) for layer in layers for name in layer.crates}
    for layer in layers:
        for name, below in layer.crates.items():
            for it in below:
                if rank.get(it, 0) > rank[name]:
                    yield f"crates.txt: {name}, which is {layer.status}, depends on {it}"


def complaints(root: pathlib.Path, layers: list[Layer]) -> Iterator[str]:
    """What is wrong with crates.txt, or with the first sentences of crates."""
    unknown = [it for it in layers if it.status not in STATUSES]
    yield from (f"crates.txt: the section of {' '.join(it.crates)} has no status" for it in unknown)
    if not unknown:
        yield from edges_upward(layers)
    if len(layers) > MOST_LAYERS:
        yield f"crates.txt: {len(layers)} layers, and at most {MOST_LAYERS}"
    listed = {name for layer in layers for name in layer.crates}
    folders = {it.name for it in (root / "crates").iterdir() if (it / "src").is_dir()}
    yield from (f"crates.txt: {it} is there or in crates/, and not in both"
                for it in sorted(listed ^ folders))
    yield from (f"crates/{it}: its comment has no first sentence"
                for it in sorted(listed & folders) if not sentence_of(root / "crates" / it))


def main() -> int:
    """The command line."""
    layers = read_layers((ROOT / "crates.txt").read_text(encoding="utf-8"))
    found = list(complaints(ROOT, layers))
    parts = {MAP: map_of(layers), TABLE: table_of(ROOT, layers)}
    try:
        texts = {name: between(ROOT, name, lines) for name, lines in parts.items()}
    except ValueError as error:
        return findings.status_of([*found, str(error)])
    for name, text in texts.items():
        if "--check" not in sys.argv[1:]:
            (ROOT / name).write_text(text, encoding="utf-8")
        elif (ROOT / name).read_text(encoding="utf-8") != text:
            found.append(f"{name} is not what crates.txt gives: run tools/crates.py")
    return findings.status_of(found)


if __name__ == "__main__":
    sys.exit(main())
