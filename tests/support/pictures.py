"""The picture of a heap, as SVG and as text, read into rows of granules."""

import re
import xml.etree.ElementTree
from dataclasses import dataclass, field
from typing import Optional

SVG = "{http://www.w3.org/2000/svg}"
CELL, ROW, GRANULE = 16, 1024, 16
TEXT_ROW = re.compile(r"(0x[0-9a-f]{8})(?:  class +\d+ +\d+ B  | {20})([0-9a-f.]{64})$")
OWNERS = re.compile(r" {30}([ =x^]{64})(?:  (.*))?$")
Element = xml.etree.ElementTree.Element


@dataclass
class Row:
    """A row: a tag for each granule, and whose they are."""

    address: int
    tags: list[Optional[int]]
    live: set[int] = field(default_factory=set)
    freed: set[int] = field(default_factory=set)
    marked: Optional[int] = None
    says: str = ""


@dataclass
class Picture:
    """A picture."""

    title: str
    colours: list[str]
    rows: list[Row]
    # The granules that the cause names, each by its address.
    cause: set[int]
    arrows: int


def number(text: str, name: str) -> int:
    """A number that stands behind a name, as `translate(16 52)`."""
    found = re.search(rf"{name}\((-?\d+)", text)
    return int(found[1]) if found else 0


def read_svg(text: str) -> Picture:
    """The picture of an SVG file; fails where it is no XML."""
    root = xml.etree.ElementTree.fromstring(text)
    assert root.tag == f"{SVG}svg"
    title = root.find(f"{SVG}text[@class='title']")
    assert title is not None and title.text
    groups = root.findall(f"{SVG}g")
    rows, tops = [], {}
    for group in groups[-1].findall(f"{SVG}g"):
        label = group.find(f"{SVG}text[@class='at']")
        if label is not None and group.find(f"{SVG}use") is not None:
            row = read_row(group, int(str(label.text), 16))
            tops[place_of(group)[1]] = row.address
            rows.append(row)
    arrows = len(groups[-1].findall(f"{SVG}path[@class='arrow']"))
    return Picture(title.text, colours_of(root), rows, cause_of(groups[-1], tops), arrows)


def colours_of(root: Element) -> list[str]:
    """The colours of the tags 0 to 15."""
    return [
        str(rect.get("fill")) for tag in range(16)
        for rect in root.findall(f"{SVG}defs/{SVG}g[@id='t{tag}']/{SVG}rect")
    ]


def place_of(group: Element) -> tuple[int, int]:
    """Where a group stands in the picture."""
    found = re.match(r"translate\((-?\d+) (-?\d+)\)", group.get("transform", ""))
    assert found, group.attrib
    return int(found[1]), int(found[2])


def read_row(group: Element, address: int) -> Row:
    """A row of a picture. The granules that it leaves out at its end have tag 0."""
    cells = group.findall(f"{SVG}use")
    assert [int(it.get("x", "0")) for it in cells] == [CELL * at for at in range(len(cells))]
    names = [it.get("href", "") for it in cells] + ["#t0"] * (64 - len(cells))
    row = Row(address, [None if name == "#u" else int(name[2:]) for name in names])
    owners = group.find(f"{SVG}g[@clip-path]")
    shift = number("" if owners is None else owners.get("transform", ""), "translate")
    for rect in [] if owners is None else owners.findall(f"{SVG}rect"):
        left = int(rect.get("x", "0")) + shift
        right = left + int(rect.get("width", "0"))
        # Of a frame that is open at an end of the row, half a cell is beyond it.
        granules = {at for at in range(64) if left <= CELL * at + CELL // 2 < right}
        (row.live if rect.get("class") == "live" else row.freed).update(granules)
    mark = group.find(f"{SVG}rect[@class='mark']")
    says = next((it for it in group.findall(f"{SVG}text") if "says" in it.get("class", "")), None)
    if mark is not None and says is not None:
        row.marked, row.says = int(mark.get("x", "0")) // CELL, str(says.text)
        assert group.find(f"{SVG}rect[@class='band']") is not None
    return row


def cause_of(rows: Element, tops: dict[int, int]) -> set[int]:
    """The addresses of the granules in thin red frames."""
    granules: set[int] = set()
    for group in rows.findall(f"{SVG}g"):
        rect = group.find(f"{SVG}rect[@class='cause']")
        if rect is not None:
            left, top = place_of(group)
            first = tops[top] + left // CELL * GRANULE
            granules.update(range(first, first + int(rect.get("width", "0")), GRANULE))
    return granules


def read_text(lines: list[str]) -> list[Row]:
    """The rows of `--map text`."""
    rows: list[Row] = []
    for line in lines:
        if found := TEXT_ROW.match(line):
            tags = [None if sign == "." else int(sign, 16) for sign in found[2]]
            rows.append(Row(int(found[1], 16), tags))
        elif rows and (found := OWNERS.match(line.ljust(94))):
            signs = found[1]
            rows[-1].live = {at for at, sign in enumerate(signs) if sign == "="}
            rows[-1].freed = {at for at, sign in enumerate(signs) if sign == "x"}
            rows[-1].marked = signs.index("^") if "^" in signs else None
            rows[-1].says = (found[2] or "").strip()
    return rows
