"""A picture of where the steps of a run go: a row for each depth of calls, as wide as its steps."""
from __future__ import annotations

from collections import Counter, defaultdict
from collections.abc import Iterator
from dataclasses import dataclass, field
from html import escape

from tombolopan_profile.counts import Counts
from tombolopan_profile.forms import frames_of

WIDTH, ROW, TOP, MARGIN = 1200, 17, 26, 10
# Narrower boxes are left out; a letter takes so much.
NARROWEST, LETTER = 0.4, 6.6
COLOURS = ("#f4a582", "#fddbc7", "#d1e5f0", "#92c5de", "#fee090", "#e0f3f8")


@dataclass
class Box:
    """A function in the calls that it was reached by: its steps, with those of its calls."""

    steps: int = 0
    inner: dict[str, Box] = field(default_factory=lambda: defaultdict(Box))


@dataclass(frozen=True)
class Drawn:
    """A box with its place: the depth, and its left side and width in steps."""

    name: str
    depth: int
    left: int
    steps: int


def boxes(counts: Counts) -> Box:
    """The functions by the calls that they were reached by."""
    stacks: Counter[tuple[str, ...]] = Counter()
    for number, call in enumerate(counts.calls):
        stacks[tuple(frames_of(counts, number))] += call.steps
    found = Box()
    for names, steps in stacks.items():
        box = found
        box.steps += steps
        for name in names:
            box = box.inner[name]
            box.steps += steps
    return found


def drawn(box: Box, least: float, depth: int = 0, left: int = 0) -> Iterator[Drawn]:
    """The boxes within one that are wide enough."""
    for name, one in sorted(box.inner.items()):
        if one.steps >= least:
            yield Drawn(name, depth, left, one.steps)
            yield from drawn(one, least, depth + 1, left)
        left += one.steps


def flame(counts: Counts) -> str:
    """An SVG: callers are above what they call, and a box's title has its steps."""
    room = WIDTH - 2 * MARGIN
    found = list(drawn(boxes(counts), max(1, counts.steps * NARROWEST / room)))
    height = TOP + ROW * (1 + max((one.depth for one in found), default=0)) + MARGIN
    lines = [f'<svg xmlns="http://www.w3.org/2000/svg" viewBox="0 0 {WIDTH} {height}" '
             f'width="{WIDTH}" height="{height}" font-family="monospace" font-size="11">',
             f'<rect width="{WIDTH}" height="{height}" fill="#ffffff"/>',
             f'<text x="{MARGIN}" y="17">{counts.steps:,} steps of {escape(counts.image)}</text>']
    for one in found:
        x, y = MARGIN + one.left * room / counts.steps, TOP + ROW * one.depth
        width = one.steps * room / counts.steps
        colour = COLOURS[sum(one.name.encode()) % len(COLOURS)]
        share = 100 * one.steps / counts.steps
        lines.append(f'<g><title>{escape(one.name)}: {one.steps:,} steps, {share:.2f} %</title>'
                     f'<rect x="{x:.1f}" y="{y}" width="{width:.1f}" height="{ROW - 1}" '
                     f'fill="{colour}"/>')
        if (letters := int(width / LETTER)) > 3:
            shown = one.name if len(one.name) <= letters else f"{one.name[:letters - 2]}.."
            lines.append(f'<text x="{x + 2:.1f}" y="{y + 12}">{escape(shown)}</text>')
        lines.append("</g>")
    return "\n".join([*lines, "</svg>", ""])
