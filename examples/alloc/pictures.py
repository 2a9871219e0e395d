#!/usr/bin/env python3
"""Draws what the scripts beside it tell, as SVG.

    pictures.py replay STATISTICS.csv OUT.svg
    pictures.py margins OUT.svg

The first draws the bytes that are live and mapped over the calls of a replay (replay.py writes the
statistics), at most 400 points a line. The second draws the table of margins in docs/ATTACKS.md
(margins.py writes it): how often a mistake is missed, by one run and by several. Status 2 where a
file is not of that form.
"""
from __future__ import annotations

import csv
import math
import pathlib
import sys
from dataclasses import dataclass, field
from html import escape

sys.path.insert(0, str(pathlib.Path(__file__).resolve().parents[1]))
import command_line  # noqa: E402
from page_part import part_of  # noqa: E402

PAGE = pathlib.Path(__file__).resolve().parents[2] / "docs" / "ATTACKS.md"
MOST_POINTS = 400
WIDTH, HEIGHT = 860, 330
LEFT, RIGHT, TOP, BOTTOM = 84, 20, 46, 44
# The lines of a replay: column, text, colour, dashes.
LINES = (
    ("native_mapped_bytes", "mapped by this machine's malloc", "#8a4fbf", "2 3"),
    ("mapped_bytes", "mapped by the profile", "#0b57d0", "7 4"),
    ("live_bytes", "live, as they were asked for", "#b3261e", ""),
)
# The numbers of runs of a margin: text, colour, and the sides of its mark.
RUNS = {1: ("1 run", "#b3261e", 0), 2: ("2 runs", "#0b57d0", 4), 4: ("4 runs", "#1e7b34", 3),
        8: ("8 runs", "#8a4fbf", 5)}
# Where the axis of misses has words, by powers of ten; what is never missed is at the last.
MISSES = {0: "always", 2: "1 in 100", 4: "1 in 10,000", 6: "1 in a million",
          8: "1 in 100 million", 10: "never"}


class WrongForm(Exception):
    """A file is not of the form that is wanted."""


@dataclass
class Drawing:
    """A picture and its elements, in front of which a title is and behind which nothing."""

    title: str
    height: int = HEIGHT
    parts: list[str] = field(default_factory=list)

    def text(self, x: float, y: float, words: str, anchor: str = "start", size: int = 12) -> None:
        """A text whose foot begins, ends or has its middle at a point."""
        self.parts.append(f'<text x="{x:.1f}" y="{y:.1f}" text-anchor="{anchor}" '
                          f'font-size="{size}">{escape(words)}</text>')

    def line(self, points: list[tuple[float, float]], colour: str, dashes: str = "",
             width: float = 2) -> None:
        """A line through points."""
        path = "L".join(f"{x:.1f},{y:.1f}" for x, y in points)
        dashed = f' stroke-dasharray="{dashes}"' if dashes else ""
        self.parts.append(f'<path d="M{path}" fill="none" stroke="{colour}" '
                          f'stroke-width="{width}"{dashed}/>')

    def mark(self, x: float, y: float, colour: str, sides: int) -> None:
        """A mark of some sides, or a circle without any."""
        if sides == 0:
            self.parts.append(f'<circle cx="{x:.1f}" cy="{y:.1f}" r="5" fill="{colour}"/>')
            return
        turns = [2 * math.pi * (at + 0.5) / sides + math.pi / 2 for at in range(sides)]
        points = " ".join(f"{x + 6 * math.cos(turn):.1f},{y + 6 * math.sin(turn):.1f}"
                          for turn in turns)
        self.parts.append(f'<polygon points="{points}" fill="{colour}"/>')

    def write(self, path: pathlib.Path) -> None:
        """Writes the picture."""
        head = (f'<svg xmlns="http://www.w3.org/2000/svg" viewBox="0 0 {WIDTH} {self.height}" '
                f'width="{WIDTH}" height="{self.height}" font-family="sans-serif" '
                f'fill="#1c1c1a" role="img">\n<title>{escape(self.title)}</title>\n'
                '<rect width="100%" height="100%" fill="#fff"/>\n')
        self.text(WIDTH / 2, 20, self.title, "middle", 15)
        path.write_text(head + "\n".join(self.parts) + "\n</svg>\n", encoding="utf-8")


def step_of(most: float) -> float:
    """A round distance of marks on an axis from 0 on, of which there are four to nine."""
    power = 10 ** math.floor(math.log10(max(most, 1)))
    return next(power * part for part in (0.2, 0.5, 1, 2) if most / (power * part) <= 9)


def bytes_text(count: float) -> str:
    """A number of bytes."""
    return f"{count / 1e6:g} MB" if count >= 1e6 else f"{count / 1e3:g} kB"


def read_statistics(path: pathlib.Path) -> list[dict[str, float]]:
    """The rows of a replay's statistics, at most MOST_POINTS of them."""
    wanted = ["calls", *(name for name, *_ in LINES)]
    try:
        with open(path, encoding="utf-8", newline="") as file:
            rows = [{name: float(row[name]) for name in wanted} for row in csv.DictReader(file)]
    except (KeyError, TypeError, ValueError) as error:
        raise WrongForm(f"{path} has no statistics of replay.py") from error
    if not rows or any(not math.isfinite(it) for row in rows for it in row.values()):
        raise WrongForm(f"{path} has no rows of numbers")
    every = -(-len(rows) // MOST_POINTS)
    return rows[every - 1::every] if rows[every - 1::every][-1] is rows[-1] else [
        *rows[every - 1::every], rows[-1]]


def draw_replay(rows: list[dict[str, float]]) -> Drawing:
    """The bytes of a heap over its calls."""
    drawing = Drawing("Bytes of the heap over the calls of a replay")
    calls = max(row["calls"] for row in rows) or 1
    most = max(row[name] for row in rows for name, *_ in LINES) or 1
    wide, high = WIDTH - LEFT - RIGHT, HEIGHT - TOP - BOTTOM - 22
    foot, step, next_call = TOP + 22 + high, step_of(most), step_of(calls)
    for number in range(int(most / step) + 1):
        y = foot - high * number * step / most
        drawing.line([(LEFT, y), (WIDTH - RIGHT, y)], "#ddd", width=1)
        drawing.text(LEFT - 8, y + 4, bytes_text(number * step), "end")
    for number in range(int(calls / next_call) + 1):
        drawing.text(LEFT + wide * number * next_call / calls, foot + 18,
                     f"{number * next_call:,.0f}", "middle")
    drawing.text(LEFT + wide / 2, HEIGHT - 6, "heap calls", "middle")
    for number, (name, words, colour, dashes) in enumerate(LINES):
        points = [(LEFT + wide * row["calls"] / calls, foot - high * row[name] / most)
                  for row in rows]
        drawing.line(points, colour, dashes)
        x = LEFT + number * 260
        drawing.line([(x, 40), (x + 30, 40)], colour, dashes)
        drawing.text(x + 36, 44, words)
    return drawing


def read_margins() -> list[tuple[str, float]]:
    """The rows of the page's table: the mistake, and how likely one run misses it by the worse of
    odd and even tags."""
    page = PAGE.read_text(encoding="utf-8")
    rows = []
    for line in part_of(page, "examples/alloc/margins.py").strip().splitlines()[2:]:
        mistake, odd, even, *_ = (it.strip() for it in line.strip("|").split("|"))
        rows.append((mistake, 1 - min(float(odd), float(even))))
    if not rows:
        raise WrongForm(f"{PAGE} has no table of margins")
    return rows


def place_of_miss(missed: float) -> float:
    """Where on the axis a probability is, from 0 to 1."""
    never = max(MISSES)
    return 1 if missed == 0 else min(-math.log10(missed), never) / never


def draw_margins(rows: list[tuple[str, float]]) -> Drawing:
    """How often each mistake is missed, by one run and by several under seeds of their own."""
    left, pitch = 470, 22
    foot = 76 + pitch * len(rows)
    drawing = Drawing("How often a mistake is missed", foot + 28)
    wide = WIDTH - left - 30
    for power, words in MISSES.items():
        x = left + wide * power / max(MISSES)
        drawing.line([(x, 62), (x, foot)], "#ddd", width=1)
        drawing.text(x, foot + 16, words, "middle", 10)
    for number, (words, colour, sides) in enumerate(RUNS.values()):
        drawing.mark(left + number * 90, 42, colour, sides)
        drawing.text(left + number * 90 + 12, 46, f"by {words}")
    for number, (mistake, missed) in enumerate(rows):
        y = 76 + pitch * number
        drawing.text(left - 14, y + 4, mistake, "end", 11)
        places = [left + wide * place_of_miss(missed ** runs) for runs in RUNS]
        drawing.line([(places[0], y), (places[-1], y)], "#999", width=1)
        for place, (_, colour, sides) in reversed(list(zip(places, RUNS.values()))):
            drawing.mark(place, y, colour, sides)
    return drawing


def main() -> int:
    """Reads the command line."""
    words = command_line.read_words(__doc__, 2, 3)
    try:
        if len(words) == 3 and words[0] == "replay":
            draw_replay(read_statistics(pathlib.Path(words[1]))).write(pathlib.Path(words[2]))
        elif len(words) == 2 and words[0] == "margins":
            draw_margins(read_margins()).write(pathlib.Path(words[1]))
        else:
            command_line.refuse("pictures.py", f"{words[0]} with {len(words) - 1} files")
    except (OSError, WrongForm) as error:
        print(f"pictures.py: {error}", file=sys.stderr)
        return 2
    return 0


if __name__ == "__main__":
    sys.exit(main())
