"""The part of a page that a script writes, between two marks; the first names the script."""

import pathlib

ROOT = pathlib.Path(__file__).resolve().parents[1]
END = "<!-- to here. -->\n"


def begin(script: str) -> str:
    """The mark before the part of a script, which is named from the top of the checkout."""
    return f"<!-- Written by {script}: -->\n"


def part_of(text: str, script: str) -> str:
    """The part of a page's text, with the empty lines at both ends."""
    return text.split(begin(script))[1].split(END)[0]


def write_part(page: pathlib.Path, script: str, part: str) -> None:
    """Writes the part of a page anew; ValueError where the page has no or several such marks."""
    before, rest = page.read_text(encoding="utf-8").split(begin(script))
    after = rest.split(END, 1)[1]
    page.write_text(f"{before}{begin(script)}\n{part}\n{END}{after}", encoding="utf-8")
