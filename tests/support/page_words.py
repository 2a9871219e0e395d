"""The sentences of pages, and the numbers that pages say and a command counts."""

import re
from collections.abc import Iterator

from tests.support.page_links import prose

# A number after the name of what counts it.
COUNTED = re.compile(r"<!-- count: (\w+) -->([\d,]+)")
# A list's mark, a heading's, a quotation's.
MARK = re.compile(r"^(?:[-*>] |\d+\. |#+ )")
WRITTEN = re.compile(r"<!-- Written by [^>]*: [^>]*-->.*?<!-- (?:to here\.|End of )[^>]*-->", re.S)


def without_written(text: str) -> str:
    """A text without what tools write between their marks."""
    return WRITTEN.sub("", text)


def units(page: str) -> Iterator[str]:
    """The paragraphs, items, headings and cells of a page."""
    text = without_written(prose(page))
    for part in re.split(r"\n\s*\n|\n(?=\s*(?:[-*] |\d+\. |\|))", text):
        text = re.sub(r"<!--.*?-->", "", part, flags=re.S).strip()
        if text.startswith("|"):
            yield from (it.strip() for it in re.split(r"(?<!\\)\|", text) if it.strip(" -\n"))
        elif text:
            yield MARK.sub("", text)


def sentences(page: str) -> Iterator[list[str]]:
    """The sentences of a page, as words; code is one. A colon ends one, as a full stop does."""
    for unit in units(page):
        text = re.sub(r"`[^`]*`", "code", unit)
        text = re.sub(r"!?\[([^\]]*)\]\([^)]*\)", r"\1", text)
        for part in re.split(r"(?<=[.?!:])[\"*)_]*\s+", text):
            words = [it for it in part.split() if re.search(r"\w", it)]
            if words:
                yield words


def counted(page: str) -> Iterator[tuple[str, int]]:
    """The numbers of a page that are counted, each with the name of what counts it."""
    for name, number in COUNTED.findall(prose(page)):
        yield name, int(number.replace(",", ""))
