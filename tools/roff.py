"""Pages in Markdown, a part at a time, as manual pages have them."""
import re
from collections.abc import Iterator

FENCE = "```"


def escaped(text: str) -> str:
    """Text as roff has it: no line begins with a control character."""
    text = text.replace("\\", "\\e").replace("-", "\\-")
    return re.sub(r"^([.'])", r"\\&\1", text, flags=re.M)


def spans(text: str) -> str:
    """A line of Markdown: code and what is strong in bold, of a link its text."""
    text = re.sub(r"!?\[([^\]]*)\]\([^)]*\)", r"\1", text)
    parts = re.split(r"(`[^`]+`)", text)
    shown = []
    for part in parts:
        if part.startswith("`") and len(part) > 2:
            shown.append(f"\\fB{escaped(part[1:-1])}\\fP")
        else:
            strong = re.split(r"\*\*(.+?)\*\*", part)
            shown += [f"\\fB{escaped(it)}\\fP" if at % 2 else escaped(it)
                      for at, it in enumerate(strong)]
    return re.sub(r"^([.'])", r"\\&\1", "".join(shown))


def part_of(page: str, heading: str) -> str:
    """What is under a heading of a page; without one, what is before the first."""
    if not heading:
        found = re.match(r"(?:<!--.*?-->\s*)?#[^\n]*\n(.*?)(?=^## |\Z)", page, re.S | re.M)
    else:
        found = re.search(rf"^## {re.escape(heading)}\n(.*?)(?=^## |\Z)", page, re.S | re.M)
    if found is None:
        raise LookupError(f"a page has no part {heading!r}, which manual.py names")
    return found[1]


def is_table(block: str) -> bool:
    """Whether a block is a table."""
    return block.startswith("|")


def blocks_of(text: str) -> Iterator[str]:
    """Paragraphs, tables, lists and code, each without the empty lines around it."""
    text = re.sub(r"<!--.*?-->", "", text, flags=re.S)
    is_code, current = False, ""
    for line in text.split("\n"):
        if line.startswith(FENCE):
            is_code = not is_code
        if line.strip() or is_code:
            current += line + "\n"
        elif current.startswith("    "):
            current += "\n"
        elif current:
            yield current
            current = ""
        if current.startswith("    ") and line.strip() and not line.startswith("    "):
            code, current = current[:-len(line) - 1], line + "\n"
            yield code
    if current:
        yield current


def code_of(lines: list[str]) -> str:
    """Lines as they are."""
    shown = "\n".join(escaped(line) for line in lines)
    return f".PP\n.RS 4\n.nf\n{shown}\n.fi\n.RE\n"


def rows_of(block: str) -> str:
    """A table: each row's first cell, and under it the others."""
    made = ""
    for line in block.splitlines()[2:]:
        cells = [cell.strip().replace("\\|", "|")
                 for cell in re.split(r"(?<!\\)\|", line.strip().strip("|"))]
        made += f".TP\n{spans(cells[0])}\n{'; '.join(spans(cell) for cell in cells[1:] if cell)}\n"
    return made


def block_of(block: str) -> str:
    """A block as roff has it."""
    lines = block.rstrip("\n").split("\n")
    if is_table(block):
        return rows_of(block)
    if block.startswith(FENCE):
        return code_of(lines[1:-1])
    if block.startswith("    "):
        return code_of([line[4:] for line in lines])
    if re.match(r"#+ ", block):
        return f".SS {escaped(lines[0].lstrip('# '))}\n"
    items = re.split(r"^(?:- |(\d+\.) )", block, flags=re.M)
    if len(items) > 1 and not items[0].strip():
        return "".join(f".IP {mark or '-'} 4\n{spans(' '.join(text.split()))}\n"
                       for mark, text in zip(items[1::2], items[2::2]))
    return f".PP\n{spans(' '.join(block.split()))}\n"


def roff_of(text: str) -> str:
    """A part of a page as roff has it."""
    return "".join(block_of(block) for block in blocks_of(text))
