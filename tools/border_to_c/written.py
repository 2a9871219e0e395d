"""What is written from the tables and the header into the header, the bindings and the page,
between marks."""

import re
import textwrap
from collections.abc import Callable
from dataclasses import dataclass

from . import rust
from .shapes import BorderError
from .tables import Enum, Tables

WIDTH = 100
BEGIN, END = "Written by tools/border.py: {}", "End of what tools/border.py writes."


@dataclass(frozen=True)
class Part:
    """A part of a file: how its marks begin and end, its name, and its text by the tables and by
    the text of the header."""

    path: str
    mark: tuple[str, str]
    name: str
    text: Callable[[Tables, str], str]

    def marks(self) -> tuple[str, str]:
        """The lines around the part."""
        before, after = self.mark
        return f"{before}{BEGIN.format(self.name)}{after}\n", f"{before}{END}{after}\n"


def by_tables(text: Callable[[Tables], str]) -> Callable[[Tables, str], str]:
    """A text that needs no header."""
    return lambda tables, _: text(tables)


def c_enum(it: Enum) -> str:
    """An enum of C, each number with what it means beside it."""
    rows = [f"TB_{entry.name} = {entry.number}" for entry in it.entries]
    rows = [f"{row}," for row in rows[:-1]] + rows[-1:]
    column = max(len(row) for row in rows)
    about = [f" /* {entry.about} */" if entry.about else "" for entry in it.entries]
    lines = [f"    {row:{column}}{more}".rstrip() for row, more in zip(rows, about)]
    head = textwrap.fill(it.about, WIDTH - 6, subsequent_indent="   ", break_on_hyphens=False)
    return f"/* {head} */\nenum {it.name} {{\n" + "\n".join(lines) + "\n};\n"


def c_enums(tables: Tables) -> str:
    """All enums of the header."""
    return "\n".join(c_enum(it) for it in tables.enums)


def each_text(it: Enum, form: str) -> str:
    """A line of this form for each number of an enum, by its name, and its text."""
    return "".join(
        form.format(name if name == "0" else f"TB_{name}", text) for name, text in it.texts_of())


def c_functions(tables: Tables) -> str:
    """The functions of C that answer the texts of enums."""
    return "\n".join(
        f"/* {texts.c} */\n"
        f"static inline const char *tb_{texts.name}(uint32_t {texts.argument}) {{\n"
        f"    switch ({texts.argument}) {{\n"
        + each_text(it, '    case {}: return "{}";\n')
        + '    default: return "unknown";\n    }\n}\n'
        for it in tables.enums if (texts := it.texts)
    )


def rust_constants(tables: Tables) -> str:
    """The constants in Rust."""
    groups = [
        "".join(f"pub const TB_{it.name}: u32 = {it.number};\n" for it in group.entries)
        for group in tables.enums
    ]
    return "\n".join([f"pub const TB_VERSION: u32 = {tables.version};\n", *groups])


def rust_functions(tables: Tables) -> str:
    """The functions of Rust that answer the texts of enums."""
    heads = "/// {0.rust}\npub fn {0.name}({0.argument}: u32) -> &'static str {{\n"
    return "\n".join(
        heads.format(it.texts) + f"    match {it.texts.argument} {{\n"
        + each_text(it, '        {} => "{}",\n') + '        _ => "unknown",\n    }\n}\n'
        for it in tables.enums if it.texts
    )


def python_tables(tables: Tables) -> str:
    """The constants in Python, and the texts of each number."""
    text = f"VERSION = {tables.version}\n"
    for it in tables.enums:
        text += f"\n# {it.name}\n" + "".join(f"{at.name} = {at.number}\n" for at in it.entries)
        if it.texts:
            pairs = ", ".join(f'{name}: "{words}"' for name, words in it.texts_of())
            text += f"{it.texts.table} = {{\n{indented(pairs)},\n}}\n"
    return text


def indented(pairs: str) -> str:
    """A list of pairs in lines; none is broken inside its text."""
    held = pairs.replace(": ", ":\0").replace(" ", "\0").replace(",\0", ", ")
    filled = textwrap.fill(held, WIDTH, initial_indent="    ", subsequent_indent="    ",
                           break_long_words=False, break_on_hyphens=False)
    return filled.replace("\0", " ")


def class_name(name: str) -> str:
    """The name of an enum in Python."""
    return "".join(it.title() for it in name.removeprefix("tb_").split("_"))


def short_name(name: str) -> str:
    """The name of a number in its enum of Python."""
    for prefix in ("STATUS_", "ACCESS_", "COMPARED_"):
        name = name.removeprefix(prefix)
    return name


# Enums whose numbers are added up.
SUMS = ("tb_attrs", "tb_access_kind")


def python_enum(it: Enum) -> str:
    """An enum of Python: of words where its numbers have texts, else of numbers."""
    base = "Word" if it.texts else "IntFlag" if it.name in SUMS else "IntEnum"
    about = textwrap.fill(f'"""{it.about}"""', WIDTH - 4, subsequent_indent="    ",
                          break_on_hyphens=False)
    text = f"class {class_name(it.name)}({base}):\n    {about}\n\n"
    for entry in it.entries:
        said = f', "{entry.text}"' if it.texts else ""
        text += f"    {short_name(entry.name)} = {entry.number}{said}\n"
    return text


def python_enums(tables: Tables) -> str:
    """All enums in Python."""
    return "\n\n".join(python_enum(it) for it in tables.enums)


def in_a_table(about: str) -> str:
    """The first sentence of what is said of an enum, as a table has it."""
    first = about.partition(". ")[0].rstrip(".")
    return re.sub(r"(tb_\w+)", r"`\1`", first[0].lower() + first[1:])


def page_table(tables: Tables) -> str:
    """The numbers as a table of the page."""
    rows = [
        f"| `{it.name}`: {in_a_table(it.about)} | "
        + ", ".join(f"`TB_{entry.name}` {entry.number}" for entry in it.entries) + " |\n"
        for it in tables.enums
    ]
    head = "| Numbers | Names in C and in Rust; in Python without `TB_` |\n|---|---|\n"
    return head + "".join(rows)


C, RUST, PYTHON, PAGE = ("// ", ""), ("// ", ""), ("# ", ""), ("<!-- ", " -->")
HEADER = "include/tombolopan.h"
RUST_FILE = "examples/embed/tombolopan.rs"
PYTHON_FILE = "examples/embed/tombolopan/abi.py"
PYTHON_ENUMS = "examples/embed/tombolopan/enums.py"
PAGE_FILE = "docs/C.md"
PARTS = [
    Part(HEADER, C, "the numbers", by_tables(c_enums)),
    Part(HEADER, C, "the texts", by_tables(c_functions)),
    Part(RUST_FILE, RUST, "the numbers", by_tables(rust_constants)),
    Part(RUST_FILE, RUST, "the texts", by_tables(rust_functions)),
    Part(RUST_FILE, RUST, "the structs", rust.structs),
    Part(RUST_FILE, RUST, "the calls", rust.calls),
    Part(PYTHON_FILE, PYTHON, "the numbers and texts", by_tables(python_tables)),
    Part(PYTHON_ENUMS, PYTHON, "the enums", by_tables(python_enums)),
    Part(PAGE_FILE, PAGE, "the numbers", by_tables(page_table)),
]


def halves(part: Part, text: str) -> tuple[str, str, str]:
    """What stands in front of a part, in it and after it, without its marks."""
    begin, end = part.marks()
    if text.count(begin) != 1 or end not in text.partition(begin)[2]:
        raise BorderError(f"{part.path}: the marks of {part.name} are not there, each once")
    before, _, rest = text.partition(begin)
    inside, _, after = rest.partition(end)
    return before, inside, after


def wanted(part: Part, tables: Tables, header: str) -> str:
    """What stands between the marks; lines of a page need an empty line around a table."""
    text = part.text(tables, header)
    return f"\n{text}\n"


def replaced(part: Part, text: str, tables: Tables, header: str) -> str:
    """The text of a file with the part as the tables and the header give it."""
    before, _, after = halves(part, text)
    begin, end = part.marks()
    return before + begin + wanted(part, tables, header) + end + after
