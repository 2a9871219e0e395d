"""How lines of the written files are laid out: comments, arms, equations, imports, patterns."""

import textwrap
from collections.abc import Iterable, Mapping, Sequence

from a64.table import Form, Row

WIDTH = 100  # of a line


def comment(mark: str, text: str, indent: str = "") -> str:
    """A comment of whole lines."""
    lead = f"{indent}{mark} "
    return textwrap.fill(text, WIDTH, initial_indent=lead, subsequent_indent=lead,
                         break_long_words=False, break_on_hyphens=False) + "\n"


def sentence(text: str) -> str:
    return f"{text[0].upper()}{text[1:]}."


def alternatives(patterns: list[str], result: str) -> str:
    """An arm of several patterns: on one line if it fits, else a line for each."""
    line = f"        {' | '.join(patterns)} => {result},\n"
    if len(line) <= WIDTH + 1:
        return line
    return "        " + "\n        | ".join(patterns) + f" => {result},\n"


def equation(left: str, right: str) -> str:
    """An equation of a definition: on one line if it fits."""
    line = f"{left} = {right}\n"
    return line if len(line) <= WIDTH + 1 else f"{left} =\n    {right}\n"


def functions_used(uses: Mapping[str, set[str]]) -> str:
    """The imports of functions, by their modules: those of the crate itself come first."""
    lines = []
    for module, used in uses.items():
        names = sorted(used)
        line = f"use {module}::{{{', '.join(names)}}};\n"
        if len(names) == 1:
            line = f"use {module}::{names[0]};\n"
        if len(line) > WIDTH + 1:
            inner = textwrap.fill(", ".join(names) + ",", WIDTH - 1, initial_indent="    ",
                                  subsequent_indent="    ")
            line = f"use {module}::{{\n{inner}\n}};\n"
        lines.append(line)
    return "".join(sorted(lines, key=lambda line: (not line.startswith("use crate::"), line)))


def imported(module: str, names: Iterable[str]) -> str:
    """The ghost imports of names, in their order, as many on a line as fit."""
    room = WIDTH - len(f"ghost use Rattle.{module}.{{}};")
    return "".join(f"ghost use Rattle.{module}.{{{line.removesuffix(',')}}};\n"
                   for line in textwrap.wrap(", ".join(names), room))


def spec_imported(module: str, names: Iterable[str]) -> str:
    """The same in a definition's file."""
    return imported(module, names).replace("ghost use", "use").replace(";\n", "\n")


def braces(name: str, inside: Sequence[str]) -> str:
    return f"{name} {{ {', '.join(inside)} }}" if inside else name


def row_pattern(row: Row, given: Mapping[str, object], without: Sequence[str] = ()) -> str:
    """The pattern of a row whose constant fields are `given`."""
    shown = [f"{f.name}: {given[f.name]}" if f.name in given else f.name
             for f in row.fields if f.name not in without]
    return braces(f"Instr::{row.name}", [*shown, *[".."][:len(without)]])


def any_row(row: Row) -> str:
    return f"Instr::{row.name} {{ .. }}" if row.fields else f"Instr::{row.name}"


def row_value(row: Row) -> str:
    """The row with its fields, in a definition."""
    return applied("instr", row.name, [f.name for f in row.fields])


def applied(type_name: str, variant: str, values: Sequence[str]) -> str:
    """A variant with the values of its fields, in a definition."""
    text = " ".join([f"{type_name}.{variant}", *values])
    return f"({text})" if values else text


def form_names(form: Form) -> list[str]:
    return [name for name, _ in form.kept]


def form_pattern(form: Form) -> str:
    """A form in a match over its table."""
    return braces(f"{form.table.enum}::{form.name}", form_names(form))


def any_form(form: Form) -> str:
    return f"{form.table.enum}::{form.name}" + (" { .. }" if form.kept else "")


def form_made(form: Form) -> str:
    """A form as an `Op`."""
    held = form.table.held
    return f"Op::{held}({form_pattern(form)})" if held else form_pattern(form)


def form_value(form: Form) -> str:
    """A form of its table, in a definition."""
    return applied(form.table.value, form.name, form_names(form))
