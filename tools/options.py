#!/usr/bin/env python3
"""The options of mte_run as data: writes what follows from tools/options.toml.

    options.py            write the table of the command line, and that of docs/MTE_RUN.md
    options.py --check    exit with 1 where one of them is not what the data give
    options.py --root DIR ..    the same in another copy of the repository
"""

import argparse
import pathlib
import re
import sys
import tomllib
from typing import Any

from causes import DATA as CAUSES
from causes import END, kind_names, quoted

ROOT = pathlib.Path(__file__).resolve().parent.parent
DATA = "tools/options.toml"
TABLE, PAGE = "crates/run_options/src/option_rows.rt", "docs/MTE_RUN.md"
MARK = "<!-- Written by tools/options.py: options -->"
MAX = 2 ** 64 - 1
HEAD = f"""\
// Written by tools/options.py from {DATA}. Do not edit.
//! The options of the command line, in the order in which the help lists them.

use crate::table::{{OptionForm, OptionRow}};
use run_terms::CHECK_HELP;

/// All options: a static, since a proof writes out a constant wherever it is named.
"""

Row = dict[str, Any]  # a table of the data


class OptionError(Exception):
    """The page has no place for the table."""


def listed(values: list[str]) -> str:
    """Texts as Rattle has a list of them."""
    return f"&[{', '.join(map(quoted, values))}]"


def number(value: int) -> str:
    """A number as Rattle has it."""
    return "u64::MAX" if value == MAX else f"{value:_}"


def form_of(option: Row) -> str:
    """How an option is given."""
    value = quoted(option.get("value", ""))
    bounds = ", ".join(number(option[it]) for it in ("low", "high") if it in option)
    if "values" in option:
        return f"Texts({listed(option['values'])})"
    if "words" in option:
        return f"Word({value}, {quoted(option['missing'])}, {listed(option['words'])})"
    if "missing" in option:
        return f"Optional({value}, {quoted(option['missing'])})"
    if bounds and "value" in option:
        return f"Numbers({value}, {bounds})"
    if bounds and "default" in option:
        return f"Number({bounds}, {quoted(option['default'])})"
    if bounds:
        return f"Range({bounds})"
    if "default" in option:
        return f"Default({value}, {quoted(option['default'])})"
    return f"Text({value})" if "value" in option else "Flag"


def row_of(group: str, option: Row) -> str:
    """An option as a row of the command line's table."""
    about = quoted(option["help"]) if "help" in option else "CHECK_HELP"
    fields = {"name": quoted(option["name"]), "form": f"OptionForm::{form_of(option)}",
              "group": quoted(group), "is_first": str(option.get("first", False)).lower(),
              "help": about}
    lines = [f"        {name}: {value},\n" for name, value in fields.items()]
    return f"    OptionRow {{\n{''.join(lines)}    }},\n"


def table_file(groups: list[Row]) -> str:
    """The file of the command line's table."""
    rows = [row_of(group["title"], it) for group in groups for it in group["option"]]
    return f"{HEAD}pub(crate) static OPTIONS: [OptionRow; {len(rows)}] = [\n{''.join(rows)}];\n"


def page_table(groups: list[Row], kinds: str) -> str:
    """The tables of the page."""
    rows = []
    for group in groups:
        rows.append(f"| **{group['title']}** | |\n")
        for option in group["option"]:
            for shown, text in option["rows"]:
                rows.append(f"| {shown} | {text.replace('{kinds}', kinds)} |\n")
    return f"\n\n| Option | |\n|---|---|\n{''.join(rows)}\n"


def with_table(page: str, table: str) -> str:
    """The page with its table."""
    found = re.fullmatch(rf"(.*{re.escape(MARK)}).*?({re.escape(END)}.*)", page, re.S)
    if found is None or page.count(MARK) != 1:
        raise OptionError(f"{PAGE}: the mark of the options is not there once")
    return found[1] + table + found[2]


def wanted(root: pathlib.Path) -> dict[str, str]:
    """What every file must be, by its path."""
    groups = tomllib.loads((root / DATA).read_text(encoding="utf-8"))["group"]
    kinds = kind_names(tomllib.loads((root / CAUSES).read_text(encoding="utf-8")))
    page = (root / PAGE).read_text(encoding="utf-8")
    return {TABLE: table_file(groups), PAGE: with_table(page, page_table(groups, kinds))}


def main() -> int:
    """Reads the command line."""
    parser = argparse.ArgumentParser(
        description=__doc__, formatter_class=argparse.RawDescriptionHelpFormatter)
    parser.add_argument("--check", action="store_true")
    parser.add_argument("--root", type=pathlib.Path, default=ROOT)
    options = parser.parse_args()
    status = 0
    for name, text in wanted(options.root).items():
        file = options.root / name
        if file.is_file() and file.read_text(encoding="utf-8") == text:
            continue
        if options.check:
            print(f"{name} is not what {DATA} gives: run tools/options.py", file=sys.stderr)
            status = 1
        else:
            file.write_text(text, encoding="utf-8")
            print(f"wrote {name}")
    return status


if __name__ == "__main__":
    sys.exit(main())
