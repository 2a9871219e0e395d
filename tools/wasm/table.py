"""The options of mte_run as the page has them, by their groups, from the one table of options."""

import pathlib
import tomllib
from typing import Any

TOOLS = pathlib.Path(__file__).resolve().parent.parent
# What the page does in another way: its sessions, and no terminal. Files are elsewhere too.
ELSEWHERE = ("frames", "gdb", "raw-output", "script")
Row = dict[str, Any]


def read(name: str) -> Row:
    """The data of a file of tools."""
    with open(TOOLS / name, "rb") as file:
        return tomllib.load(file)


def is_elsewhere(row: Row) -> bool:
    """Whether an option is none of the page's."""
    return row["name"] in ELSEWHERE or row.get("value") == "FILE"


def option_of(row: Row, kinds: list[str]) -> Row:
    """An option: its kind is `flag`, `number`, `text`, `words` (one of some), `set` (several of
    some, with commas) or `value` (it may be left out)."""
    made = {"name": row["name"], "label": row.get("help", ""), "default": row.get("default", "")}
    if row["name"] == "check":
        return {**made, "kind": "set", "words": kinds,
                "label": "Ends it at the first wrong use of these kinds"}
    if "words" in row:
        return {**made, "kind": "words", "words": ["", *row["words"]]}
    if "missing" in row:
        return {**made, "kind": "value", "default": f"{row['value']}, or {row['missing']}"}
    if "value" in row:
        return {**made, "kind": "text"}
    return {**made, "kind": "number" if "low" in row else "flag"}


def groups() -> list[Row]:
    """The groups that have options in the page."""
    kinds = read("causes.toml")["listed"]
    found = []
    for group in read("options.toml")["group"]:
        options = [option_of(it, kinds) for it in group["option"] if not is_elsewhere(it)]
        if options:
            found.append({"name": group["title"], "option": options})
    return found


def elsewhere() -> list[str]:
    """The names of the options that the page has in another way."""
    rows = [it for group in read("options.toml")["group"] for it in group["option"]]
    return [it["name"] for it in rows if is_elsewhere(it)]
