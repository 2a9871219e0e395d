#!/usr/bin/env python3
"""Causes as data: writes what follows from tools/causes.toml.

    causes.py            write the enums, names and sentences of causes, findings and kinds of
                         --check in Rattle, and their names on two pages
    causes.py --check    exit with 1 where one of them is not what the data give, or where an enum
                         has other kinds than the data, or others in another order
    causes.py --root DIR ..    the same in another copy of the repository
"""

import argparse
import pathlib
import re
import sys
import textwrap
import tomllib
from collections.abc import Iterable, Iterator
from typing import Any

import findings

ROOT = pathlib.Path(__file__).resolve().parent.parent
DATA = "tools/causes.toml"
HEAD = f"// Written by tools/causes.py from {DATA}. Do not edit.\n"
CAUSES = "crates/run_cause/src/cause_words.rt"
KINDS = "crates/run_terms/src/kind_words.rt"
CHECKING, MTE_RUN = "docs/CHECKING.md", "docs/MTE_RUN.md"
WIDTH = 100

Row = dict[str, Any]  # a table of the data
Data = dict[str, Any]


class CauseError(Exception):
    """What of the data, or of a file that is written, is wrong."""


# ---- Rattle


def quoted(text: str) -> str:
    """A text as Rattle has it."""
    return '"' + text.replace("\\", "\\\\").replace('"', '\\"') + '"'


def folded(text: str) -> str:
    """A text that is too long for a line, below the name that it is of."""
    lines = textwrap.wrap(quoted(text), WIDTH - 8, break_on_hyphens=False)
    return "\n    " + " \\\n     ".join(lines)


def comment(text: str, indent: str = "    ") -> str:
    """A public comment."""
    lead = f"{indent}/// "
    return textwrap.fill(text, WIDTH, initial_indent=lead, subsequent_indent=lead,
                         break_on_hyphens=False) + "\n"


def in_braces(fields: dict[str, str]) -> str:
    """The fields of a value."""
    return "{ " + ", ".join(f"{name}: {value}" for name, value in fields.items()) + " }"


def table(name: str, kind: str, rows: Iterable[str], about: str, seen: str = "") -> str:
    """A static array, a row a line; `seen` is its visibility."""
    lines = [f"    {row},\n" for row in rows]
    return (f"\n{comment(about, '')}#[rattlefmt::skip]\n"
            f"{seen}static {name}: [{kind}; {len(lines)}] = [\n{''.join(lines)}];\n")


def enum(name: str, about: str, variants: Iterable[tuple[str, str]], derived: str) -> str:
    """A public enum without fields."""
    lines = "".join(f"{comment(said)}    {variant},\n" for variant, said in variants)
    return f"\n{comment(about, '')}#[derive({derived})]\npub enum {name} {{\n{lines}}}\n"


CAUSE_HEAD = '''\
//! The words for causes, findings and ends.

use mte_svc::Status;
use mte_tags::FaultKind;
use run_terms::CheckKind;
use scudo_heap::HeapAbort;
'''
CAUSE_STRUCT = '''
/// The words for a cause.
#[derive(Clone, Copy)]
pub(crate) struct CauseWords {
    /// The text before its name: `[MTE]: ` where a tag found it.
    pub finder: &'static str,
    /// Its name.
    pub name: &'static str,
    /// The text between its name, or the distance, and what it belongs to.
    pub joint: &'static str,
    /// The name of its kind, for other programs.
    pub rule: &'static str,
}
'''
CAUSE_FUNCTION = '''
impl CauseKind {
    /// Its name.
    pub(crate) fn words(self) -> &'static CauseWords {
        &CAUSES[self as usize]
    }
}
'''
FINDING_STRUCT = '''
/// The words for a finding.
#[derive(Clone, Copy)]
pub(crate) struct FindingWords {
    /// The name of what found it, which is that of the option.
    pub finder: &'static str,
    /// Its name, for other programs.
    pub key: &'static str,
    /// The kind of what is checked that it is of.
    pub kind: CheckKind,
    /// The misuse.
    pub words: &'static str,
    /// The misuse where it is not known where the pointer came from.
    pub by_address: &'static str,
}
'''
END_STRUCT = '''
/// The words for an end that is not judged.
#[derive(Clone, Copy)]
pub struct EndWords {
    /// The name of its kind, for other programs.
    pub rule: &'static str,
    /// The event.
    pub text: &'static str,
}

/// The words for a tenant with a status, where that is not judged.
#[rattlefmt::skip]
pub fn end_words(status: &Status) -> EndWords {
    match status {
'''


def cause_row(it: Row) -> str:
    """A row of the table of causes."""
    finder = "[MTE]: " if it.get("by_tag") else ""
    texts = {"finder": finder, "name": it["name"], "joint": it.get("joint", ""), "rule": it["rule"]}
    return "CauseWords " + in_braces({name: quoted(text) for name, text in texts.items()})


def finding_table(it: Row) -> str:
    """The table of the findings of an enum."""
    rows = []
    for name, kind, words in it["rows"]:
        said = it.get("by_address", {}).get(name, words)
        rows.append("FindingWords " + in_braces({
            "finder": quoted(it["finder"]), "key": quoted(it.get("prefix", "") + name),
            "kind": f"CheckKind::{kind.title()}", "words": quoted(words),
            "by_address": quoted(said)}))
    about = f"The findings by `{it['enum']}`."
    return table(it["table"], "FindingWords", rows, about, "pub(crate) ")


def words_function(it: Row) -> str:
    """The texts of an enum, and the function that answers them."""
    rows = (quoted(words) for _, words in it["rows"])
    return (table(it["table"], "&str", rows, f"The texts of `{it['enum']}`.")
            + f"\n{comment(it['about'], '')}"
            f"pub fn {it['function']}(kind: {it['enum']}) -> &'static str {{\n"
            f"    {it['table']}[kind as usize]\n}}\n")


def end_arm(it: Row) -> str:
    """What is said of a status."""
    status = it["status"] if it["status"] == "_" else f"Status::{it['status']}"
    fields = in_braces({"rule": quoted(it["rule"]), "text": quoted(it["text"])})
    return f"        {status} => EndWords {fields},\n"


def cause_file(data: Data) -> str:
    """The words of causes and findings."""
    variants = [(it["kind"], it["about"]) for it in data["cause"]]
    return "".join([
        HEAD, CAUSE_HEAD, enum("CauseKind", "The kinds of causes.", variants, "Clone, Copy"),
        CAUSE_STRUCT, table("CAUSES", "CauseWords", map(cause_row, data["cause"]), "All causes."),
        CAUSE_FUNCTION, FINDING_STRUCT, *map(finding_table, data["violation"]),
        END_STRUCT, *map(end_arm, data["end"]), "    }\n}\n",
        *map(words_function, data["words"]),
    ])


KINDS_FUNCTIONS = '''
impl CheckKind {{
    /// The kind with a name.
    pub fn of(name: &str) -> Option<CheckKind> {{
        match name {{
{names}            _ => None,
        }}
    }}
}}

/// Which kinds are checked.
#[derive(Clone, Copy, PartialEq, Eq)]
pub struct CheckKinds {{
{fields}}}

impl CheckKinds {{
    /// None.
    pub const NONE: CheckKinds = CheckKinds {{
{none}    }};

    /// The same, and all that are not checked only where they are asked for.
    pub(crate) fn with_all(self) -> CheckKinds {{
        CheckKinds {{
{usual}            ..self
        }}
    }}

    /// The same and another one.
    pub(crate) fn with(self, kind: CheckKind) -> CheckKinds {{
        CheckKinds {{
{both}        }}
    }}
}}
'''


def listed(data: Data) -> list[Row]:
    """The kinds of --check in the order in which texts list them."""
    kinds = {it["name"]: it for it in data["check"]}
    if kinds.keys() != set(data["listed"]):
        raise CauseError(f"{DATA}: `listed` has not the names of the kinds")
    return [kinds[name] for name in data["listed"]]


# What the help of --check says before the kinds, and the fault of a word that is none.
CHECK_HELP = "Ends it at the first wrong use of a pointer, a chunk or an undefined value"
CHECK_FAULT = "--check takes these, with commas between them:"


def kinds_file(data: Data) -> str:
    """The kinds of --check."""
    kinds = listed(data)
    names = [it["name"] for it in kinds]
    shown = ", ".join([*names, "all"])
    parts = KINDS_FUNCTIONS.format(
        names="".join(f'            "{it}" => Some(CheckKind::{it.title()}),\n' for it in names),
        fields="".join(f"{comment(it['about'])}    pub {it['name']}: bool,\n" for it in kinds),
        none="".join(f"        {it}: false,\n" for it in names),
        usual="".join(f"            {it['name']}: true,\n" for it in kinds if not it.get("asked")),
        both="".join(f"            {it}: self.{it} || kind == CheckKind::{it.title()},\n"
                     for it in names))
    return "".join([
        HEAD, "//! The kinds of what is checked.\n",
        "\n/// The names of all kinds.\n",
        f"pub(crate) const NAMES: &str = {quoted(', '.join(names))};\n",
        "\n/// The help of `--check`.\n",
        f"pub const CHECK_HELP: &str ={folded(f'{CHECK_HELP} [possible values: {shown}]')};\n",
        "\n/// The fault of a word that is no kind.\n",
        f"pub const CHECK_FAULT: &str ={folded(f'{CHECK_FAULT} {shown}')};\n",
        enum("CheckKind", "A kind of what is checked.",
             [(it["name"].title(), it["about"]) for it in kinds], "Clone, Copy, PartialEq, Eq"),
        parts])


# ---- pages


def in_code(names: Iterable[str]) -> list[str]:
    """Names as a page has them."""
    return [f"`{it}`" for it in names]


def kinds_table(data: Data) -> str:
    """The kinds as a table."""
    rows = [f"| `{it['name']}`{', only if requested' if it.get('asked') else ''} "
            f"| {it['reported']} | {it['silent']} |\n" for it in data["check"]]
    head = "| Kind | What is reported | What it never reports |\n|---|---|---|\n"
    return f"\n\n{head}{''.join(rows)}\n"


def kind_names(data: Data) -> str:
    """The kinds in a sentence."""
    *names, last = in_code(data["listed"])
    return f"{', '.join(names)} or {last}"


def exact_names(data: Data) -> str:
    """The names of what --exact finds."""
    (rows,) = (it["rows"] for it in data["violation"] if it["finder"] == "exact")
    *names, last = in_code(name for name, _, _ in rows)
    return f"{', '.join(names)} or {last}"


def check_names(data: Data) -> str:
    """The names of what --check finds."""
    parts = []
    for it in data["violation"]:
        if it["finder"] == "check":
            prefix = "" if "introduction" in it else it.get("prefix", "")
            names = in_code(prefix + name for name, _, _ in it["rows"])
            parts.append(it.get("introduction", "") + ", ".join(names))
    return "; ".join(parts)


def rules(data: Data) -> str:
    """The names of the kinds of ends, for other programs, each once."""
    named = (it["rule"] for it in (*data["cause"], *data["end"]))
    return ", ".join(in_code(dict.fromkeys(named)))


PARTS = [
    (CHECKING, "the kinds", kinds_table),
    (MTE_RUN, "names of --exact", exact_names),
    (MTE_RUN, "names of --check", check_names),
    (MTE_RUN, "rules", rules),
]
END = "<!-- to here. -->"


def with_part(page: str, text: str, name: str, inside: str) -> str:
    """The text of a page with the part of a name."""
    begin = f"<!-- Written by tools/causes.py: {name} -->"
    if text.count(begin) != 1 or END not in text.partition(begin)[2]:
        raise CauseError(f"{page}: the marks of {name} are not there, each once")
    before, _, rest = text.partition(begin)
    return f"{before}{begin}{inside}{END}{rest.partition(END)[2]}"


# ---- all


def wanted(root: pathlib.Path, data: Data) -> dict[str, str]:
    """What every file must be, by its path."""
    files = {CAUSES: cause_file(data), KINDS: kinds_file(data)}
    for page, name, text in PARTS:
        before = files.get(page) or (root / page).read_text(encoding="utf-8")
        files[page] = with_part(page, before, name, text(data))
    return files


def other_kinds(root: pathlib.Path, data: Data) -> Iterator[str]:
    """Enums of crates whose kinds are others than the data have, or in another order."""
    for it in (*data["violation"], *data["words"]):
        text = (root / it["file"]).read_text(encoding="utf-8")
        found = re.search(rf"^pub enum {it['enum']} \{{\n(.*?)^\}}", text, re.M | re.S)
        kinds = re.findall(r"^    (\w+)", found[1], re.M) if found else []
        if kinds != [row[0] for row in it["rows"]]:
            yield f"{it['file']}: {it['enum']} has other kinds than {DATA}, or in another order"


def main() -> int:
    """The command line."""
    parser = argparse.ArgumentParser(
        description=__doc__, formatter_class=argparse.RawDescriptionHelpFormatter)
    parser.add_argument("--check", action="store_true", help="compare, and write nothing")
    parser.add_argument("--root", type=pathlib.Path, default=ROOT, help="the repository")
    options = parser.parse_args()
    root = options.root
    try:
        data = tomllib.loads((root / DATA).read_text(encoding="utf-8"))
        found = list(other_kinds(root, data))
        for path, text in wanted(root, data).items():
            place = root / path
            if place.exists() and place.read_text(encoding="utf-8") == text:
                continue
            if options.check:
                found.append(f"{path}: is not what {DATA} gives (run tools/causes.py)")
            else:
                place.write_text(text, encoding="utf-8")
                print(f"wrote {path}")
    except (CauseError, OSError) as error:
        found = [str(error)]
    return findings.status_of(found)


if __name__ == "__main__":
    sys.exit(main())
