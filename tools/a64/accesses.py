"""Writes how each row accesses memory, and the register that it writes, by which `mte_run` explains
a run."""

import re

from a64 import layout
from a64.table import Row, Rows

PATH = "crates/a64_access/src/rows.rt"
WRITTEN = "crates/run_records/src/written.rt"

# The field that is 0 of a store, by the function that gives the form of an access; none where each
# is a store.
STORES = {"single": "opc", "pair": "l", "tagged_pair": "", "store_tags": ""}

HEAD = """\
// Written by tools/isa.py from isa/a64.rows. Do not edit.
//! How each row accesses memory.

{functions}use a64_instr::Instr;

impl AccessForm {{
    /// How an instruction accesses memory; `None` where it does not.
    #[rattlefmt::skip]
    pub fn of(instr: &Instr) -> Option<AccessForm> {{
        Some(match *instr {{
"""

SEPARATOR = "\n            | "

ACCESSES_TAIL = """\
        })
    }
}
"""

WRITTEN_HEAD = """\
// Written by tools/isa.py from isa/a64.rows. Do not edit.
//! The register that an instruction writes, besides those that it loads.

use a64_instr::Instr;

/// The numbered register that an instruction writes, 31 for none, if it is of data processing or a
/// branch. `None` for loads, stores and what writes no register.
#[rattlefmt::skip]
pub fn written_by(instr: &Instr) -> Option<u8> {
    match *instr {
"""

TAIL = """\
    }
}
"""


def access_arm(row: Row) -> str:
    """The arm of a row that accesses memory."""
    call = access_call(row)
    named = set(re.findall(r"\w+", call))
    shown = [f.name for f in row.fields if f.name in named]
    if len(shown) < len(row.fields):
        shown.append("..")
    # An addressing mode has a capital letter.
    call = re.sub(r"\b(?=[A-Z])", "AddressingMode::", call)
    return f"            Instr::{row.name} {{ {', '.join(shown)} }} =>\n                {call},\n"


def access_call(row: Row) -> str:
    """The call of `accesses`; empty of a row that accesses no memory."""
    call = row.said.get("accesses", "")
    if call and not re.fullmatch(r"\w+\(.*\)", call):
        raise row.error(f"`{call}` is no call", "accesses")
    return call


def split_constants(row: Row, key: str, said: str) -> tuple[dict[str, str], str]:
    """The constant fields that a line begins with, and its rest."""
    constants: dict[str, str] = {}
    while "=" in said.partition(" ")[0]:
        constant, _, said = said.partition(" ")
        name, value = row.constant(constant, key)
        constants[name] = str(value)
    return constants, said


def split_writes(row: Row) -> tuple[dict[str, str], str]:
    """The constant fields of `writes`, and the register; `rd` where nothing is said and there is
    one, else nothing."""
    if "writes" not in row.said:
        return {}, "rd" if any(f.name == "rd" for f in row.fields) else ""
    constants, register = split_constants(row, "writes", row.said["writes"])
    if not register.isdigit():
        row.field(register, "writes")
    elif int(register) > 30:
        raise row.error(f"there is no register {register}", "writes")
    return constants, register


def written_pattern(row: Row) -> str:
    """The row, with its constants and the field of the register."""
    constants, register = split_writes(row)
    field = [] if register.isdigit() else [row.field(register).name]
    return f"Instr::{row.name} {{ {', '.join([*map(': '.join, constants.items()), *field])}, .. }}"


def registers(rows: Rows) -> str:
    """The file that tells which register an instruction writes."""
    split = {row.name: split_writes(row) for row in rows.values()}
    text = WRITTEN_HEAD
    for register in dict.fromkeys(said for _, said in split.values() if said):
        ours = [row for row in rows.values() if split[row.name][1] == register]
        text += layout.alternatives([written_pattern(row) for row in ours], f"Some({register})")
    others = [row for row in rows.values() if split[row.name][0] or not split[row.name][1]]
    return text + layout.alternatives([layout.any_row(row) for row in others], "None") + TAIL


def accesses(rows: Rows) -> str:
    """The file that tells how an instruction accesses memory."""
    ours = [row for row in rows.values() if access_call(row)]
    called = {name for row in ours
              for name in re.findall(r"(?<![\w:])([a-z]\w+)\(", access_call(row))}
    functions = layout.functions_used({"crate::form": {"AccessForm", "AddressingMode", *called}})
    # None is left to `_`.
    others = [layout.any_row(row) for row in rows.values() if not access_call(row)]
    return (HEAD.format(functions=functions) + "".join(map(access_arm, ours))
            + f"            {SEPARATOR.join(others)} => return None,\n" + ACCESSES_TAIL)


def written(rows: Rows) -> dict[str, str]:
    return {PATH: accesses(rows), WRITTEN: registers(rows)}
