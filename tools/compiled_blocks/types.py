"""The words of an image as types of a64_forms."""

import functools

from a64 import table
from a64.form_types import UNTYPED
from a64.pages import matching_form

# Forms after which the next instruction in memory never comes.
JUMPS = {"Jump", "Call", "JumpReg", "CallReg", "Ret"}
# The forms of masks, by the bit sf and opc.
MASKS = {(sf, opc): f"{name}Mask{'' if sf else '32'}"
         for opc, name in enumerate(("And", "Orr", "Eor", "Ands")) for sf in (0, 1)}
NO_REGISTER = 31


@functools.cache
def read_tables() -> tuple[table.Rows, list[table.Form]]:
    """The rows and the forms."""
    rows = table.read_rows()
    return rows, table.read_forms(rows)


def mask_of(values: dict[str, int]) -> int:
    """The mask of a logical instruction (DecodeBitMasks, Arm ARM DDI 0487, J1.3)."""
    size = table.element_size(values["n"], values["imms"])
    ones = (1 << values["imms"] % size + 1) - 1
    turn = values["immr"] % size
    element = (ones >> turn | ones << size - turn) & (1 << size) - 1
    width = 64 if values["sf"] else 32
    return sum(element << at for at in range(0, width, size))


def constant_of(values: dict[str, int]) -> int:
    """The value of MOVZ or MOVN."""
    value = values["imm16"] << 16 * values["hw"]
    width = 64 if values["sf"] else 32
    return value if values["opc"] else ~value & (1 << width) - 1


def own_effect(row: str, values: dict[str, int]) -> tuple[str, list[int]] | None:
    """The form of a row with its mask or its constant, and its fields."""
    if row == "LogImm":
        flags = values["opc"] == 3
        if values["opc"] == 1 and values["rn"] == NO_REGISTER > values["rd"]:
            return "Constant", [values["rd"], mask_of(values)]
        if values["rn"] == NO_REGISTER or (not flags and values["rd"] == NO_REGISTER):
            return None
        name = MASKS[values["sf"], values["opc"]]
        return name, [values["rn"], values["rd"], mask_of(values)]
    if row == "Hint":
        return "Hint", []
    if row == "LogShift" and values["rd"] != NO_REGISTER and (
            values["opc"], values["shift"], values["n"], values["imm6"], values["rm"],
            values["rn"]) == (1, 0, 0, 0, NO_REGISTER, NO_REGISTER):
        return "Constant", [values["rd"], 0]
    if row == "Bitfield" and values["opc"] == 2 and values["imms"] + 1 == values["immr"]:
        if NO_REGISTER in (values["rn"], values["rd"]):
            return None
        width, name = (64, "Lsl") if values["sf"] else (32, "Lsl32")
        if values["imms"] + 1 < width:
            return name, [values["rn"], values["rd"], width - values["immr"]]
    if row == "MoveWide" and values["opc"] != 3 and values["rd"] != NO_REGISTER:
        return "Constant", [values["rd"], constant_of(values)]
    return None


def any_form(row: table.Row, word: int) -> tuple[str, tuple[int, ...]] | None:
    """The form of a row's word and its fields; none where `Op` has none."""
    rows, forms = read_tables()
    values = row.values(word)
    if found := own_effect(row.name, values):
        return found[0], tuple(found[1])
    form = matching_form(row, values, forms, rows)
    # The rare ones are not in `Op`.
    if form is None or form.table.held:
        return None
    return form.name, tuple(values[name] for name, _ in form.kept)


@functools.cache
def form_of(word: int) -> tuple[str, tuple[int, ...]] | None:
    """The form of a word and its fields; none where it has no type."""
    row = table.decode(word, read_tables()[0])
    if row is None or row.refusals(word):
        return None
    form = any_form(row, word)
    return None if form is None or form[0] in UNTYPED else form


def written(form: tuple[str, tuple[int, ...]]) -> str:
    """The type of a form."""
    name, fields = form
    return f"{name}<{', '.join(map(str, fields))}>" if fields else name
