"""The forms of accesses, as crates/a64_access/src/form.rt has them, and what an instruction of a
form leaves in registers and memory, as the terms of the definitions."""

import ast
import re
from collections.abc import Callable
from dataclasses import dataclass
from typing import Any, Optional

from a64.definitions import DefinitionError, byte_read, tag_read

PLAIN = (1 << 56) - 1  # the bits of a plain address
WORD32 = (1 << 32) - 1
WORD64 = (1 << 64) - 1
BEFORE = ("memory",)  # the memory before an instruction

Fields = dict[str, int]
Regs = dict[str, Any]  # the record Regs of the definitions
Mode = tuple[Any, ...]  # an addressing mode: its name, and what it is of
Term = tuple[Any, ...]  # a memory: what was done, to which memory, and with what


@dataclass(frozen=True)
class Access:
    """The form of an access; kind and extension are names."""
    kind: str
    mode: Mode
    base: int
    bytes: int
    first: int
    second: Optional[int] = None
    extension: str = "Zero"


class Calls:
    """The functions that a line `accesses` may call."""

    def single(self, size: int, opc: int, rn: int, rt: int, mode: Mode) -> Access:
        extension = {2: "Sign64", 3: "Sign32"}.get(opc, "Zero")
        return Access("Load" if opc else "Store", mode, rn, 1 << size, rt, None, extension)

    def literal(self, opc: int, imm19: int, rt: int) -> Access:
        return Access("Load", ("Literal", 4 * imm19), 31, 8 if opc == 1 else 4, rt, None,
                      "Sign64" if opc == 2 else "Zero")

    def pair(self, opc: int, l: int, rn: int, rt: int, rt2: int, mode: Mode) -> Access:
        return Access("Load" if l else "Store", mode, rn, 8 if opc == 2 else 4, rt, rt2,
                      "Sign64" if opc == 1 else "Zero")

    def tagged_pair(self, rn: int, rt: int, rt2: int, mode: Mode) -> Access:
        return Access("StorePairWithTag", mode, rn, 8, rt, rt2)

    def load_tag(self, rn: int, rt: int, mode: Mode) -> Access:
        return Access("LoadTag", mode, rn, 16, rt)

    def store_tags(self, opc: int, rn: int, rt: int, mode: Mode) -> Access:
        return Access("StoreZeros" if opc % 2 else "StoreTags", mode, rn, 32 if opc >= 2 else 16,
                      rt)

    def scaled_offset(self, imm12: int, size: int) -> int:
        return imm12 << size

    def pair_offset(self, opc: int, imm7: int) -> int:
        return imm7 * (8 if opc == 2 else 4)

    def register_offset(self, rm: int, option: int, s: int) -> Mode:
        return "RegisterOffset", rm, option, s

    def tag_mode(self, mode: int, granules: int) -> Mode:
        if mode == 1:
            return ("PostIndexed",)
        return ("Offset" if mode == 2 else "PreIndexed"), 16 * granules


def evaluate_call(text: str, fields: Fields) -> Access:
    """The form that a call, written in Rust, gives for those fields."""
    form = evaluate_tree(ast.parse(re.sub(r"\bi32::from\(", "(", text), mode="eval").body, fields)
    if not isinstance(form, Access):
        raise DefinitionError("it gives no form of an access")
    return form


def evaluate_tree(tree: ast.expr, fields: Fields) -> Any:
    if isinstance(tree, ast.Constant):
        return tree.value
    if isinstance(tree, ast.Name) and tree.id == "PostIndexed":
        return (tree.id,)
    if isinstance(tree, ast.Name):
        if tree.id not in fields:
            raise DefinitionError(f"there is no field {tree.id}")
        return fields[tree.id]
    if not isinstance(tree, ast.Call):
        raise DefinitionError(f"`{ast.unparse(tree)}` is neither a field, a number nor a call")
    values = [evaluate_tree(each, fields) for each in tree.args]
    name = tree.func.id if isinstance(tree.func, ast.Name) else ""
    if name in ("Offset", "PreIndexed") and len(values) == 1:
        return name, values[0]
    function: Optional[Callable[..., Any]] = getattr(Calls(), name, None)
    if function is None or name.startswith("_"):
        raise DefinitionError(f"`{ast.unparse(tree.func)}` is no function of form.rt")
    try:
        return function(*values)
    except TypeError as error:
        raise DefinitionError(str(error).partition(".")[2]) from error


# ---- what an instruction of a form does


def address_of(access: Access, regs: Regs) -> int:
    """The address of the first byte."""
    base = register_or_sp(regs, access.base)
    kind, *parts = access.mode
    if kind == "RegisterOffset":
        rm, option, s = parts
        offset = extended(register(regs, rm), option) * (access.bytes if s == 1 else 1)
    elif kind == "Literal":
        base, offset = int(regs["pc"]), parts[0]
    else:
        offset = parts[0] if parts else 0
    return int(base + offset) & WORD64


def extended(value: int, option: int) -> int:
    """A register as its option extends it: UXTW 2, LSL 3, SXTW 6, SXTX 7."""
    low = value & WORD32
    return {2: low, 6: low - (low >> 31 << 32)}.get(option, value)


def register(regs: Regs, n: int) -> int:
    return 0 if n == 31 else int(regs["x"][n])


def register_or_sp(regs: Regs, n: int) -> int:
    return int(regs["sp"] if n == 31 else regs["x"][n])


def address_tag(address: int) -> int:
    return address >> 56 & 15


def is_checked(access: Access) -> bool:
    """Whether the address tag is compared with allocation tags."""
    return access.mode[0] != "Offset" or access.base != 31


def moved_base(access: Optional[Access]) -> set[int]:
    """The numbered register that is written back, if one is."""
    if access is None or access.mode[0] not in ("PreIndexed", "PostIndexed"):
        return set()
    return {access.base} - {31}


def registers_of(access: Access) -> list[int]:
    """The registers that are loaded or stored, in the order of their bytes."""
    return [access.first, *([] if access.second is None else [access.second])]


def memory_after(access: Optional[Access], regs: Regs) -> Term:
    """The memory that the instruction leaves."""
    if access is None or access.kind == "LoadTag" or access.mode[0] == "Literal":
        return BEFORE
    address, numbers = address_of(access, regs), registers_of(access)
    if access.kind == "Load":
        return "after_read", BEFORE, address, access.bytes * len(numbers), is_checked(access)
    if access.kind in ("StoreTags", "StoreZeros"):
        tag = address_tag(register_or_sp(regs, access.first))
        return ("with_granules", BEFORE, address & PLAIN, access.bytes // 16, tag,
                access.kind == "StoreZeros")
    stored = [register(regs, n) >> 8 * k & 255 for n in numbers for k in range(access.bytes)]
    if access.kind == "Store":
        return "after_write", BEFORE, address, stored, is_checked(access)
    tagged = ("with_granules", BEFORE, address & PLAIN, 1, address_tag(address), False)
    return "with_bytes_at", tagged, address, stored


def registers_loaded(access: Optional[Access], regs: Regs) -> dict[int, int]:
    """The numbered registers that the instruction loads, and what they become."""
    if access is None or access.kind not in ("Load", "LoadTag"):
        return {}
    address, numbers = address_of(access, regs), registers_of(access)
    if access.kind == "LoadTag":
        old, tag = register(regs, access.first), tag_read(address & PLAIN)
        values = [old & ~(15 << 56) | tag << 56]
    else:
        values = [loaded_value(access, address + k * access.bytes) for k in range(len(numbers))]
    return {n: value for n, value in zip(numbers, values) if n != 31}


def loaded_value(access: Access, address: int) -> int:
    """What a register becomes that is loaded from an address."""
    value = sum(byte_read(address + k) << 8 * k for k in range(access.bytes))
    if access.extension != "Zero":
        value -= value >> 8 * access.bytes - 1 << 8 * access.bytes
    return value & (WORD32 if access.extension == "Sign32" else WORD64)
