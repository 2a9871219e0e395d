"""Compares what each row says that it accesses, writes and is called with the definitions by hand.

`step_of_instr` (Steps.antt and what it names) is evaluated for drawn fields and registers. What it
leaves in memory and in the registers that it loads must be what `accesses` gives, by the functions
that the line calls (crates/a64_access/src/form.rt), and the other registers that it writes, but
the base of an access, must be what `writes` gives. The comment of the definition has the mnemonics
of `names`, and its target the addressing mode.
"""

import random
import re
from collections.abc import Iterator
from typing import Optional

from a64.access_form import (
    BEFORE, Access, Fields, Regs, Term, evaluate_call, memory_after, moved_base, registers_loaded,
)
from a64.accesses import access_call, split_writes
from a64.compare import STEPS, equations
from a64.definitions import (
    Definition, DefinitionError, Definitions, Function, Registers, Unknown, apply,
    read_definitions,
)
from a64.table import Field, Row, Rows, TableError

SAMPLES = 16  # of each row

# What the evaluation of a definition raises that takes values of other types than it is given.
MISTYPED = (TypeError, KeyError, IndexError, ValueError, OverflowError, RecursionError)


# ---- what is drawn


def draw_registers(source: random.Random) -> Regs:
    """Registers with values that differ."""
    return {"x": Registers([source.getrandbits(64) for _ in range(31)], {}),
            "sp": source.getrandbits(60) & ~15, "pc": source.getrandbits(50) & ~3,
            "flags": {flag: source.random() < 0.5 for flag in "nzcv"},
            "rgsr": {"tag": source.randrange(16), "seed": source.getrandbits(16)}}


def draw_field(source: random.Random, f: Field) -> int:
    """A value of a field; register 31 is drawn often."""
    if f.width == 5 and source.random() < 0.1:
        return 31
    value = source.getrandbits(f.width)
    return value - (1 << f.width) if f.signed and value >> f.width - 1 else value


def draw_fields(source: random.Random, row: Row, given: Fields) -> Fields:
    """Fields that the row allows; those that are given where that is allowed."""
    for number in range(1000):
        fields = {f.name: draw_field(source, f) for f in row.fields}
        fields |= given if number < 500 else {}
        if not row.refusals(row.word(fields)):
            return fields
    raise row.error("no fields that it allows were found")


def samples(row: Row) -> Iterator[tuple[Fields, Regs]]:
    """Fields and registers: in half of them the constants of `writes` hold."""
    source = random.Random(row.name)
    given = {name: int(value) for name, value in split_writes(row)[0].items()}
    for number in range(SAMPLES):
        yield draw_fields(source, row, given if number % 2 else {}), draw_registers(source)


# ---- what the definitions leave


def are_given(constants: dict[str, str], fields: Fields) -> bool:
    return all(fields[name] == int(value) for name, value in constants.items())


def compare_accesses(access: Optional[Access], regs: Regs, left: Regs) -> Optional[str]:
    """How what a form leaves in memory and in what it loads isn't what the definition leaves."""
    said, found = memory_after(access, regs), left["memory"]
    if said != found:
        return f"it says {describe_memory(said)}, and step_of_instr {describe_memory(found)}"
    written, loaded = left["regs"]["x"].written, registers_loaded(access, regs)
    for n, value in loaded.items():
        if written.get(n) != value:
            return f"it says that x{n} becomes {value:#x}, and step_of_instr {written.get(n)}"
    base = access.base if access and access.base not in loaded else 31
    if (base in written) != (base in moved_base(access)):
        return f"step_of_instr {'moves' if base in written else 'does not move'} the base"
    return None


def describe_memory(memory: Term) -> str:
    """What was done to a memory, in a few words."""
    if memory == BEFORE:
        return "that nothing is accessed"
    kind, inner, address, *parts = memory
    if kind == "with_granules":
        zeros = " with zeros" if parts[2] else ""
        return f"{parts[0]} tags {parts[1]:#x}{zeros} at {address:#x}"
    what = f"{parts[0]} bytes loaded" if kind == "after_read" else f"bytes {bytes(parts[0]).hex()}"
    tags = f"{describe_memory(inner)}, " if inner != BEFORE else ""
    checked = ", where tags are compared" if len(parts) > 1 and parts[1] else ""
    return f"{tags}{what} at {address:#x}{checked}"


def compare_writes(row: Row, fields: Fields, written: set[int]) -> Optional[str]:
    """How the registers that the row says that it writes aren't those that the definition does."""
    constants, register = split_writes(row)
    number = int(register) if register.isdigit() else fields.get(register, 31)
    said = {number} - {31} if are_given(constants, fields) else set()
    if said == written:
        return None
    return f"it says {register_names(said)}, and step_of_instr writes {register_names(written)}"


def register_names(registers: set[int]) -> str:
    return ", ".join(f"x{n}" for n in sorted(registers)) or "none"


def row_differences(row: Row, step: Function) -> Iterator[TableError]:
    """The first difference of each kind; of a row with a wrong access that alone."""
    found: dict[str, TableError] = {}
    for fields, regs in samples(row):
        instr = (row.name, *(fields[f.name] for f in row.fields))
        left = apply(step, [instr, regs, BEFORE])
        if isinstance(left, Unknown) or isinstance(left["regs"], Unknown):
            raise DefinitionError("what it leaves depends on what isn't read")
        values = " ".join(f"{name}={value}" for name, value in fields.items())
        for key, text in sample_differences(row, fields, regs, left):
            if text and key not in found:
                found[key] = row.error(f"{text}, where {values or 'it is'}", key)
    if "accesses" in found:
        found.pop("writes", None)
    yield from found.values()


def sample_differences(row: Row, fields: Fields, regs: Regs,
                       left: Regs) -> Iterator[tuple[str, Optional[str]]]:
    """What is wrong with each line, for such fields and registers."""
    call = access_call(row)
    try:
        access = evaluate_call(call, fields) if call else None
        yield "accesses", compare_accesses(access, regs, left)
    except (DefinitionError, SyntaxError, *MISTYPED) as error:
        yield "accesses", f"`{call}`: {error}"
        return
    # A load of a tag gives it to the register that `writes` names.
    is_load = access is not None and access.kind == "Load"
    loaded = set(registers_loaded(access, regs)) if is_load else set()
    written = set(left["regs"]["x"].written) - loaded - moved_base(access)
    yield "writes", compare_writes(row, fields, written)


# ---- names

# The addressing modes that names end with, by the definition of the target.
MODES = {"scaled_target": (", unsigned offset",),
         "offset_target": (", unscaled offset", ", signed offset"),
         "post_target": (", post-indexed",), "pre_target": (", pre-indexed",),
         "register_target": (", register offset",)}

MNEMONIC = re.compile(r"(?<![\w.])(?:B\.cond|[A-Z][A-Z0-9]*)(?![\w.]*_)\b")
NO_MNEMONICS = {"SP", "PC", "A", "N", "Z", "C", "V"}


def mnemonics(text: str) -> set[str]:
    """The mnemonics of a text."""
    return set(MNEMONIC.findall(text)) - NO_MNEMONICS


def words_of_definition(name: str, read: dict[str, Definition]) -> str:
    """The comment of a definition, or those of what it names where its own has no mnemonics."""
    comment = read[name].comment
    if mnemonics(comment):
        return comment
    inner = {each for _, body in read[name].equations for each in re.findall(r"\w+_of\b", body)}
    return " ".join(words_of_definition(each, read) for each in sorted(inner - {name})
                    if each in read)


def compare_names(row: Row, equation: str, read: dict[str, Definition]) -> Optional[str]:
    """How the row's names aren't those of the definition."""
    names = row.said["names"]
    said = equation.partition(" = ")[2]
    named = re.search(r"\b(\w+_of)\b", said)
    definition = named[1] if named and named[1] in read else ""
    words = words_of_definition(definition, read) if definition else ""
    if words and mnemonics(names) != mnemonics(words):
        return (f"they are {', '.join(sorted(mnemonics(names)))}, and the comment of {definition} "
                f"has {', '.join(sorted(mnemonics(words)))}")
    kinds = set(re.findall(r"\(.*?\)", words))
    if kinds and kinds != set(re.findall(r"\(.*?\)", names)):
        return f"the comment of {definition} has {', '.join(sorted(kinds))}"
    mode = re.search(r"\b(\w+_target)\b", said)
    if mode and not names.rstrip(".").endswith(MODES.get(mode[1], ())):
        wanted = [text.lstrip(", ") for text in MODES.get(mode[1], ())]
        return f"{mode[1]} is for {' or '.join(wanted) or 'another mode'}"
    return None


def differences(rows: Rows) -> Iterator[str]:
    """Each line is a difference."""
    try:
        read = read_definitions()
        step = Definitions(read).find_value("step_of_instr")
    except (DefinitionError, *MISTYPED) as error:
        yield f"{STEPS}: {error}"
        return
    said = equations(STEPS, "step_of_instr")
    for row in rows.values():
        if row.name not in said:
            continue
        text = compare_names(row, said[row.name], read)
        if text:
            yield str(row.error(text, "names"))
        try:
            yield from map(str, row_differences(row, step))
        except (DefinitionError, *MISTYPED) as error:
            yield str(row.error(f"step_of_instr: {error}"))
