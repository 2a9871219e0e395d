"""What the hand-written functions of a64_step, a64_ops, a64_execute and a64_text take and return,
as their files say, and the calls of them: a parameter or a field of a struct that has the name of
an instruction's field gets it."""

import re
from collections.abc import Mapping
from dataclasses import dataclass

from a64 import table
from a64.layout import braces
from a64.table import TableError

# Where the structs are that all of them take.
STRUCTS = "a64_instr"

# Where the functions are that execute, lowest first; those of them that execute rows; and those
# that write an instruction's text.
CRATES = ("a64_step", "a64_ops", "a64_execute")
ROW_CRATES = ("a64_step",)
TEXT_CRATES = ("a64_text",)

# What a function takes beside fields, under the same name wherever it is called.
STATE = {"regs", "memory", "pc", "outcome"}

# The types of an access, by the size that a function is generic in, and where they are.
SIZES = ("Byte", "Halfword", "Word", "Doubleword")
SIZE_BOUND = "A: AccessSize"
SIZES_MODULE = "a64_step::memory_access"

# The parameter of a function that is generic in an addressing mode: its type, and the bound.
MODE = "T"
MODE_BOUND = "T: Addressing"


@dataclass
class Function:
    name: str
    crate: str
    module: str
    parameters: list[tuple[str, str]]  # of (name, type)
    result: str  # its type, or "" where it returns nothing
    is_sized: bool = False  # whether it is generic in the size of an access
    has_mode: bool = False  # whether it is generic in an addressing mode


@dataclass
class Struct:
    """Fields of instructions that are passed together."""
    crate: str
    module: str
    fields: list[str]  # their names


@dataclass
class Sources:
    """The functions and the structs of the crates, by name."""
    functions: dict[str, Function]
    structs: dict[str, Struct]
    crates: tuple[str, ...]  # those of the functions


@dataclass
class Call:
    text: str
    function: Function
    structs: set[str]  # the names of those that it makes
    fields: set[str]  # the names of those that it passes
    size: str = ""  # the type of its access


def folder_of(crate: str) -> str:
    return f"crates/{crate}/src"


def read_sources(written: set[str], crates: tuple[str, ...] = CRATES) -> Sources:
    """The public functions and structs of the crates, but those of the files in `written`."""
    functions: dict[str, Function] = {}
    structs: dict[str, Struct] = {}
    files = [(crate, path) for crate in (STRUCTS, *crates)
             for path in sorted((table.ROOT / folder_of(crate)).glob("*.rt"))]
    for crate, path in files:
        if f"{folder_of(crate)}/{path.name}" in written:
            continue
        text = path.read_text()
        for head in re.finditer(r"^pub fn (\w+)(<[^>]*>)?\(([^)]*)\)(?: -> (.*\S))?", text, re.M):
            parameters = re.findall(r"(\w+): ([^,\n]+)", head[3])
            functions[head[1]] = Function(head[1], crate, path.stem, parameters,
                                          head[4] or "", SIZE_BOUND in (head[2] or ""),
                                          MODE_BOUND in (head[2] or ""))
        for head in re.finditer(r"^pub struct (\w+)(?:<[^>]*>)? {\n(.*?)^}", text, re.M | re.S):
            fields = re.findall(r"^    pub (\w+): ", head[2], re.M)
            structs[head[1]] = Struct(crate, path.stem, fields)
    return Sources(functions, structs, crates)


def made(type_name: str, fields: Mapping[str, str]) -> str:
    """A struct with the values of its fields, or a pattern of it."""
    return braces(type_name, [field if field == value else f"{field}: {value}"
                              for field, value in fields.items()])


def call_of(name: str, values: Mapping[str, object], sources: Sources, place: str,
            mode: str = "") -> Call:
    """The call of a function, where each field has the value that `values` gives it, for the
    addressing mode `mode`."""
    if name not in sources.functions:
        raise TableError(f"{place}: no function {name} in {' or '.join(sources.crates)}")
    function = sources.functions[name]
    struct = mode.partition("<")[0]
    if function.has_mode != bool(mode) or mode and struct not in sources.structs:
        raise TableError(f"{place}: {name} takes {'an' if function.has_mode else 'no'} addressing "
                         f"mode, and has `{mode}`")
    call = Call("", function, set(), set())

    def value(field: str) -> str:
        if field not in values:
            raise TableError(f"{place}: {name} takes {field}, which has no value")
        call.fields.add(field)
        return str(values[field])

    def argument(parameter: str, type_name: str) -> str:
        if parameter in STATE:
            return parameter
        if function.has_mode and type_name == MODE:
            type_name = struct
        if type_name not in sources.structs:
            return value(parameter)
        call.structs.add(type_name)
        return made(type_name, {field: value(field)
                                for field in sources.structs[type_name].fields})

    arguments = ", ".join(argument(*parameter) for parameter in function.parameters)
    call.text = f"{name}({arguments})"
    if function.is_sized:
        call.size = size_type(name, values, place)
        types = ", ".join(["M", call.size, *([mode] if mode else [])])
        call.text = f"{name}::<{types}>({arguments})"
    return call


def size_type(name: str, values: Mapping[str, object], place: str) -> str:
    """The type of the access of a function that is generic in it."""
    size = values.get("size")
    if not isinstance(size, int):
        raise TableError(f"{place}: {name} is for one size, and the form has no size of its own")
    return SIZES[size]
