"""Reads the declarations of the header for C: numbers, structs and prototypes."""

import re

from .shapes import BorderError, Call, Kind, Place, Struct

COMMENT = re.compile(r"/\*.*?\*/", re.S)
DEFINE = re.compile(r"^#define (TB_\w+)[ \t]+(\d+)[ \t]*$", re.M)
ENUM = re.compile(r"\benum (\w+) \{(.*?)\};", re.S)
STRUCT = re.compile(r"typedef struct (\w+) \{(.*?)\} (\w+);", re.S)
PROTOTYPE = re.compile(r"^(uint32_t|void) (tb_\w+)\(([^)]*)\);", re.M)
SCALARS = {
    "uint8_t": "u8", "uint16_t": "u16", "uint32_t": "u32", "uint64_t": "u64", "size_t": "usize",
    "bool": "bool", "void": "void",
}


def without_comments(text: str) -> str:
    """The text without comments."""
    return COMMENT.sub("", text)


def enums(text: str) -> dict[str, dict[str, int]]:
    """The enumerators of each enum, each with its number."""
    found: dict[str, dict[str, int]] = {}
    for name, body in ENUM.findall(without_comments(text)):
        pairs = [it.strip().partition("=") for it in body.split(",") if it.strip()]
        found[name] = {key.strip(): int(value, 0) for key, _, value in pairs}
    return found


def numbers(text: str) -> dict[str, int]:
    """Each number that the header names, enumerators and macros."""
    found = {name: int(value) for name, value in DEFINE.findall(without_comments(text))}
    for entries in enums(text).values():
        found.update(entries)
    return found


def place(text: str) -> Place:
    """A field or an argument."""
    found = re.fullmatch(r"(const )?(\w+) (\*?)(\w+)(?:\[(\d+)\])?", " ".join(text.split()))
    if not found:
        raise BorderError(f"a declaration is not read: {text}")
    constant, kind, star, name, count = found.groups()
    pointer = ("const" if constant else "mut") if star else ""
    return Place(name, Kind(SCALARS.get(kind, kind), int(count or 0), pointer))


def structs(text: str) -> dict[str, Struct]:
    """The structs of the header by name."""
    text = without_comments(text)
    found: dict[str, Struct] = {}
    for name, body, again in STRUCT.findall(text):
        if name != again:
            raise BorderError(f"struct {name} is called {again}")
        found[name] = tuple(place(it) for it in body.split(";") if it.strip())
    return found


def calls(text: str) -> dict[str, Call]:
    """The calls of the library by name; those that are `static inline` are the header's own."""
    found: dict[str, Call] = {}
    for result, name, body in PROTOTYPE.findall(without_comments(text)):
        words = [] if body.strip() == "void" else body.split(",")
        found[name] = Call(tuple(place(it) for it in words), Kind(SCALARS[result]))
    return found
