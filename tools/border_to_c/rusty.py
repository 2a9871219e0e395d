"""Reads declarations of Rattle and of Rust: constants, structs for C, exports and imports."""

import functools
import re

from .shapes import BorderError, Call, Kind, Place, Struct

COMMENT = re.compile(r"//[^\n]*|/\*.*?\*/", re.S)
# A field that no machine has.
GHOST = re.compile(r"^ *(?:pub )?ghost \w+: \{[^}]*\}(?: by \{[^}]*\})?,\n", re.M)
CONSTANT = re.compile(r"^\s*pub const (\w+): (?:u\d+|usize|Attrs) = (?:Attrs\()?([^;)]+)\)?;", re.M)
STRUCT = re.compile(r"#\[repr\(C\)\]\s*(?:#\[[^]]*\]\s*)*(?:pub )?struct (\w+)[^{]*\{(.*?)\}", re.S)
EXPORT = re.compile(
    r'#\[unsafe\(no_mangle\)\]\s*(?:#\[tactic\(.*\)\]\s*)?pub extern "C" fn (\w+)'
    r"\(([^)]*)\)\s*(?:->\s*(\w+))?"
)
LIFETIMES = re.compile(r"<'\w+(?:, '\w+)*>")
IMPORTS = re.compile(r'unsafe extern "C" \{(.*?)\n\}', re.S)
IMPORT = re.compile(r"fn (\w+)\(([^)]*)\)\s*(?:->\s*(\w+))?;")


def without_comments(text: str) -> str:
    """The text without comments."""
    return COMMENT.sub("", text)


def number(text: str) -> int:
    """A number as Rust writes it, also as a power: 1 << 44."""
    first, _, shift = text.replace("_", "").partition("<<")
    return int(first, 0) << int(shift or "0", 0)


@functools.cache
def constants(text: str) -> dict[str, int]:
    """The constants of a file by name."""
    return {name: number(value) for name, value in CONSTANT.findall(without_comments(text))}


def places_of(name: str, text: str) -> list[Place]:
    """What C sees of a field or an argument: of a slice a pointer and a length, of Global none."""
    text = re.sub(r"'\w+\s*", "", text).strip()
    if text == "Global":
        return []
    found = re.fullmatch(r"&\s*(mut )?\[(\w+)\]", text)
    if found:
        kind = Kind(found[2], pointer="mut" if found[1] else "const")
        return [Place(name, kind), Place(f"{name} length", Kind("usize"))]
    found = re.fullmatch(r"(?:&\s*(mut )?|\*(const|mut) )(\w+)", text)
    if found:
        return [Place(name, Kind(found[3], pointer=found[2] or ("mut" if found[1] else "const")))]
    found = re.fullmatch(r"\[(\w+); (\d+)\]|(\w+)", text)
    if not found:
        raise BorderError(f"the type of `{name}` is not read: {text}")
    return [Place(name, Kind(found[1] or found[3], int(found[2] or 0)))]


def split(text: str) -> list[str]:
    """The parts of a list, none of whose types has a comma."""
    return [it.strip() for it in text.split(",") if it.strip()]


def places(text: str) -> Struct:
    """The fields of a struct or the arguments of a call."""
    found: list[Place] = []
    for it in split(LIFETIMES.sub("", text)):
        name, _, kind = it.removeprefix("pub ").partition(":")
        found += places_of(name.strip(), kind.strip())
    return tuple(found)


def structs(text: str) -> dict[str, Struct]:
    """The structs for C of a file by name."""
    text = GHOST.sub("", without_comments(text))
    found = {name: places(body) for name, body in STRUCT.findall(text)}
    if len(found) != text.count("repr(C)"):
        raise BorderError(f"{text.count('repr(C)')} have repr(C), and {len(found)} are read")
    return found


def called(found: list[tuple[str, str, str]]) -> dict[str, Call]:
    """Calls by name."""
    return {name: Call(places(body), Kind(result or "void")) for name, body, result in found}


def exports(text: str) -> dict[str, Call]:
    """The exports of a file by name."""
    text = without_comments(text)
    found = called(EXPORT.findall(text))
    if len(found) != text.count("no_mangle"):
        raise BorderError(f"{text.count('no_mangle')} have no_mangle, and {len(found)} are read")
    return found


def imports(text: str) -> dict[str, Call]:
    """The imports of a file of Rust by name."""
    block = IMPORTS.search(without_comments(text))
    if not block:
        raise BorderError("no extern block is found")
    found = called(IMPORT.findall(block[1]))
    if len(found) != len(re.findall(r"\bfn\b", block[1])):
        raise BorderError("a function of the extern block is not read")
    return found
