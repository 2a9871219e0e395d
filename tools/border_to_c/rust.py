"""What is written from the header into the binding of Rust: structs, their sizes and the calls."""

import re
import textwrap

from . import header
from .shapes import Call, Kind, Struct, layout
from .tables import Tables

WIDTH = 100
ABOUT = re.compile(r"/\*((?:[^*]|\*(?!/))*)\*/\ntypedef struct (\w+) \{")
# An array of more has no Default in Rust.
MOST_IN_DEFAULT = 32


def rust_names(tables: Tables) -> dict[str, str]:
    """The names of structs in Rust by those of C."""
    return {c: rust for c, rust, _ in tables.structs.values()}


def type_of(kind: Kind, names: dict[str, str]) -> str:
    """A type in Rust."""
    name = names.get(kind.name, kind.name)
    if kind.pointer:
        return f"*{kind.pointer} {name}"
    return f"[{name}; {kind.count}]" if kind.count else name


def comment(about: str) -> str:
    """A comment of the header as one of Rust."""
    words = " ".join(re.sub(r"^ \*", "", about, flags=re.M).split())
    return textwrap.fill(words, WIDTH, initial_indent="/// ", subsequent_indent="/// ",
                         break_on_hyphens=False)


def struct_of(name: str, about: str, fields: Struct, names: dict[str, str]) -> str:
    """A struct of Rust. One with pointers is the binding's own."""
    is_raw = any(it.kind.pointer for it in fields)
    is_long = any(it.kind.count > MOST_IN_DEFAULT for it in fields)
    derived = "Clone, Copy" + ("" if is_long else ", Debug, Default, PartialEq, Eq")
    head = "" if is_raw else f"#[derive({derived})]\n"
    public = "" if is_raw else "pub "
    lines = "".join(f"    {public}{it.name}: {type_of(it.kind, names)},\n" for it in fields)
    return f"{comment(about)}\n#[repr(C)]\n{head}{public}struct {name} {{\n{lines}}}\n"


def structs(tables: Tables, text: str) -> str:
    """The structs of the header that the crate has, and their sizes."""
    names, found = rust_names(tables), header.structs(text)
    about = {name: words for words, name in ABOUT.findall(text)}
    known = [name for name in found if name in names]
    written = [struct_of(names[it], about[it], found[it], names) for it in known]
    sizes = (f"const _: () = assert!(size_of::<{names[it]}>() == {layout(it, found)[1]});\n"
             for it in known)
    return "\n".join([*written, "".join(sizes)])


def call_of(name: str, call: Call, names: dict[str, str]) -> str:
    """A declaration, in one line where it fits. One that is handed nothing is safe."""
    places = [f"{it.name}: {type_of(it.kind, names)}" for it in call.places]
    result = "" if call.result.name == "void" else f" -> {call.result.name}"
    head = f"    {'' if places else 'safe '}fn {name}("
    line = f"{head}{', '.join(places)}){result};\n"
    if len(line) <= WIDTH + 1:
        return line
    return head + "\n" + "".join(f"        {it},\n" for it in places) + f"    ){result};\n"


def calls(tables: Tables, text: str) -> str:
    """The calls of the library."""
    names = rust_names(tables)
    lines = (call_of(name, call, names) for name, call in header.calls(text).items())
    return 'unsafe extern "C" {\n' + "".join(lines) + "}\n"
