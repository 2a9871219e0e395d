"""Compares what the crates, the header, the bindings and the page say of the border."""

import ast
import functools
import re
from collections.abc import Callable, Iterator

from . import binding, header, refusals, rusty, written
from .shapes import Border, BorderError, Call, Place, Struct, layout, renamed
from .tables import SOURCE, Tables, read

CRATE = "crates/tombolopan_c/src"
# It has numbers of registers too, which the tables do not.
ACTS = f"{CRATE}/act_kinds.rt"
# All sources that declare what crosses the border.
FOLDERS = (CRATE, "crates/tenant_snapshot/src", "crates/tombolopan/src")
Read = Callable[[str], str]
Names = tuple[tuple[str, str], ...]  # of a language, each with the name of C


def crate_border(files: dict[str, str], tables: Tables) -> Border:
    """What the crate declares, its structs by the names of C."""
    names = tuple((it, c) for it, (c, _, _) in tables.structs.items())
    whole = Border({}, {}, {})
    for text in files.values():
        found = crate_part(text, names)
        whole.numbers.update(found.numbers)
        whole.structs.update(found.structs)
        whole.calls.update(found.calls)
    return whole


@functools.cache
def crate_part(text: str, names: Names) -> Border:
    """What a file of the crate declares."""
    return by_c_names(
        Border(rusty.constants(text), rusty.structs(text), rusty.exports(text)), dict(names)
    )


def by_c_names(found: Border, names: dict[str, str]) -> Border:
    """The same declarations, each struct by the name that C has for it."""
    structs = {names.get(it, it): renamed(places, names) for it, places in found.structs.items()}
    calls = {it: Call(renamed(at.places, names), at.result) for it, at in found.calls.items()}
    return Border(found.numbers, structs, calls)


@functools.cache
def header_border(text: str) -> Border:
    """What the header declares."""
    return Border(header.numbers(text), header.structs(text), header.calls(text))


@functools.cache
def rust_border(text: str, names: Names) -> Border:
    """What tombolopan.rs declares."""
    return by_c_names(
        Border(rusty.constants(text), rusty.structs(text), rusty.imports(text)), dict(names)
    )


@functools.cache
def python_border(text: str, names: Names) -> Border:
    """What the package of Python declares."""
    tree = ast.parse(text)
    found = Border(binding.numbers(tree), binding.structs(tree), binding.calls(tree))
    return by_c_names(found, dict(names))


def same_numbers(where: str, wanted: dict[str, int], found: dict[str, int]) -> Iterator[str]:
    """What differs between numbers by name."""
    for name in sorted({*wanted, *found}):
        if wanted.get(name) != found.get(name):
            yield f"{where}: {name} is {found.get(name)}, and {wanted.get(name)} by {SOURCE}"


def same_places(where: str, wanted: Struct, found: Struct, named: bool) -> Iterator[str]:
    """What differs between fields or arguments, in order: their types and, where `named`, names."""
    if len(wanted) != len(found):
        yield f"{where}: {len(found)} places, and {len(wanted)} in the crate"
    for at, (left, right) in enumerate(zip(wanted, found), 1):
        if not left.kind.fits(right.kind):
            yield f"{where}: place {at} is {right.kind}, and {left.kind} ({left.name}) in the crate"
        if named and not is_name_of(left, right.name):
            yield f"{where}: place {at} is {right.name}, and {left.name} in the crate"


def is_name_of(wanted: Place, name: str) -> bool:
    """Whether a place has the name of the crate's; the length of a slice has one of C's own."""
    slice_of, _, is_length = wanted.name.partition(" ")
    return re.search(r"(length|count|room)$", name) is not None if is_length else name == slice_of


def same_structs(where: str, wanted: Border, found: Border) -> Iterator[str]:
    """What differs between the structs, by C's names, and their layouts."""
    for name, places in wanted.structs.items():
        if name not in found.structs:
            yield f"{where}: {name} is not there"
            continue
        yield from same_places(f"{where}: {name}", places, found.structs[name], True)
        if layout(name, wanted.structs) != layout(name, found.structs):
            yield f"{where}: {name} has offsets {layout(name, found.structs)}, and " \
                  f"{layout(name, wanted.structs)} in the crate"


def same_calls(where: str, wanted: Border, found: Border, named: bool) -> Iterator[str]:
    """What differs between the exports and a language's declarations."""
    for name in sorted({*wanted.calls, *found.calls}):
        if name not in found.calls or name not in wanted.calls:
            yield f"{where}: {name} is declared on one side alone"
            continue
        left, right = wanted.calls[name], found.calls[name]
        yield from same_places(f"{where}: {name}", left.places, right.places, named)
        if left.result != right.result:
            yield f"{where}: {name} answers {right.result}, and {left.result} in the crate"


def same_names(where: str, wanted: Border, found: Border) -> Iterator[str]:
    """What differs between the names of C and of Rust, those of lengths too."""
    for name, places in wanted.structs.items():
        yield from same_places(f"{where}: {name}", places, found.structs.get(name, ()), True)
    for name, call in wanted.calls.items():
        other = found.calls.get(name, Call((), call.result))
        yield from same_places(f"{where}: {name}", call.places, other.places, True)


def padding(crate: Border) -> Iterator[str]:
    """Structs with bytes that belong to no field: nobody would write them."""
    for name in crate.structs:
        offsets, whole = layout(name, crate.structs)
        ends = [*offsets[1:], whole]
        alone = {**crate.structs}
        for place, start, end in zip(crate.structs[name], offsets, ends):
            alone["it"] = (place,)
            if layout("it", alone)[1] != end - start:
                yield f"{CRATE}: {name} has unused bytes behind {place.name}"


def code_numbers(read_file: Read, tables: Tables) -> Iterator[str]:
    """What differs between the tables and the constants of the crates."""
    listed = {f"{CRATE}/codes.rt": {**tables.unnamed}}
    for it in tables.enums:
        listed.setdefault(it.code, {}).update({at.name: at.number for at in it.entries})
    for path, wanted in listed.items():
        found = rusty.constants(read_file(path))
        if path == ACTS or not path.startswith(CRATE):
            found = {name: found.get(name, -1) for name in wanted}
        yield from same_numbers(path, wanted, found)
    if tables.unnamed["VERSION"] != tables.version:
        yield f"{SOURCE}: VERSION is not the version"
    for it in tables.enums:
        literals = "".join(read_file(path) for path in it.names)
        for entry in it.entries if it.names else ():
            if not re.search(rf'"{entry.text}[ "]', literals):
                where = " ".join(it.names)
                yield f"{where}: the text of {entry.name}, \"{entry.text}\", is not there"


def limits(read_file: Read, tables: Tables) -> Iterator[str]:
    """What differs between the limits of the crates and what is said of them."""
    for it in tables.limits:
        found = rusty.constants(read_file(it.code)).get(it.name)
        if found != it.number:
            yield f"{it.code}: {it.name} is {found}, and {it.number} by {SOURCE}"
        for path, words in it.said.items():
            if words not in " ".join(read_file(path).split()):
                yield f"{path}: it does not say \"{words}\" ({it.name})"


def version_names(read_file: Read, tables: Tables) -> Iterator[str]:
    """Files that name the shared object by another version."""
    for path in ("examples/embed/shared.sh", "tools/install.sh"):
        for found in set(re.findall(r"libtombolopan\.so\.(\d+)", read_file(path))):
            if int(found) != tables.version:
                yield f"{path}: libtombolopan.so.{found}, and the version is {tables.version}"


def written_parts(read_file: Read, tables: Tables) -> Iterator[str]:
    """Parts that are not what the tables and the header give."""
    text = read_file(written.HEADER)
    for part in written.PARTS:
        inside = written.halves(part, read_file(part.path))[1].split("\n")
        wanted = written.wanted(part, tables, text).split("\n")
        source = written.HEADER if part.name in ("the structs", "the calls") else SOURCE
        for left, right in zip(wanted, inside):
            if left != right:
                yield f"{part.path}: `{right}` is not what {source} gives (border.py --write)"
        if len(wanted) != len(inside):
            yield f"{part.path}: {part.name} are not what {source} gives (border.py --write)"


def written_files(read_file: Read, tables: Tables) -> Iterator[str]:
    """Files of the crate that are not what the tables and the enums of refusals give."""
    for path, wanted in refusals.files(tables, read_file).items():
        if read_file(path) != wanted:
            yield f"{path}: it is not what {SOURCE} and the enums give (border.py --write)"


def bound_numbers(c: Border, rust: Border, python: Border, tables: Tables) -> Iterator[str]:
    """What differs between the tables and all numbers of the header and of the bindings."""
    entries = [it for group in tables.enums for it in group.entries]
    plain = {"VERSION": tables.version, **{it.name: it.number for it in entries}}
    wanted = {f"TB_{name}": number for name, number in plain.items()}
    yield from same_numbers(written.HEADER, wanted, c.numbers)
    yield from same_numbers(written.RUST_FILE, wanted, rust.numbers)
    yield from same_numbers(written.PYTHON_FILE, plain, python.numbers)


def differences(read_file: Read, crate_files: list[str]) -> list[str]:
    """Everything that differs, a line each. `read_file` gives the text of a repository's file."""
    try:
        tables = read(read_file(SOURCE))
        crate = crate_border({it: read_file(it) for it in crate_files}, tables)
        c = header_border(read_file(written.HEADER))
        bound = tables.structs.values()
        rust = rust_border(
            read_file(written.RUST_FILE), tuple((rust, name) for name, rust, _ in bound)
        )
        python = python_border(
            read_file(written.PYTHON_FILE), tuple((python, name) for name, _, python in bound)
        )
        names = {name for name, _, _ in bound}
        return [
            *(f"{CRATE}: {it} is not in {SOURCE}" for it in sorted({*crate.structs} - names)),
            *code_numbers(read_file, tables), *bound_numbers(c, rust, python, tables),
            *written_parts(read_file, tables), *written_files(read_file, tables),
            *limits(read_file, tables), *padding(crate), *version_names(read_file, tables),
            *same_structs(written.HEADER, crate, c), *same_calls(written.HEADER, crate, c, True),
            *same_structs(written.RUST_FILE, crate, rust),
            *same_calls(written.RUST_FILE, crate, rust, True),
            *same_names(f"{written.RUST_FILE} and {written.HEADER}", only(c, names), rust),
            *same_structs(written.PYTHON_FILE, crate, python),
            *same_calls(written.PYTHON_FILE, crate, python, False),
        ]
    except (BorderError, KeyError, ValueError, SyntaxError, RecursionError) as error:
        return [f"not read: {error}"]


def only(found: Border, names: set[str]) -> Border:
    """The declarations without structs of other names, which the header has for itself."""
    structs = {name: places for name, places in found.structs.items() if name in names}
    return Border(found.numbers, structs, found.calls)
