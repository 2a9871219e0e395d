"""Reads the declarations of the package of Python (abi.py): numbers, structures of ctypes and
types of arguments."""

import ast
from typing import Union

from .shapes import BorderError, Call, Kind, Place, Struct

SCALARS = {f"c_{it}": it for it in ("bool",)} | {
    "c_uint8": "u8", "c_uint16": "u16", "c_uint32": "u32", "c_uint64": "u64", "c_size_t": "usize",
}
Known = dict[str, Union[Kind, list[Kind]]]


def kind_of(node: ast.expr, known: Known) -> Kind:
    """The type that an expression of ctypes means."""
    if isinstance(node, ast.Name):
        if node.id == "c_void_p":
            return Kind("void", pointer="any")
        found = known.get(node.id)
        return found if isinstance(found, Kind) else Kind(SCALARS.get(node.id, node.id))
    if isinstance(node, ast.Constant) and node.value is None:
        return Kind("void")
    if isinstance(node, ast.BinOp) and isinstance(node.right, ast.Constant):
        return Kind(kind_of(node.left, known).name, int(node.right.value))
    if isinstance(node, ast.Call) and getattr(node.func, "id", "") == "POINTER":
        return Kind(kind_of(node.args[0], known).name, pointer="any")
    raise BorderError(f"line {node.lineno}: a type is not read")


def kinds_of(node: ast.expr, known: Known) -> list[Kind]:
    """The types of a list, which may name others with a star."""
    found: list[Kind] = []
    for it in getattr(node, "elts", []):
        if isinstance(it, ast.Starred):
            more = known.get(getattr(it.value, "id", ""))
            found += more if isinstance(more, list) else []
        else:
            found.append(kind_of(it, known))
    return found


def numbers(tree: ast.Module) -> dict[str, int]:
    """The constants of the module."""
    found: dict[str, int] = {}
    for it in tree.body:
        if isinstance(it, ast.Assign) and isinstance(it.value, ast.Constant):
            name = getattr(it.targets[0], "id", "")
            if isinstance(it.value.value, int):
                found[name] = it.value.value
    return found


def fields(node: ast.ClassDef) -> Struct:
    """The fields of a structure, none where the class is none."""
    for it in node.body:
        if isinstance(it, ast.Assign) and getattr(it.targets[0], "id", "") == "_fields_":
            pairs = [(pair.elts[0], pair.elts[1]) for pair in getattr(it.value, "elts", [])]
            return tuple(Place(name.value, kind_of(kind, {})) for name, kind in pairs)
    return ()


def structs(tree: ast.Module) -> dict[str, Struct]:
    """The structures of the module by name."""
    classes = [it for it in tree.body if isinstance(it, ast.ClassDef)]
    return {it.name: fields(it) for it in classes if fields(it)}


def assigned(tree: ast.Module) -> dict[str, ast.expr]:
    """The expression of each name that the module assigns."""
    found: dict[str, ast.expr] = {}
    for it in tree.body:
        if isinstance(it, ast.Assign):
            found[getattr(it.targets[0], "id", "")] = it.value
        elif isinstance(it, ast.AnnAssign) and it.value is not None:
            found[getattr(it.target, "id", "")] = it.value
    return found


def calls(tree: ast.Module) -> dict[str, Call]:
    """The calls of _CALLS; one that is not in _RESULTS answers a number of 32 bits."""
    names = assigned(tree)
    known: Known = {}
    for name in ("_PLACES", "_MEMORY"):
        known[name] = kinds_of(names[name], known)
    results = names["_RESULTS"]
    table = names["_CALLS"]
    if not isinstance(table, ast.Dict) or not isinstance(results, ast.Dict):
        raise BorderError("_CALLS and _RESULTS are tables")
    others = {
        ast.literal_eval(key): kind_of(value, known)
        for key, value in zip(results.keys, results.values) if key is not None
    }
    found: dict[str, Call] = {}
    for key, value in zip(table.keys, table.values):
        name = ast.literal_eval(key) if key is not None else ""
        places = tuple(Place("", it) for it in kinds_of(value, known))
        found[name] = Call(places, others.get(name, Kind("u32")))
    return found
