"""The number of each refusal for C: a file of the crate and one of its definitions, written from
the enums of refusals."""

import re
import textwrap
from collections.abc import Callable

from .shapes import BorderError
from .tables import SOURCE, Refusals, Tables

WIDTH = 100
CODE_FILE = "crates/tombolopan_c/src/refusal_codes.rt"
SPECS_FILE = "crates/tombolopan_c/specs/RefusalCodes.antt"
HEAD = f"Written by tools/border.py from {SOURCE}. Do not edit.\n"
Read = Callable[[str], str]
Variants = list[tuple[str, str]]  # the name of each, and the enum that it holds, or nothing


def variants_of(it: Refusals, text: str) -> Variants:
    """The variants of an enum, from the source of its file."""
    body = re.search(rf"^pub enum {it.enum} {{\n(.*?)^}}", text, re.M | re.S)
    if body is None:
        raise BorderError(f"{it.code}: there is no enum {it.enum}")
    return re.findall(r"^    (\w+)(?:\((\w+)\))?,$", body[1], re.M)


def constant_of(variant: str) -> str:
    """The name of a variant as that of a constant."""
    return re.sub(r"(?<!^)(?=[A-Z])", "_", variant).upper()


def held(tables: Tables, enum: str) -> Refusals:
    """The refusals that a variant of another enum holds."""
    found = [it for it in tables.refusals if it.enum == enum]
    if len(found) != 1:
        raise BorderError(f"{SOURCE}: {enum} is not among the refusals")
    return found[0]


def use_of_codes(names: list[str]) -> str:
    """The lines that import constants, in the order in which the formatter has them."""
    ordered = sorted(names, key=lambda name: name.replace("_", " "))
    inside = textwrap.fill(", ".join(ordered) + ",", WIDTH, initial_indent="    ",
                           subsequent_indent="    ")
    return f"use crate::codes::{{\n{inside}\n}};\n"


def function(tables: Tables, it: Refusals, variants: Variants) -> str:
    """The function of Rattle that answers the number of a refusal."""
    arms = "".join(
        f"        {it.enum}::{name}(error) => {held(tables, inner).function}(error),\n" if inner
        else f"        {it.enum}::{name} => {constant_of(name)},\n"
        for name, inner in variants)
    return (f"\n/// The number of {it.about}.\n"
            f"pub(crate) fn {it.function}({it.argument}: {it.enum}) -> {it.number}\n"
            f"    ensures {{ result ≡ {it.definition} {it.argument} }}\n"
            f"{{\n    match {it.argument} {{\n{arms}    }}\n}}\n")


def definition(tables: Tables, it: Refusals, variants: Variants) -> str:
    """The definition of the number of a refusal."""
    lines = "".join(
        f"{it.definition} ({it.prefix}.{name} e) = {held(tables, inner).definition} e\n" if inner
        else f"{it.definition} {it.prefix}.{name} = code.{constant_of(name)}\n"
        for name, inner in variants)
    return (f"\n-- The number of {it.about}.\n"
            f"abbrev pub {it.definition} : {it.enum} → ℕ\n{lines}")


def code_text(tables: Tables, found: list[tuple[Refusals, Variants]]) -> str:
    """The file of the crate."""
    ghosts = "".join(
        f"ghost use Rattle.tombolopan_c.specs.RefusalCodes.{{{', '.join(names)}}};\n"
        for names in in_pairs([it.definition for it, _ in found]))
    uses = "".join(sorted(f"use {it.through}::{it.enum};\n" for it, _ in found))
    plain = [name for _, variants in found for name, inner in variants if not inner]
    return (f"// {HEAD}//! The numbers of refusals.\n\n"
            "ghost use Rattle.std.specs.Prelude.{◌≡◌};\n"
            f"{ghosts}\n{use_of_codes([constant_of(name) for name in plain])}{uses}"
            + "".join(function(tables, it, variants) for it, variants in found))


def specs_text(tables: Tables, found: list[tuple[Refusals, Variants]]) -> str:
    """The file of the crate's definitions."""
    uses = "".join(
        f"use {it.declared}.{{{it.enum}}}\nuse {it.declared}.TheVariants as {it.prefix}\n"
        for it, _ in found)
    return (f"-- {HEAD}-- The numbers of refusals: each is that of the constant of its name.\n"
            f"use Rattle.std.specs.Prelude.{{ℕ}}\n{uses}"
            "use Rattle.tombolopan_c.specs.declared.codes.TheConstants as code\n"
            + "".join(definition(tables, it, variants) for it, variants in found))


def in_pairs(names: list[str]) -> list[list[str]]:
    """Names, two by two."""
    return [names[at:at + 2] for at in range(0, len(names), 2)]


def files(tables: Tables, read_file: Read) -> dict[str, str]:
    """The files that are written as a whole, and their texts."""
    found = [(it, variants_of(it, read_file(it.code))) for it in tables.refusals]
    return {CODE_FILE: code_text(tables, found), SPECS_FILE: specs_text(tables, found)}
