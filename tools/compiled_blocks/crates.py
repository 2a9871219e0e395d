"""The crate of the blocks of images: nothing but types."""

from collections.abc import Iterable, Sequence

from a64.form_types import PARTS, in_part
from tombolopan_profile.counts import BYTES
from compiled_blocks import numbers
from compiled_blocks.choosing import Block
from compiled_blocks.types import form_of, read_tables, written

ROW = 6  # the most instructions in a row: the prover's time grows with the depth of types
ROWS = 4  # the most rows of a type: the prover does not follow a function over too many types
GROUP = 6  # blocks of a type
MOST = 1000  # blocks: a run has a place for as many (a64_blocks)

ROOT = """\
//! The hottest blocks of images. Written by tools/translate.py.
#![tactic(auto)]

mod blocks;
mod parts;

pub use blocks::Images;
"""

HEAD = """\
//! {said}

use a64_blocks::{{{used}}};
{more}use a64_registers::Regs;
use a64_run::Edges;
use a64_step::Outcome;
use mte_tags::Tagged;
"""

CODE = """
type {name}Code = {type};

/// Instructions at {start:#x}.
pub struct {name};

impl Code for {name} {{
    ghost START = {{ ⟦<{name}Code as Code>⟧.START }};

    const START: u64 = {start};

    ghost COUNT = {{ ⟦<{name}Code as Code>⟧.COUNT }};

    const COUNT: u64 = {count};

    ghost PLACES = {{ ⟦<{name}Code as Code>⟧.PLACES }};

    #[inline({inline})]
    fn run<M: Tagged, E: Edges>(
        regs: &mut Regs,
        memory: &mut M,
        edges: &mut E,
        outcome: &mut Outcome,
        left: u64,
    ) -> u64 {{
        <{name}Code as Code>::run(regs, memory, edges, outcome, left)
    }}

    fn is_there<M: Tagged>(memory: &mut M) -> bool {{
        <{name}Code as Code>::is_there(memory)
    }}
}}
"""

IMAGE = """
type {name}Blocks = {type};

/// The blocks from number {first} on.
pub struct {name};

impl Image for {name} {{
    ghost places = {{ ⟦<{name}Blocks as Image>⟧.places }};

    #[inline(always)]
    fn run_number<M: Tagged, E: Edges>(
        number: u16,
        regs: &mut Regs,
        memory: &mut M,
        edges: &mut E,
        outcome: &mut Outcome,
        left: u64,
    ) -> u64 {{
        <{name}Blocks as Image>::run_number(number, regs, memory, edges, outcome, left)
    }}

    fn is_there<M: Tagged>(number: u16, memory: &mut M) -> bool {{
        <{name}Blocks as Image>::is_there(number, memory)
    }}

    #[inline(always)]
    fn number_at({pc}: u64) -> u16 {{
        {numbers}
    }}
}}
"""


def chain(instructions: Sequence[tuple[int, int]]) -> str:
    """The type of instructions in a row."""
    text = ""
    for address, word in reversed(instructions):
        form = form_of(word)
        assert form
        inside = f"{written(form)}, {address}, {word}"
        text = f"Seq<{inside}, {text}>" if text else f"Last<{inside}>"
    return text


def in_rows(block: Block) -> list[list[tuple[int, int]]]:
    """A block's instructions in rows of so many."""
    rows: list[list[tuple[int, int]]] = []
    for address, word in zip(block.addresses, block.words):
        if not rows or len(rows[-1]) == ROW or address != rows[-1][-1][0] + BYTES:
            rows.append([])
        rows[-1].append((address, word))
    return rows


def joined(types: Sequence[str]) -> str:
    """The type of blocks that lead to one another, of the least depth."""
    if len(types) == 1:
        return types[0]
    half = (len(types) + 1) // 2
    return f"Cat<{joined(types[:half])}, {joined(types[half:])}>"


def in_parts(block: Block) -> list[list[list[tuple[int, int]]]]:
    """The rows of a block, so many together."""
    rows = in_rows(block)
    return [rows[at:at + ROWS] for at in range(0, len(rows), ROWS)]


def kind_of(part: Sequence[Sequence[tuple[int, int]]]) -> str:
    """The type of rows."""
    return joined([chain(row) for row in part])


def part_names(number: int, block: Block) -> list[str]:
    """The names of a block's parts, where it has more than one."""
    count = len(in_parts(block))
    return [f"B{number}Part{at}" for at in range(1, count + 1)] if count > 1 else []


def part_types(number: int, block: Block) -> str:
    """The types of a block's parts. They are in another file than blocks, since what builds
    programs without proof knows functions of a file by their names, and these are in line."""
    return "".join(CODE.format(name=name, type=kind_of(part), start=part[0][0][0],
                               count=len(part[0]), inline="always")
                   for name, part in zip(part_names(number, block), in_parts(block)))


def block_type(number: int, block: Block) -> str:
    """The type of a block."""
    names, parts = part_names(number, block), in_parts(block)
    kind = joined(names) if names else kind_of(parts[0])
    return CODE.format(name=f"B{number}", type=f"Again<{kind}>" if block.again else kind,
                       start=block.start, count=len(parts[0][0]), inline="never")


def place_of(block: Block) -> int:
    """Where the number of a block is looked up."""
    return block.start // BYTES % numbers.PLACES


def group_types(blocks: Sequence[Block]) -> str:
    """The types from numbers to blocks, the last first."""
    places = {place_of(block): number for number, block in enumerate(blocks, start=1)}
    texts, after = [numbers.text_of(places, BYTES)], "Nothing"
    for first in reversed(range(0, len(blocks), GROUP)):
        kind = after
        for at in reversed(range(first, min(first + GROUP, len(blocks)))):
            kind = f"Blocks<B{at + 1}, {kind}>"
        after = f"From{first + 1}" if first else "Images"
        texts.append(IMAGE.format(
            name=after, type=kind, first=first + 1,
            pc="_pc" if first else "pc",
            numbers="0" if first else "number_of(pc)"))
    return "".join(texts)


def form_imports(words: Iterable[int]) -> str:
    """What imports the forms of words."""
    names = {form[0] for word in words if (form := form_of(word))}
    parts = ((part, sorted(form.name for form in in_part(part, read_tables()[1])
                           if form.name in names)) for part in PARTS)
    return "".join(f"use a64_forms::{part}::{{{', '.join(found)}}};\n" for part, found in parts
                   if found)


def texts_of(blocks: Sequence[Block]) -> dict[str, str]:
    """The sources of the crate, by their names. Of blocks at one place the first is there."""
    blocks = list({place_of(block): block for block in reversed(blocks)}.values())[::-1]
    counted = list(enumerate(blocks, start=1))
    names = [name for it in counted for name in part_names(*it)]
    forms = form_imports(word for block in blocks for word in block.words)
    parts = HEAD.format(said="Parts of blocks.", used="Cat, Code, Last, Seq", more=forms)
    types = HEAD.format(
        said="Blocks and their numbers.",
        used="Again, Blocks, Cat, Code, Image, Last, Nothing, Seq",
        more=forms + (f"use crate::parts::{{{', '.join(names)}}};\n" if names else ""))
    return {"lib.rt": ROOT,
            "parts.rt": parts + "".join(part_types(*it) for it in counted),
            "blocks.rt": types + "".join(block_type(*it) for it in counted)
                         + group_types(blocks)}
