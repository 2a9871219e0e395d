"""Writes the proof, row by row, that an instruction without an access leaves the memory."""

from a64.compare import applied
from a64.table import Row, Rows

PATH = "crates/tombolopan/proofs/KeptMemory.antt"

HEAD = """\
-- Written by tools/isa.py from isa/a64.rows. Do not edit.
-- An instruction that makes no access leaves the memory as it is.
use Rattle.std.proofs.Common.{◌≡◌, None, refl}
use Rattle.a64_instr.specs.declared.instruction.Instr.{Instr}
use Rattle.a64_instr.specs.declared.instruction.Instr.TheVariants as instr
use Rattle.mte_tags.specs.Memory.{Memory}
use Rattle.a64_registers.specs.declared.registers.Regs.{Regs}
use Rattle.a64_step.specs.Steps.{step_of_instr}
use Rattle.tombolopan.specs.InstructionAccesses.{accessed}

pub memory_kept : (i : Instr) (r : Regs) (m : Memory) → accessed i r ≡ None
    → (step_of_instr i r m).memory ≡ m
unfolding accessed step_of_instr
"""


def line(row: Row) -> str:
    """The proof of a row: one that reaches no memory leaves it by definition, and each other row,
    which has a line `accesses`, makes an access."""
    proof = "cc" if "accesses" in row.said else "refl"
    return f"memory_kept {applied(row)} r m e = {proof}\n"


def written(rows: Rows) -> dict[str, str]:
    return {PATH: HEAD + "".join(map(line, rows.values()))}
