"""Writes a64_forms: forms of `Op` as types, with their fields as constants."""

import re
from dataclasses import dataclass

from a64 import calls, table
from a64.calls import Call, Sources
from a64.dispatch import BRANCHES, ROW_FAMILIES, UNFOLDED, WRITTEN
from a64.forms import FROM_FORMS, Forms, by_module, check_passed, of_table
from a64.layout import WIDTH, applied, comment, form_names, form_pattern, functions_used
from a64.table import FIRST_TABLE, Form, TableError

CRATE = "crates/a64_forms"


@dataclass
class Part:
    """A file: the forms of these families, and those without a family that these functions
    execute."""
    text: str
    names: set[str]


PARTS = {
    "sums": Part("Sums and differences.",
                 {"add_sub_gpr", "adds_subs_gpr", "add_shifted_gpr", "add_ext_gpr",
                  "add_sub_imm_gpr", "adds_subs_imm_gpr", "add_sub_sp", "is_carry"}),
    "logic": Part("Moves and logic.",
                  {"move_gpr", "log_gpr", "log_shifted_gpr", "log_mask_gpr", "ands_mask_gpr"}),
    "fields": Part("Constants, addresses, shifts and moves of bits.",
                   {"set_constant", "movk_gpr", "lsl_gpr", "lsr_gpr", "bitfield_gpr", "adr_gpr",
                    "is_insert", "is_shift"}),
    "products": Part("Products, selects and comparisons by a condition.",
                     {"mul_add_gpr", "cond_sel_gpr", "is_conditional_compare"}),
    "branches": Part("Branches, hints and SVC.",
                     {"branch_from", "call_from", "jump_reg_gpr", "call_reg_gpr",
                      "branch_cond_from", "cmp_branch_from", "test_branch_from", "no_operation",
                      "call_supervisor"}),
    "accesses": Part("Loads and stores at an unsigned offset, and of pairs.",
                     {"load", "store", "is_signed_access", "is_pair_access"}),
    "register_offsets": Part("Loads and stores at an offset in a register.",
                             {"is_lsl_access", "is_uxtw_access", "is_sxtw_access"}),
    "moved_bases": Part("Loads and stores at an unscaled offset, and that move their base.",
                        {"is_unscaled_access", "is_post_access", "is_pre_access"}),
    "any_registers": Part("Forms of any registers, executed by the functions of their rows.",
                          {"is_any_sum", "is_far_access"}),
}

# Forms without a type: a block ends before one. Each takes less than 0.2 % of the steps of each
# program of tools/speed/real_programs.py.
UNTYPED = frozenset("""
    AddLsl32 AddLsr AddsImm Bic OrrMask EorMask EorMask32 AndsMask Movk32 Asr Bfm Msub Msub32
    Csinc Adc Sbcs Asrv Asrv32 Ccmp AnyAdcSbc AnyLogShift AnyLogShift32 AnyCondCmp AnyCondSel
    JumpIf LoadSigned16 LoadSigned8 LoadSigned16To32 LoadSigned8To32 StoreRegUxtw64
    StoreRegUxtw8 LoadRegSxtw64 StoreRegSxtw64 LoadRegSxtw16 StoreRegSxtw16 StoreUnscaled32
    StoreUnscaled8 LoadPre StorePre StorePre32 LoadPre16 StorePre16 StorePre8 LoadPairPre
    AnyRegUxtw AnyRegSxtw AnyRegSxtx AnyUnscaled AnyPost AnyPre AnyPairOffset AnyPairPost
    AnyPairPre Svc
""".split())

# The functions that are called in execute_op, and their bodies, which are taken in line.
IN_LINE = {"load": "load_in_line", "store": "store_in_line"}

# The types that each file imports, by the modules that have them.
TYPES = {"crate::form": {"Form"}, "a64_ops": {"Op"}, "a64_registers": {"Regs"},
         "a64_step": {"Outcome"}, "mte_tags": {"Tagged"}}

HEAD = """\
// %(from)s
//! %(text)s

ghost use Rattle.a64_ops.specs.declared.op.Op.TheVariants as op;

%(used)s"""

# A line that is longer than the formatter's.
SKIP = "#[rattlefmt::skip]\n"

TYPE = """
%(doc)s%(skip)spub struct %(name)s%(declared)s;

#[rattlefmt::skip]
impl%(declared)s Form for %(name)s%(applied)s {
    ghost OP = { %(value)s };

    #[inline(always)]
    %(tactic)s
    fn attempt<M: Tagged>(
        %(pc)s: u64,
        %(regs)s: &mut Regs,
        %(memory)s: &mut M,
        %(outcome)s: &mut Outcome,
    ) -> bool {
%(body)s    }

    fn is_of(op: &Op) -> bool {
        match *op {
            %(pattern)s => %(same)s,
            _ => false,
        }
    }
}
"""


def constant(field: str) -> str:
    """The parameter of a type for a field. The form itself is called `OP`."""
    return "OPERATION" if field == "op" else field.upper()


def with_types(all_forms: Forms) -> Forms:
    """The forms that have types."""
    return [form for form in of_table(all_forms, FIRST_TABLE) if form.name not in UNTYPED]


def in_part(name: str, all_forms: Forms) -> Forms:
    return [form for form in with_types(all_forms)
            if (form.family or form.function) in PARTS[name].names]


def call_of(form: Form, sources: Sources) -> Call:
    """The call that executes a form whose fields are constants."""
    place = f"{form.place}: {form.name}"
    values: dict[str, object] = {name: constant(name) for name in form_names(form)}
    values.update(form.given)
    values.update(form.passed)
    function = IN_LINE.get(form.function, form.function)
    call = calls.call_of(function, values, sources, place, form.mode)
    check_passed(call, [*form.passed, *form_names(form)], place)
    return call


def lines_of(form: Form, sources: Sources) -> list[str]:
    """What executes a form, and says whether the block goes on."""
    call = call_of(form, sources)
    if call.function.result:
        return [call.text]
    taken = dict(call.function.parameters)
    if form.family in ROW_FAMILIES:
        return ["regs.pc = pc;", f"{call.text};", "is_next(regs, pc)"]
    if "outcome" in taken:
        last = "goes_on(regs, pc, outcome)" if "regs" in taken else "false"
        return ["regs.pc = pc;", f"{call.text};", last]
    return [f"{call.text};", "false" if call.function.module == BRANCHES else "true"]


def type_of(form: Form, sources: Sources) -> str:
    lines = lines_of(form, sources)
    declared = ", ".join(f"const {constant(name)}: {kind}" for name, kind in form.kept)
    names = form_names(form)
    said = {"doc": comment("///", form.text), "name": form.name, "tactic": UNFOLDED,
            "declared": f"<{declared}>" if names else "",
            "applied": f"<{', '.join(map(constant, names))}>" if names else "",
            "value": applied("op", form.name, list(map(constant, names))).strip("()"),
            "body": "".join(f"        {line}\n" for line in lines),
            "pattern": form_pattern(form),
            "same": " && ".join(f"{name} == {constant(name)}" for name in names) or "true"}
    line = f"pub struct {form.name}{said['declared']};"
    said["skip"] = SKIP if len(line) > WIDTH else ""
    used = set(re.findall(r"\w+", " ".join(lines)))
    said |= {name: name if name in used else f"_{name}"
             for name in ("pc", "regs", "memory", "outcome")}
    return TYPE % said


def part_file(name: str, all_forms: Forms, sources: Sources) -> str:
    members = in_part(name, all_forms)
    if not members:
        raise TableError(f"{table.FORMS}: no form belongs to {name}.rt")
    called = [call_of(form, sources) for form in members]
    names = {it for call in called for it in (call.function.name, *call.structs)}
    text = "".join(type_of(form, sources) for form in members)
    names |= {it for it in ("goes_on", "is_next") if f" {it}(" in text}
    used = by_module(names, sources, CRATE, TYPES)
    sizes = {call.size for call in called if call.size}
    if sizes:
        used.setdefault(calls.SIZES_MODULE, set()).update(sizes)
    return HEAD % {"from": FROM_FORMS, "text": PARTS[name].text,
                   "used": functions_used(used)} + text


def check_parts(all_forms: Forms) -> None:
    """Whether each form with a type is in one file, and each other one is a form."""
    names = {form.name for form in of_table(all_forms, FIRST_TABLE)}
    if wrong := sorted(UNTYPED - names):
        raise TableError(f"{table.FORMS}: it has no {', '.join(wrong)} ({CRATE})")
    for form in with_types(all_forms):
        found = [name for name in PARTS if form in in_part(name, all_forms)]
        if len(found) != 1:
            raise form.error(f"it is in {len(found)} files of {CRATE}: "
                             f"{form.family or form.function} is said of one")


def written(all_forms: Forms) -> dict[str, str]:
    """The written files, by their paths."""
    sources = calls.read_sources(set(WRITTEN))
    check_parts(all_forms)
    return {f"{CRATE}/src/{name}.rt": part_file(name, all_forms, sources) for name in PARTS}
