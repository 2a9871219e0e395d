"""The border to C: the check is green as things stand, and red after each change that C sees."""

import re
import shutil
import sys
from collections.abc import Iterable

import pytest

from border_to_c.refusals import CODE_FILE, SPECS_FILE
from tests.support import border
from tests.support.border import CODES, HEADER, PYTHON, RUST, Changed
from tests.support.places import ROOT
from tests.support.running import Word, run, succeed
from tests.support.tools import need

STRUCTS = {
    "LentPage": ("tb_page", "Page", "_Page"),
    "LentTagState": ("tb_tag_state", "TagState", "_TagState"),
    "LentRegs": ("tb_regs", "Regs", "_Regs"),
    "FaultReport": ("tb_fault", "Fault", "_Fault"),
    "StopReport": ("tb_stop", "Stop", "_Stop"),
    "TagStore": ("tb_tag_store", "TagStore", "_TagStore"),
    "HeapSetup": ("tb_heap_setup", "HeapSetup", "_HeapSetup"),
    "LentHeapCall": ("tb_heap_call", "HeapCall", "_HeapCall"),
    "HeapStep": ("tb_heap_step", "HeapStep", "_HeapStep"),
    "LiveChunk": ("tb_live_chunk", "LiveChunk", "_LiveChunk"),
    "MachineAct": ("tb_machine_act", "MachineAct", "_MachineAct"),
    "MachineEnd": ("tb_machine_end", "MachineEnd", "_MachineEnd"),
    "PageEntry": ("tb_page_entry", "PageEntry", "_PageEntry"),
    "TraceRequest": ("tb_trace_request", "RawTraceRequest", "_TraceRequest"),
    "TracedInstruction": ("tb_traced_instruction", "TracedInstruction", "_TracedInstruction"),
    "TracedAccess": ("tb_traced_access", "TracedAccess", "_TracedAccess"),
    "TraceArrays": ("tb_trace_arrays", "RawTraceArrays", "_TraceArrays"),
    "TraceReport": ("tb_trace_report", "TraceReport", "_TraceReport"),
    "LentBytes": ("tb_bytes", "Bytes", "_Bytes"),
    "SessionEnd": ("tb_session_end", "SessionEnd", "_SessionEnd"),
    "LentTerms": ("tb_terms", "RawTerms", "_Terms"),
    "StatusReport": ("tb_status", "Status", "_Status"),
    "KeptCall": ("tb_kept_call", "KeptCall", "_KeptCall"),
    "AloneEnd": ("tb_alone_end", "AloneEnd", "_AloneEnd"),
    "FuzzHandle": ("tb_fuzz", "RawFuzz", "_Fuzz"),
    "LentFuzzInput": ("tb_fuzz_input", "RawFuzzInput", "_FuzzInput"),
    "FuzzFinding": ("tb_fuzz_finding", "FuzzFinding", "_FuzzFinding"),
    "ComparisonEntry": ("tb_comparison", "Comparison", "_Comparison"),
    "Comparisons": ("tb_comparisons", "RawComparisons", "_Comparisons"),
}
CALLS = [
    "tb_version", "tb_build_info", "tb_session", "tb_alone", "tb_memory_init", "tb_map", "tb_unmap",
    "tb_read", "tb_write", "tb_load", "tb_load_tag", "tb_store_tags", "tb_step", "tb_run",
    "tb_run_until", "tb_heap_calls", "tb_heap_replay", "tb_run_traced", "tb_disassemble",
    "tb_machine_acts", "tb_machine_pages", "tb_heap_pages", "tb_heap_live", "tb_fuzz_new",
    "tb_fuzz_run", "tb_fuzz_run_exact", "tb_fuzz_run_compared", "tb_fuzz_read", "tb_fuzz_free",
]
FOLDERS = ("crates", "docs", "include", "examples", "tools")
FIELD = r"(?<=^    pub )\w+: [^,\n]+(?=,)|(?<=^    )(?!pub )\w+: [^,\n]+(?=,)"
C_FIELD = r"(?<=^    )[^;\n{]+(?=;)"
PYTHON_FIELD = r'\("\w+", [^)]*\)'
WIDER = {"8": "16", "16": "32", "32": "64", "64": "32"}


def body_of(language: int, name: str) -> tuple[str, str, str]:
    """The file, the first words and the last words of a struct in the crate, C, Rust or Python."""
    if language == 0:
        return border.file_with(f"pub struct {name}"), f"pub struct {name}", "\n}"
    c, rust, python = STRUCTS[name]
    if language == 1:
        return HEADER, f"typedef struct {c} {{", "\n}"
    if language == 2:
        return RUST, f"struct {rust} {{", "\n}"
    return PYTHON, f"class {python}(ctypes", "\n\n\n"


def unnoticed(changes: Iterable[tuple[str, Changed]]) -> list[str]:
    """Those changes after which the check says nothing."""
    found = [(what, border.differences(changed)) for what, changed in changes]
    assert found, "there is nothing to change"
    return [what for what, said in found if not said]


def test_the_check_is_green() -> None:
    """As the repository stands; the header is compiled too."""
    need("gcc", "clang")
    assert succeed([sys.executable, ROOT / "tools" / "border.py", "--check"]).errors == ""


def test_all_structs_and_calls_are_here() -> None:
    """The lists of this file leave none out."""
    text = "".join(map(border.text_of, border.crate_files()))
    assert set(re.findall(r"repr\(C\)\]\n#\[.*\n(?:pub )?struct (\w+)", text)) == set(STRUCTS)
    assert set(re.findall(r'extern "C" fn (\w+)', text)) == set(CALLS)


@pytest.mark.parametrize("name", STRUCTS)
def test_fields_that_are_exchanged(name: str) -> None:
    """Two fields of a struct exchanged, in the crate, in C, in Rust and in Python."""
    for language, field in enumerate((FIELD, C_FIELD, FIELD, PYTHON_FIELD)):
        # A slice is one field of the crate, and two elsewhere; a handle has one field.
        if (language, name) != (0, "LentBytes") and name != "FuzzHandle":
            assert not unnoticed(border.neighbours(*body_of(language, name), field))


@pytest.mark.parametrize("name", STRUCTS)
def test_fields_of_another_width(name: str) -> None:
    """A number of a struct with another width, in the crate, in C, in Rust and in Python."""
    for language in range(4):
        path, begin, end = body_of(language, name)
        if name not in ("LentBytes", "MachineEnd", "FuzzHandle", "TraceArrays", "Comparisons"):
            assert not unnoticed(border.each_replaced(
                path, r"\bu(\d+)\b|\buint(\d+)_t\b|\bc_uint(\d+)\b", widened, begin, end
            ))


def widened(found: re.Match[str]) -> str:
    """The type of a number with another width."""
    bits = found[1] or found[2] or found[3]
    return found[0].replace(bits, WIDER[bits])


@pytest.mark.parametrize("name", CALLS)
def test_arguments_of_another_width(name: str) -> None:
    """A number among a call's arguments with another width, in the crate, in C and in Rust."""
    number = r"(?<=: )u(\d+)\b|\buint(\d+)_t\b"
    places = [(border.file_with(f"fn {name}("), f"fn {name}("), (RUST, f"    fn {name}("),
              (HEADER, f"\nuint32_t {name}(")]
    if name not in ("tb_version", "tb_build_info", "tb_memory_init", "tb_alone", "tb_step",
                    "tb_store_tags", "tb_heap_calls", "tb_heap_replay", "tb_run_traced",
                    "tb_machine_acts",
                    "tb_machine_pages", "tb_heap_pages", "tb_heap_live", "tb_fuzz_new",
                    "tb_fuzz_run", "tb_fuzz_run_exact", "tb_fuzz_run_compared", "tb_fuzz_free"):
        for path, begin in places:
            assert not unnoticed(border.each_replaced(path, number, widened, begin, ")"))


@pytest.mark.parametrize("name", CALLS)
def test_arguments_that_are_exchanged(name: str) -> None:
    """Two arguments of a call exchanged, in the crate, in C and in Rust."""
    if name in ("tb_version", "tb_fuzz_free"):
        return
    crate, argument = border.file_with(f"fn {name}("), r"\b\w+: [^,)]+"
    # A slice is one argument of the crate, and two elsewhere.
    if name != "tb_build_info":
        assert not unnoticed(it for it in border.neighbours(crate, f"fn {name}(", ")", argument)
                             if "alloc" not in it[0])
    begin = re.search(rf"^(?:uint32_t|void) {name}\(", border.text_of(HEADER), re.M)
    assert begin
    assert not unnoticed(border.neighbours(HEADER, begin[0], ");", r"\w[^,]*(?=,|\Z)"))
    assert not unnoticed(border.neighbours(RUST, f"    fn {name}(", ")", argument))


@pytest.mark.parametrize("path, number", [
    (CODES, r"(?<=^pub const )(\w+: u\d+ = )(\d+)"),
    (HEADER, r"(\bTB_\w+ = |^#define TB_VERSION )(\d+)"),
    (RUST, r"(?<=^pub const )(TB_\w+: u32 = )(\d+)"),
    (PYTHON, r"^([A-Z_0-9]+ = )(\d+)$"),
    ("crates/mte_tags/src/attrs.rt", r"(const (?:READ|WRITE|EXEC|TAGGED): Attrs = Attrs\()(\d+)"),
    ("docs/C.md", r"(`TB_\w+` )(\d+)"),
])
def test_numbers_that_are_changed(path: str, number: str) -> None:
    """Each number one more, in each file that has it."""
    changes = border.each_replaced(path, number, lambda it: f"{it[1]}{int(it[2]) + 1}")
    assert not unnoticed(changes)


@pytest.mark.parametrize("path, name", [
    (CODES, r"^pub const \w+: .*\n"),
    (HEADER, r"^    TB_\w+ = \d+.*\n|^#define TB_VERSION.*\n"),
    (RUST, r"^pub const TB_\w+: .*\n"),
    (PYTHON, r"^[A-Z_0-9]+ = \d+\n"),
])
def test_names_that_are_gone(path: str, name: str) -> None:
    """Each number without its line, in each file that has it."""
    assert not unnoticed(border.each_replaced(path, name, lambda _: ""))


PLANTED = {
    "a session's length and line": (
        r"pub length: u64,((?:.|\n)*?)pub line: u64,", r"pub line: u64,\1pub length: u64,"),
    "sp and pc": (r"pub sp: u64,((?:.|\n)*?)pub pc: u64,", r"pub pc: u64,\1pub sp: u64,"),
    "reservation and room": (
        r"pub pages: u32,((?:.|\n)*?)pub room: u32,", r"pub room: u32,\1pub pages: u32,"),
    "both tags of a fault": (
        r"pub ptr_tag: u32,((?:.|\n)*?)pub mem_tag: u32,",
        r"pub mem_tag: u32,\1pub ptr_tag: u32,"),
    "pc and pointer of a status": (
        r"(struct StatusReport(?:.|\n)*?)pub pc: u64,((?:.|\n)*?)pub pointer: u64,",
        r"\1pub pointer: u64,\2pub pc: u64,"),
    "pc and pointer of a finding": (
        r"(struct FuzzFinding(?:.|\n)*?)pub pc: u64,((?:.|\n)*?)pub pointer: u64,",
        r"\1pub pointer: u64,\2pub pc: u64,"),
    "the arguments of tb_map": (
        r"tb_map\((.*), number: u64, attrs: u32\)", r"tb_map(\1, attrs: u32, number: u64)"),
    "no refusal is 7": (r"NO_REFUSAL: u32 = 0", "NO_REFUSAL: u32 = 7"),
    "no tenant is a running one": (r"STATUS_NONE: u32 = 0", "STATUS_NONE: u32 = 1"),
    "half of the page numbers": (r"PAGES: u64 = 1 << 44", "PAGES: u64 = 1 << 43"),
    "two refusals that never come here": (
        r"NO_FRAMES: u32 = 4;((?:.|\n)*)TOO_MANY_LIVE: u32 = 5",
        r"NO_FRAMES: u32 = 5;\1TOO_MANY_LIVE: u32 = 4"),
}


@pytest.mark.parametrize("what", PLANTED)
def test_what_a_proof_does_not_notice(what: str) -> None:
    """Changes of the crate that every clause allows, since clauses name fields and constants."""
    old, new = PLANTED[what]
    found = [it for it in border.crate_files() if re.search(old, border.text_of(it))]
    assert len(found) == 1
    assert border.differences(border.replaced(found[0], old, new))


@pytest.mark.parametrize("path, old, new", [
    ("crates/common/src/limits.rt", "MAX_FRAMES: usize = 65536", "MAX_FRAMES: usize = 65535"),
    ("crates/mte_svc/src/calls.rt", "KEPT_CALLS: usize = 64", "KEPT_CALLS: usize = 32"),
    ("crates/mte_tags/src/fault.rt", '"SpAlignment"', '"StackAlignment"'),
    ("crates/mte_session/src/status.rt", 'b"running"', 'b"runs"'),
    ("examples/embed/shared.sh", r"soname,libtombolopan\.so\.2", "soname,libtombolopan.so.3"),
    (HEADER, r'return "svc"', 'return "an SVC"'),
    (RUST, r'TB_SVC => "svc"', 'TB_SVC => "an SVC"'),
    (PYTHON, r'SVC: "svc"', 'SVC: "an SVC"'),
    (CODE_FILE, "ElfError::Short => SHORT", "ElfError::Short => OVERLAP"),
    (SPECS_FILE, r"^abort_code abort\.Unmapped = code\.UNMAPPED", "abort_code abort.Unmapped = 0"),
    ("crates/mte_elf/src/error.rt", r"^    Overlap,\n", "    Touching,\n"),
    ("crates/mte_script/src/error.rt", r"^pub enum ScriptFault", "pub enum LineFault"),
    (HEADER, r"^uint32_t tb_version\(void\);", "uint64_t tb_version(void);"),
    (HEADER, r"^uint32_t tb_unmap\(.*\);\n", ""),
    (RUST, r"    fn tb_unmap\(.*;\n", ""),
    (PYTHON, r'    "tb_unmap": .*\n', ""),
    (PYTHON, r'_RESULTS = .*', "_RESULTS = {}"),
])
def test_what_else_may_go_wrong(path: str, old: str, new: str) -> None:
    """Limits, texts, versions, and calls that are declared on one side alone."""
    assert border.differences(border.replaced(path, old, new))


def test_the_tool_over_a_copy(tmp_path_factory: pytest.TempPathFactory) -> None:
    """The command writes what the tables have, and ends with 1 where a compiler complains."""
    need("gcc", "clang")
    copy = tmp_path_factory.mktemp("border")
    for folder in FOLDERS:
        shutil.copytree(ROOT / folder, copy / folder, ignore=shutil.ignore_patterns("out"))
    tool: list[Word] = [sys.executable, ROOT / "tools" / "border.py", "--root", copy]
    assert run([*tool, "--check"]).status == 0
    header = copy / HEADER
    text = header.read_text(encoding="utf-8")
    header.write_text(text.replace("TB_SVC = 2", "TB_SVC = 3"), encoding="utf-8")
    assert run([*tool, "--check"]).status == 1
    assert run([*tool, "--write"]).output.strip() == f"wrote the numbers of {HEADER}"
    assert header.read_text(encoding="utf-8") == text
    header.write_text(text.replace("    size_t i = 0;\n", "    int i = 0;\n"), encoding="utf-8")
    assert "by clang" in run([*tool, "--check"]).errors
