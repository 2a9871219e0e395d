"""A module of LLVM for x86-64 as a WebAssembly module with a memory of 64 bits."""

import pathlib
import re
import subprocess
from collections.abc import Sequence

import retarget
import unproved

SYSTEM = pathlib.Path(__file__).resolve().parent / "system"
TARGET = ["--target=wasm64-unknown-unknown", "--no-default-config"]
FEATURES = ["-mcpu=generic", "-mbulk-memory", "-msign-ext", "-mnontrapping-fptoint"]
OWN_C = ["-O2", "-ffreestanding", "-fno-builtin", "-Wall", "-Wextra", "-Werror"]
FROM_IR = ["-O3", "-Wno-override-module", "-ffunction-sections", "-fdata-sections", "-x", "ir"]
STACK, MOST_MEMORY = 8 << 20, 1 << 30
# Words of functions for x86-64, and what they are for the other processor.
WORDS = {
    retarget.PROBED: "",
    retarget.PROCESSOR: (
        ' "target-features"="+bulk-memory,+sign-ext,+nontrapping-fptoint,+mutable-globals"'),
    **retarget.FRAMES,
}
# Where a slice begins, with its steps.
SLICE = re.compile(r'(^define [^\n]*@"tenant_run::slices::run_slice::[^\n]*i32 noundef (%\w+)'
                   r'[^\n]*\{\nstart:\n)', re.M)
COUNTED = "system_slice"
# Crates of which no function runs at each step: they are made small, all else is made fast.
SMALL = (
    "a64_text", "clap", "command_run", "cxx_tree", "debug_info", "debug_lines", "debug_variables",
    "debuggee", "elf_sections", "elf_symbols", "gdb_front", "gdb_packets", "gdb_travel",
    "heap_picture", "hex", "mte_backtrace", "mte_elf", "mte_report", "mte_script", "mte_session",
    "report_documents", "run_options", "run_terms", "strsim", "tenant_map",
)
IS_SMALL = re.compile(rf'^(define [^\n]*@"<?(?:core::fmt|std_io|{"|".join(SMALL)})::[^\n]*) \{{$',
                      re.M)


def run(words: Sequence[object]) -> str:
    """What a command writes on standard output."""
    ran = subprocess.run([str(it) for it in words], check=True, stdout=subprocess.PIPE, text=True)
    return ran.stdout


def for_the_target(text: str, layout: str) -> str:
    """The same module with the layout, the name and the features of the target, which says the
    steps of each slice."""
    text = SLICE.sub(rf"\1  call void @{COUNTED}(i32 \2)\n", text)
    text = IS_SMALL.sub(r"\1 minsize optsize {", text)
    text = retarget.retargeted(text, layout, "wasm64-unknown-unknown", WORDS)
    return f"{text}\ndeclare void @{COUNTED}(i32)\n"


def compile_module(lowered: pathlib.Path, out: pathlib.Path, work: pathlib.Path) -> None:
    """Compiles it, as an object."""
    clang = unproved.find_kit() / "toolchain/bin/clang"
    layout = retarget.data_layout(clang, TARGET, work)
    text = for_the_target(lowered.read_text(encoding="utf-8"), layout)
    (work / "module.ll").write_text(text, encoding="utf-8")
    run([clang, *TARGET, *FEATURES, "-c", *FROM_IR, work / "module.ll", "-o", out])


def link(compiled: pathlib.Path, work: pathlib.Path) -> bytes:
    """Links it with what is in its system's place."""
    kit = unproved.find_kit()
    linker, out, parts = work / "wasm-ld", work / "linked.wasm", [compiled]
    for source in sorted(SYSTEM.glob("*.c")):
        parts.append(work / f"{source.stem}.o")
        run([kit / "toolchain/bin/clang", *TARGET, *FEATURES, "-c", *OWN_C, source, "-o",
             parts[-1]])
    # A linker is what it is called.
    linker.symlink_to(kit / "toolchain/bin/ld.lld")
    run([linker, "-mwasm64", "--no-entry", "--gc-sections", "--stack-first", "--strip-all",
         "--compress-relocations", "-z", f"stack-size={STACK}", f"--max-memory={MOST_MEMORY}",
         "--export-memory", "-o", out, *parts])
    return out.read_bytes()
