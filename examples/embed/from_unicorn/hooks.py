"""Runs a loop with a hook of its code, of its memory and of its blocks: what hook_add of
UC_HOOK_CODE, UC_HOOK_MEM_READ, UC_HOOK_MEM_WRITE and UC_HOOK_BLOCK are for."""
from __future__ import annotations

from tombolopan import AccessKind, Attrs, Block, Instruction, Memory, Regs, TracedAccess
from tombolopan import disassemble, hook_block, hook_code, hook_mem

BASE, DATA = 0x10000, 0x20000
# str x2, [x0], #8; add x2, x2, #1; subs x1, x1, #1; b.ne to the first; brk #0
CODE = bytes.fromhex("028400f8" "42040091" "210400f1" "a1ffff54" "000020d4")


def machine() -> tuple[Memory, Regs]:
    """A memory with the loop, and registers to store two numbers."""
    memory = Memory()
    memory.map(BASE, 0x1000, Attrs.READ | Attrs.EXEC)
    memory.map(DATA, 0x1000, Attrs.READ | Attrs.WRITE)
    memory.load(BASE, CODE)
    return memory, Regs(pc=BASE, x0=DATA, x1=2, x2=0x11)


def on_code(it: Instruction) -> None:
    """Writes an instruction."""
    print(f"at {it.address:#x}: {disassemble(it.word, it.address)}")


def on_mem(it: TracedAccess) -> None:
    """Writes an access."""
    what = "writes" if it.write else "reads"
    print(f"at {it.pc:#x}: {what} {it.size} bytes at {it.address:#x}: {it.value:#x}")


def on_block(it: Block) -> None:
    """Writes a block."""
    print(f"block at {it.address:#x} of {it.size} bytes")


def main() -> None:
    """Runs the loop with each hook, and with one of a range and of a kind."""
    print(hook_code(*machine(), steps=100).each(on_code).code)
    print(hook_mem(*machine(), steps=100).each(on_mem).code)
    print(hook_block(*machine(), steps=100).each(on_block).code)
    memory, regs = machine()
    # The registers are those just behind the instruction where a block has one entry.
    for it in hook_code(memory, regs, 100, begin=BASE, end=BASE, block=1):
        print(f"{it}: x1 is {regs.x1}")
    found = hook_mem(*machine(), steps=100, begin=DATA + 8, kinds=AccessKind.WRITE)
    print([it.value for it in found], found.stop)


if __name__ == "__main__":
    main()
