"""Runs two instructions, and writes each of them, each access to memory, and a register: what a
hook of code, a hook of memory and reads of registers are for in Unicorn's sample of arm64."""
from __future__ import annotations

from tombolopan import Access, Attrs, Code, Memory, Regs, trace_step

BASE, DATA = 0x10000, 0x20000
# str w11, [x13], #0; ldrb w15, [x13], #0
CODE = bytes.fromhex("ab0500b8" "af054038")


def main() -> None:
    """Runs up to the end of the code."""
    memory = Memory()
    memory.map(BASE, 0x1000, Attrs.READ | Attrs.EXEC)
    memory.map(DATA, 0x1000, Attrs.READ | Attrs.WRITE)
    memory.load(BASE, CODE)
    regs = Regs(pc=BASE, x11=0x12345678, x13=DATA + 8, x15=0x33)
    accesses: list[Access] = []
    while regs.pc < BASE + len(CODE):
        word = int.from_bytes(memory.peek(regs.pc, 4), "little")
        print(f"at {regs.pc:#x}: {word:08x}")
        if trace_step(memory, regs, accesses).code != Code.OK:
            break
        for it in accesses:
            what = "writes" if it.write else "reads"
            print(f"    {what} {it.size} bytes at {it.address:#x}: {it.value:#x}")
        accesses.clear()
    print(f"x11 is {regs.x11:#x}, x13 is {regs.x13:#x}, w15 is {regs.w15:#x}")


if __name__ == "__main__":
    main()
