"""Saves the registers and the memory, runs on, and restores them, within a process and by a file:
what uc_context_save and uc_context_restore are for, which keep registers alone."""
from __future__ import annotations

import pickle

from tombolopan import Attrs, Memory, Regs, run

BASE, DATA = 0x10000, 0x20000
# add x0, x0, #1; str x0, [x1], #8; b to the first
CODE = bytes.fromhex("00040091" "208400f8" "feffff17")


def show(what: str, memory: Memory, regs: Regs) -> None:
    """Writes the state."""
    print(f"{what}: {regs}, {memory.peek(DATA, 24)[::8].hex()}")


def main() -> None:
    """Runs the same steps three times from one state."""
    memory = Memory()
    memory.map(BASE, 0x1000, Attrs.READ | Attrs.EXEC)
    memory.map(DATA, 0x1000, Attrs.READ | Attrs.WRITE)
    memory.load(BASE, CODE)
    regs = Regs(pc=BASE, x0=6, x1=DATA)
    run(memory, regs, 3)
    saved_regs, saved_memory = regs.copy(), memory.copy()
    kept = pickle.dumps((regs, memory))
    show("saved", memory, regs)
    run(memory, regs, 6)
    show("six steps on", memory, regs)
    regs.restore(saved_regs)
    show("registers restored", memory, regs)
    memory.restore(saved_memory)
    show("memory restored", memory, regs)
    regs, memory = pickle.loads(kept)
    run(memory, regs, 6)
    show("six steps on from the file", memory, regs)


if __name__ == "__main__":
    main()
