"""Serves SVC as a hook of UC_HOOK_INTR does: the run ends at the instruction, the program does what
is asked for and runs on."""
from __future__ import annotations

from tombolopan import Attrs, Code, Memory, Regs, Stop, run

BASE, DATA = 0x10000, 0x20000
WRITE, EXIT = 1, 2
# mov x8, #1; mov x1, #6; svc #0; mov x8, #2; mov x0, #3; svc #0
CODE = bytes.fromhex("280080d2" "c10080d2" "010000d4" "480080d2" "600080d2" "010000d4")


def serve(memory: Memory, regs: Regs) -> bool:
    """Does what the number in x8 says; whether the program goes on."""
    if regs.x8 == WRITE:
        text = memory.read(regs.x0, regs.x1)
        print(f"it writes {text!r}")
        regs.x0 = len(text)
        return True
    print(f"it ends with {regs.x0}")
    return False


def main() -> None:
    """Runs up to each SVC, and on behind it."""
    memory = Memory()
    memory.map(BASE, 0x1000, Attrs.READ | Attrs.EXEC)
    memory.map(DATA, 0x1000, Attrs.READ)
    memory.load(BASE, CODE)
    memory.load(DATA, b"hello\n")
    regs = Regs(pc=BASE, x0=DATA)
    stop: Stop = run(memory, regs, 100)
    while stop.code == Code.SVC and serve(memory, regs):
        regs.pc += 4
        stop = run(memory, regs, stop.left)
    print(f"{stop.code} at {regs.pc:#x}, {100 - stop.left} steps")


if __name__ == "__main__":
    main()
