"""Maps pages, takes attributes from them, meets the faults, and mends them: what Unicorn's sample
of mem_map, mem_protect and mem_unmap shows."""
from __future__ import annotations

from tombolopan import Attrs, Code, FaultKind, Memory, Regs, Stop, run

BASE, DATA = 0x10000, 0x200000
# str x1, [x2]; ldr x3, [x2]; brk #0
CODE = bytes.fromhex("410000f9" "430040f9" "000020d4")


def show(what: str, memory: Memory, stop: Stop) -> None:
    """Writes how a run ended, and what is mapped."""
    print(f"{what}: {stop.fault or stop.code}")
    for it in memory.regions():
        print(f"    {it}")


def mend(memory: Memory, stop: Stop) -> None:
    """Does what a hook of faults does: maps the page, or gives it what it lacks."""
    assert stop.fault is not None
    page = stop.fault.address & -0x1000
    if stop.fault.kind == FaultKind.TRANSLATION:
        memory.map(page, 0x1000, Attrs.READ)
    else:
        is_code = page == BASE
        memory.protect(page, 0x1000, Attrs.READ | (Attrs.EXEC if is_code else Attrs.WRITE))


def main() -> None:
    """Runs, mends and goes on, until the breakpoint is met."""
    memory = Memory()
    memory.map(BASE, 0x2000, Attrs.READ)
    memory.load(BASE, CODE)
    regs = Regs(pc=BASE, x1=0x1122334455667788, x2=DATA)
    stop = run(memory, regs, 100)
    while stop.code == Code.FAULT:
        show("a run", memory, stop)
        mend(memory, stop)
        stop = run(memory, regs, 100)
    show("the last run", memory, stop)
    print(f"x3 is {regs.x3:#x}")
    memory.unmap(BASE + 0x1000, 0x1000)
    print(memory)


if __name__ == "__main__":
    main()
