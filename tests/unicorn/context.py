"""Saves the registers and the memory, runs on, and restores them, within a process and by a file.
A context of Unicorn has the registers alone."""
import pickle

from unicorn import UC_ARCH_ARM64, UC_MODE_ARM, UC_PROT_EXEC, UC_PROT_READ, UC_PROT_WRITE, Uc
from unicorn.arm64_const import UC_ARM64_REG_PC, UC_ARM64_REG_X0, UC_ARM64_REG_X1

BASE, DATA = 0x10000, 0x20000
# add x0, x0, #1; str x0, [x1], #8; b to the first
CODE = bytes.fromhex("00040091" "208400f8" "feffff17")


def machine() -> Uc:
    """A machine with the loop."""
    mu = Uc(UC_ARCH_ARM64, UC_MODE_ARM)
    mu.mem_map(BASE, 0x1000, UC_PROT_READ | UC_PROT_EXEC)
    mu.mem_map(DATA, 0x1000, UC_PROT_READ | UC_PROT_WRITE)
    mu.mem_write(BASE, CODE)
    return mu


def run(mu: Uc, steps: int) -> None:
    """Runs so many instructions from the PC."""
    mu.emu_start(mu.reg_read(UC_ARM64_REG_PC), BASE + len(CODE), count=steps)


def show(what: str, mu: Uc) -> None:
    """Writes the state."""
    x0 = mu.reg_read(UC_ARM64_REG_X0)
    x1 = mu.reg_read(UC_ARM64_REG_X1)
    pc = mu.reg_read(UC_ARM64_REG_PC)
    data = mu.mem_read(DATA, 24)
    print(f"{what}: Regs(x0={x0:#x}, x1={x1:#x}, pc={pc:#x}), {data[::8].hex()}")


def main() -> None:
    """Runs the same steps three times from one state."""
    mu = machine()
    mu.reg_write(UC_ARM64_REG_PC, BASE)
    mu.reg_write(UC_ARM64_REG_X0, 6)
    mu.reg_write(UC_ARM64_REG_X1, DATA)
    run(mu, 3)
    saved_context, saved_data = mu.context_save(), bytes(mu.mem_read(DATA, 0x1000))
    kept = pickle.dumps((saved_context, saved_data))
    show("saved", mu)
    run(mu, 6)
    show("six steps on", mu)
    mu.context_restore(saved_context)
    show("registers restored", mu)
    mu.mem_write(DATA, saved_data)
    show("memory restored", mu)
    mu = machine()
    saved_context, saved_data = pickle.loads(kept)
    mu.context_restore(saved_context)
    mu.mem_write(DATA, saved_data)
    run(mu, 6)
    show("six steps on from the file", mu)


if __name__ == "__main__":
    main()
