"""Serves SVC by a hook of exceptions."""
from unicorn import UC_ARCH_ARM64, UC_HOOK_INTR, UC_MODE_ARM, UC_PROT_EXEC, UC_PROT_READ, Uc
from unicorn.arm64_const import UC_ARM64_REG_PC, UC_ARM64_REG_X0, UC_ARM64_REG_X1, UC_ARM64_REG_X8

BASE, DATA = 0x10000, 0x20000
WRITE, EXIT = 1, 2
# mov x8, #1; mov x1, #6; svc #0; mov x8, #2; mov x0, #3; svc #0
CODE = bytes.fromhex("280080d2" "c10080d2" "010000d4" "480080d2" "600080d2" "010000d4")
EXCP_SWI = 2  # QEMU's number of SVC


def hook_intr(uc: Uc, intno: int, user_data: object) -> None:
    """Does what the number in x8 says."""
    assert intno == EXCP_SWI
    x0 = uc.reg_read(UC_ARM64_REG_X0)
    if uc.reg_read(UC_ARM64_REG_X8) == WRITE:
        text = bytes(uc.mem_read(x0, uc.reg_read(UC_ARM64_REG_X1)))
        print(f"it writes {text!r}")
        uc.reg_write(UC_ARM64_REG_X0, len(text))
    else:
        print(f"it ends with {x0}")
        uc.emu_stop()


def main() -> None:
    """Runs up to the SVC that ends it."""
    mu = Uc(UC_ARCH_ARM64, UC_MODE_ARM)
    mu.mem_map(BASE, 0x1000, UC_PROT_READ | UC_PROT_EXEC)
    mu.mem_map(DATA, 0x1000, UC_PROT_READ)
    mu.mem_write(BASE, CODE)
    mu.mem_write(DATA, b"hello\n")
    mu.reg_write(UC_ARM64_REG_X0, DATA)
    mu.hook_add(UC_HOOK_INTR, hook_intr)
    mu.emu_start(BASE, BASE + len(CODE))
    # The PC is behind the instruction.
    pc = mu.reg_read(UC_ARM64_REG_PC)
    print(f"svc at {pc - 4:#x}")


if __name__ == "__main__":
    main()
