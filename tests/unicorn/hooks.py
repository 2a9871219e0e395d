"""Runs a loop with a hook of its code, of its memory and of its blocks. Unicorn has no texts of
instructions."""
from unicorn import UC_ARCH_ARM64, UC_HOOK_BLOCK, UC_HOOK_CODE, UC_HOOK_INTR, UC_HOOK_MEM_READ
from unicorn import UC_HOOK_MEM_WRITE, UC_MEM_WRITE, UC_MODE_ARM, UC_PROT_EXEC, UC_PROT_READ
from unicorn import UC_PROT_WRITE, Uc
from unicorn.arm64_const import UC_ARM64_REG_PC, UC_ARM64_REG_X0, UC_ARM64_REG_X1, UC_ARM64_REG_X2

BASE, DATA = 0x10000, 0x20000
# str x2, [x0], #8; add x2, x2, #1; subs x1, x1, #1; b.ne to the first; brk #0
CODE = bytes.fromhex("028400f8" "42040091" "210400f1" "a1ffff54" "000020d4")
EXCP_BKPT = 7  # QEMU's number of BRK


def machine() -> Uc:
    """A machine with the loop, and registers to store two numbers."""
    mu = Uc(UC_ARCH_ARM64, UC_MODE_ARM)
    mu.mem_map(BASE, 0x1000, UC_PROT_READ | UC_PROT_EXEC)
    mu.mem_map(DATA, 0x1000, UC_PROT_READ | UC_PROT_WRITE)
    mu.mem_write(BASE, CODE)
    mu.reg_write(UC_ARM64_REG_X0, DATA)
    mu.reg_write(UC_ARM64_REG_X1, 2)
    mu.reg_write(UC_ARM64_REG_X2, 0x11)
    return mu


def hook_intr(uc: Uc, intno: int, ends: list[int]) -> None:
    """Ends the run at an exception."""
    ends.append(intno)
    uc.emu_stop()


def hook_code(uc: Uc, address: int, size: int, user_data: object) -> None:
    """Writes an instruction."""
    print(f"at {address:#x}")


def hook_mem(uc: Uc, access: int, address: int, size: int, value: int, user_data: object) -> None:
    """Writes an access."""
    what = "writes" if access == UC_MEM_WRITE else "reads"
    pc = uc.reg_read(UC_ARM64_REG_PC)
    print(f"at {pc:#x}: {what} {size} bytes at {address:#x}: {value:#x}")


def hook_block(uc: Uc, address: int, size: int, user_data: object) -> None:
    """Writes a block."""
    print(f"block at {address:#x} of {size} bytes")


def hook_first(uc: Uc, address: int, size: int, user_data: object) -> None:
    """Writes an instruction and a register."""
    word = int.from_bytes(uc.mem_read(address, size), "little")
    x1 = uc.reg_read(UC_ARM64_REG_X1)
    print(f"Instruction({address:#x}, {word:#x}): x1 is {x1}")


def hook_write(uc: Uc, access: int, address: int, size: int, value: int, found: list[int]) -> None:
    """Keeps what is written."""
    found.append(value)


def run(mu: Uc) -> str:
    """Runs the loop; how it ended."""
    ends: list[int] = []
    mu.hook_add(UC_HOOK_INTR, hook_intr, ends)
    mu.emu_start(BASE, BASE + len(CODE))
    return "breakpoint" if ends == [EXCP_BKPT] else f"ends {ends}"


def main() -> None:
    """Runs the loop with each hook, and with one of a range and of a kind."""
    mu = machine()
    mu.hook_add(UC_HOOK_CODE, hook_code)
    print(run(mu))
    mu = machine()
    mu.hook_add(UC_HOOK_MEM_READ | UC_HOOK_MEM_WRITE, hook_mem)
    print(run(mu))
    mu = machine()
    mu.hook_add(UC_HOOK_BLOCK, hook_block)
    print(run(mu))
    mu = machine()
    mu.hook_add(UC_HOOK_CODE, hook_first, begin=BASE, end=BASE)
    run(mu)
    mu = machine()
    found: list[int] = []
    mu.hook_add(UC_HOOK_MEM_WRITE, hook_write, found, begin=DATA + 8, end=DATA + 0xfff)
    run(mu)
    print(found)


if __name__ == "__main__":
    main()
