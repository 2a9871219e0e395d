"""Runs two instructions, and writes each of them, each access to memory, and a register."""
from unicorn import UC_ARCH_ARM64, UC_HOOK_CODE, UC_HOOK_MEM_READ_AFTER, UC_HOOK_MEM_WRITE
from unicorn import UC_MEM_WRITE, UC_MODE_ARM, UC_PROT_EXEC, UC_PROT_READ, UC_PROT_WRITE, Uc
from unicorn.arm64_const import UC_ARM64_REG_W15, UC_ARM64_REG_X11, UC_ARM64_REG_X13
from unicorn.arm64_const import UC_ARM64_REG_X15

BASE, DATA = 0x10000, 0x20000
# str w11, [x13], #0; ldrb w15, [x13], #0
CODE = bytes.fromhex("ab0500b8" "af054038")


def hook_code(uc: Uc, address: int, size: int, user_data: object) -> None:
    """Writes an instruction."""
    word = int.from_bytes(uc.mem_read(address, size), "little")
    print(f"at {address:#x}: {word:08x}")


def hook_mem(uc: Uc, access: int, address: int, size: int, value: int, user_data: object) -> None:
    """Writes an access."""
    what = "writes" if access == UC_MEM_WRITE else "reads"
    print(f"    {what} {size} bytes at {address:#x}: {value:#x}")


def main() -> None:
    """Runs up to the end of the code."""
    mu = Uc(UC_ARCH_ARM64, UC_MODE_ARM)
    mu.mem_map(BASE, 0x1000, UC_PROT_READ | UC_PROT_EXEC)
    mu.mem_map(DATA, 0x1000, UC_PROT_READ | UC_PROT_WRITE)
    mu.mem_write(BASE, CODE)
    mu.reg_write(UC_ARM64_REG_X11, 0x12345678)
    mu.reg_write(UC_ARM64_REG_X13, DATA + 8)
    mu.reg_write(UC_ARM64_REG_X15, 0x33)
    mu.hook_add(UC_HOOK_CODE, hook_code)
    mu.hook_add(UC_HOOK_MEM_READ_AFTER | UC_HOOK_MEM_WRITE, hook_mem)
    mu.emu_start(BASE, BASE + len(CODE))
    x11 = mu.reg_read(UC_ARM64_REG_X11)
    x13 = mu.reg_read(UC_ARM64_REG_X13)
    w15 = mu.reg_read(UC_ARM64_REG_W15)
    print(f"x11 is {x11:#x}, x13 is {x13:#x}, w15 is {w15:#x}")


if __name__ == "__main__":
    main()
