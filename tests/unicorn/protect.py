"""Maps pages, takes permissions from them, meets the faults, and mends them between runs: version
2.0.1 crashes where a hook makes executable what the machine fetches."""
from unicorn import UC_ARCH_ARM64, UC_HOOK_INTR, UC_HOOK_MEM_INVALID, UC_MEM_FETCH_PROT
from unicorn import UC_MEM_WRITE_PROT, UC_MEM_WRITE_UNMAPPED, UC_MODE_ARM, UC_PROT_EXEC
from unicorn import UC_PROT_READ, UC_PROT_WRITE, Uc, UcError
from unicorn.arm64_const import UC_ARM64_REG_PC, UC_ARM64_REG_X1, UC_ARM64_REG_X2, UC_ARM64_REG_X3

BASE, DATA = 0x10000, 0x200000
# str x1, [x2]; ldr x3, [x2]; brk #0
CODE = bytes.fromhex("410000f9" "430040f9" "000020d4")
EXCP_BKPT = 7  # QEMU's number of BRK
FAULTS = {
    UC_MEM_FETCH_PROT: "Permission: a read",
    UC_MEM_WRITE_PROT: "Permission: a write",
    UC_MEM_WRITE_UNMAPPED: "Translation: a write",
}
PERMS = {UC_PROT_READ: "READ", UC_PROT_WRITE: "WRITE", UC_PROT_EXEC: "EXEC"}


def names(perms: int) -> str:
    """The names of permissions."""
    return "|".join(name for bit, name in PERMS.items() if perms & bit)


def show(what: str, mu: Uc) -> None:
    """Writes how a run ended, and what is mapped."""
    print(what)
    for begin, end, perms in mu.mem_regions():
        print(f"    Region({begin:#x}, {end - begin + 1:#x}, {names(perms)})")


def hook_invalid(
    uc: Uc, access: int, address: int, size: int, value: int, faults: list[tuple[int, int]]
) -> bool:
    """Keeps a fault, and ends the run."""
    faults.append((access, address))
    return False


def hook_intr(uc: Uc, intno: int, user_data: object) -> None:
    """Ends the run at the breakpoint."""
    assert intno == EXCP_BKPT
    uc.emu_stop()


def mend(mu: Uc, access: int, address: int) -> None:
    """Maps the page, or gives it what it lacks."""
    page = address & -0x1000
    if access == UC_MEM_WRITE_UNMAPPED:
        mu.mem_map(page, 0x1000, UC_PROT_READ)
    elif access == UC_MEM_FETCH_PROT:
        mu.mem_protect(page, 0x1000, UC_PROT_READ | UC_PROT_EXEC)
    else:
        mu.mem_protect(page, 0x1000, UC_PROT_READ | UC_PROT_WRITE)


def main() -> None:
    """Runs, mends and goes on, until the breakpoint is met."""
    mu = Uc(UC_ARCH_ARM64, UC_MODE_ARM)
    mu.mem_map(BASE, 0x2000, UC_PROT_READ)
    mu.mem_write(BASE, CODE)
    mu.reg_write(UC_ARM64_REG_X1, 0x1122334455667788)
    mu.reg_write(UC_ARM64_REG_X2, DATA)
    faults: list[tuple[int, int]] = []
    mu.hook_add(UC_HOOK_MEM_INVALID, hook_invalid, faults)
    mu.hook_add(UC_HOOK_INTR, hook_intr)
    pc = BASE
    while True:
        try:
            mu.emu_start(pc, BASE + len(CODE))
            break
        except UcError:
            access, address = faults.pop()
            show(f"a run: {FAULTS[access]} at {address:#x}", mu)
            mend(mu, access, address)
            pc = mu.reg_read(UC_ARM64_REG_PC)
    show("the last run: breakpoint", mu)
    x3 = mu.reg_read(UC_ARM64_REG_X3)
    print(f"x3 is {x3:#x}")
    mu.mem_unmap(BASE + 0x1000, 0x1000)
    shown = [f"{begin:#x}..{end + 1:#x} {names(perms)}" for begin, end, perms in mu.mem_regions()]
    print(f"Memory({', '.join(shown)})")


if __name__ == "__main__":
    main()
