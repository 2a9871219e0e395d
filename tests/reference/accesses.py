"""Which bytes an instruction loads or stores, and by which registers, by its row."""

from dataclasses import dataclass
from typing import Optional

from tests.reference.decode import SP, Instruction
from tests.reference.moments import PLAIN, Moment

SINGLES = {"ld_st_imm", "ld_st_unscaled", "ld_st_post", "ld_st_pre", "ld_st_reg"}
PAIRS = {"pair_post", "pair_off", "pair_pre", "st_g_p"}
TAGS = {"ldg", "st_g"}
WRITE_BACK = {"ld_st_post": "post", "ld_st_pre": "pre", "pair_post": "post", "pair_pre": "pre"}


@dataclass(frozen=True)
class Access:
    """A load or a store: the base (None of a literal), the index, the registers that it brings or
    leaves, each of so many bytes, and to how many bits a load extends a sign (0 for none)."""

    is_load: bool
    base: Optional[int]
    index: Optional[int]
    registers: tuple[int, ...]
    size: int
    extends: int = 0
    write_back: Optional[str] = None


def of_single(it: Instruction) -> Access:
    """A register."""
    extends = {2: 64, 3: 32}.get(it["opc"], 0)
    index = it["rm"] if it.row == "ld_st_reg" else None
    return Access(it["opc"] != 0, it["rn"], index, (it["rt"],), 1 << it["size"], extends,
                  WRITE_BACK.get(it.row))


def of_pair(it: Instruction) -> Access:
    """Two registers."""
    registers = (it["rt"], it["rt2"])
    if it.row == "st_g_p":
        back = {1: "post", 3: "pre"}.get(it["mode"])
        return Access(False, it["rn"], None, registers, 8, 0, back)
    size = 8 if it["opc"] == 2 else 4
    return Access(bool(it["l"]), it["rn"], None, registers, size, 64 if it["opc"] == 1 else 0,
                  WRITE_BACK.get(it.row))


def access_of(it: Instruction) -> Optional[Access]:
    """What an instruction accesses; None of one that loads or stores no bytes of registers."""
    if it.row in SINGLES:
        return of_single(it)
    if it.row in PAIRS:
        return of_pair(it)
    if it.row == "ld_lit":
        size = 8 if it["opc"] == 1 else 4
        return Access(True, None, None, (it["rt"],), size, 64 if it["opc"] == 2 else 0)
    return None


def tag_write_back(it: Instruction) -> Optional[str]:
    """Whether an instruction that stores tags alone moves its base before or after."""
    return {1: "post", 3: "pre"}.get(it["mode"]) if it.row == "st_g" else None


def cleared(moment: Moment) -> Optional[range]:
    """The bytes that STZG and STZ2G clear."""
    it, tags = moment.instruction, moment.step.tags
    if it.row != "st_g" or it["opc"] not in (1, 3) or tags is None:
        return None
    start = tags[0] & PLAIN
    return range(start, start + 16 * tags[1])


def index_mask(it: Instruction) -> int:
    """The bits of an index that count."""
    mask = (1 << 32) - 1 if it["option"] in (2, 6) else (1 << 64) - 1
    return mask >> (it["size"] if it["s"] and it["option"] in (3, 7) else 0)


def moved_register(moment: Moment) -> Optional[int]:
    """The base that an access moves."""
    it = moment.instruction
    access = access_of(it)
    back = access.write_back if access else tag_write_back(it)
    return it["rn"] if back else None


def is_by_stack(it: Instruction) -> bool:
    """Whether the base is SP."""
    return it.fields.get("rn") == SP
