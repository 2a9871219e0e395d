"""What the fields of a word must satisfy, where that has a name of its own (Arm ARM C4.1)."""


def mask(n: int, imms: int) -> bool:
    """The mask of a logical immediate is not reserved (DecodeBitMasks)."""
    pattern = n << 6 | ~imms & 63
    length = pattern.bit_length() - 1
    return length >= 1 and imms & ((1 << length) - 1) != (1 << length) - 1


def load_store(size: int, opc: int) -> bool:
    return (size, opc) not in {(2, 3), (3, 2), (3, 3)}


def load_store_pair(opc: int, load: int, rt: int, rt2: int) -> bool:
    return (opc, load) not in {(1, 0), (3, 0), (3, 1)} and (load == 0 or rt != rt2)


def write_back(rn: int, rt: int) -> bool:
    return rn == 31 or rn != rt


def two_source(opcode: int) -> bool:
    return opcode in {2, 3, 8, 9, 10, 11}


def offset_register(option: int) -> bool:
    return option in {2, 3, 6, 7}
