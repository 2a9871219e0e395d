"""A small model of what loads, stores and moves do, to hold a trace against: registers by the
changes that are told, bytes by the stores, and addresses by the text of the instructions."""

import re
from typing import Optional

MASK = (1 << 64) - 1
PLAIN = (1 << 56) - 1
STACK_END = 0x40000000
HEAP = range(0x10000000, 0x3F000000)
OPERANDS = re.compile(r"(\w+) (.*)$")
MEMORY = re.compile(
    r"\[(x\d+|sp)(?:, (?:#(-?\w+)|([xw]\d+|[xw]zr)(?:, (\w+)(?: #(\w+))?)?))?\](!)?"
)
POST = re.compile(r"\[(x\d+|sp)\], #(-?\w+)$")
Bytes = Optional[tuple[int, tuple[int, ...], int]]


class Machine:
    """Registers and the bytes that are known."""

    def __init__(self) -> None:
        self.registers = {f"x{number}": 0 for number in range(31)}
        self.registers["sp"] = STACK_END
        self.bytes: dict[int, int] = {}

    def value(self, name: str) -> int:
        """A register as an operand reads it."""
        if name in ("xzr", "wzr"):
            return 0
        if name.startswith("w"):
            return self.registers["x" + name[1:]] & 0xFFFFFFFF
        return self.registers[name]

    def follow(
        self, text: str, changes: dict[str, tuple[str, str]], stored: Bytes, loaded: Bytes,
    ) -> None:
        """Checks an instruction by what was known before it, and takes over what it changed."""
        if stored:
            self.check_store(text, stored)
        address = self.address(text) if loaded else None
        for name, (old, new) in changes.items():
            if name in self.registers:
                known = self.registers[name]
                assert known == int(old, 16), f"{name} was {known:#x}, not {old}"
                self.registers[name] = int(new, 16)
        if loaded:
            self.check_load(text, loaded, address)

    def check_store(self, text: str, stored: tuple[int, tuple[int, ...], int]) -> None:
        """A store leaves the registers of its text at the address of its text."""
        address, values, size = stored
        wanted = self.address(text)
        assert wanted is None or wanted == address, f"{address:#x} in place of {wanted:#x}"
        names = self.names(text)[: len(values)]
        held = tuple(self.value(name) & ((1 << 8 * size) - 1) for name in names)
        assert held == values, f"{[hex(it) for it in held]} were stored, not {values}"
        for at, value in enumerate(values):
            self.put(address + at * size, value, size)

    def check_load(
        self, text: str, loaded: tuple[int, tuple[int, ...], int], wanted: Optional[int],
    ) -> None:
        """A load brings the bytes of the address of its text into the registers of its text."""
        address, values, size = loaded
        assert wanted is None or wanted == address, f"{address:#x} in place of {wanted:#x}"
        names = self.names(text)[: len(values)]
        held = tuple(self.registers.get("x" + name[1:], 0) for name in names)
        assert held == values, f"{[hex(it) for it in held]} were loaded, not {values}"
        for at, value in enumerate(values):
            known = self.get(address + at * size, size)
            low = value & ((1 << 8 * size) - 1)
            assert known is None or known == low, f"{known:#x} was stored there, not {low:#x}"

    def names(self, text: str) -> list[str]:
        """The registers in front of the address."""
        found = OPERANDS.match(text)
        assert found, f"no operands: {text}"
        return [name.strip() for name in found[2].split("[")[0].split(",") if name.strip()]

    def address(self, text: str) -> Optional[int]:
        """The address that the text of an access says, by the registers before it."""
        if post := POST.search(text):
            return self.registers[post[1]]
        found = MEMORY.search(text)
        if not found:
            literal = re.search(r", (0x[0-9a-f]+)$", text)
            return int(literal[1], 16) if literal else None
        base, constant, index, extend, shift = found.group(1, 2, 3, 4, 5)
        offset = int(constant, 0) if constant else 0
        if index:
            offset = extended(self.value(index), index, extend) << int(shift or "0", 0)
        return (self.registers[base] + offset) & MASK

    def put(self, address: int, value: int, size: int) -> None:
        """Stores bytes, the lowest first."""
        for at, byte in enumerate(value.to_bytes(size, "little")):
            self.bytes[(address + at) & PLAIN] = byte

    def get(self, address: int, size: int) -> Optional[int]:
        """The number in some bytes, where all are known."""
        held = [self.bytes.get((address + at) & PLAIN) for at in range(size)]
        if any(byte is None for byte in held):
            return None
        return int.from_bytes(bytes(byte or 0 for byte in held), "little")

    def forget(self, service: str) -> None:
        """A service may write: a heap call its chunk, `read` where it is told to."""
        name, _, rest = service.partition("(")
        if name == "read":
            address, length = (int(word, 0) for word in rest.partition(")")[0].split(", "))
            gone = range(address & PLAIN, (address & PLAIN) + length)
        else:
            gone = HEAP
        for at in [at for at in self.bytes if at in gone]:
            del self.bytes[at]


def extended(value: int, index: str, extend: Optional[str]) -> int:
    """An index register, as UXTW, SXTW, LSL or SXTX extend it."""
    if extend == "sxtw":
        return (value & 0xFFFFFFFF) - ((value & 0x80000000) << 1)
    return value & 0xFFFFFFFF if index.startswith("w") else value
