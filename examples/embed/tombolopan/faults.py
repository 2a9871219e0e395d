"""What goes wrong, as exceptions."""
from __future__ import annotations

from .abi import _Fault
from .enums import Code, FaultKind, Refusal, ScriptFault


class ScriptError(ValueError):
    """The script's first faulty line, from 1, and what is wrong with it."""

    def __init__(self, line: int, kind: ScriptFault | str) -> None:
        super().__init__(line, kind)
        self.line, self.kind = line, kind

    def __str__(self) -> str:
        return f"script line {self.line}: {self.kind}"


class Refused(ValueError):
    """A tenant is not admitted: `kind` has the report's word."""

    def __init__(self, kind: Refusal | str) -> None:
        super().__init__(kind)
        self.kind = kind


class MappingError(ValueError):
    """A page is mapped already, is not mapped, or has no place: `code` has which, `address` the
    page's."""

    def __init__(self, code: Code, address: int) -> None:
        super().__init__(code, address)
        self.code, self.address = code, address

    def __str__(self) -> str:
        return f"{self.code} at {self.address:#x}"


class Fault(Exception):
    """An access faulted: its kind, address, direction and both tags.

    >>> Fault(FaultKind.PERMISSION, 0x10000, write=True)
    Fault('Permission: a write at 0x10000')
    """

    def __init__(
        self, kind: FaultKind, address: int, write: bool = False, pointer_tag: int = 0,
        memory_tag: int = 0,
    ) -> None:
        super().__init__(kind, address, write, pointer_tag, memory_tag)
        self.kind, self.address, self.write = kind, address, write
        self.pointer_tag, self.memory_tag = pointer_tag, memory_tag

    def __eq__(self, other: object) -> bool:
        """Faults are equal where all that they tell is, so that answers can be compared."""
        return isinstance(other, Fault) and self.args == other.args

    def __hash__(self) -> int:
        return hash(self.args)

    @classmethod
    def of(cls, it: _Fault) -> Fault:
        """What the library tells."""
        return cls(FaultKind.of(it.kind), it.addr, bool(it.write), it.ptr_tag, it.mem_tag)

    def __str__(self) -> str:
        said = f"{self.kind}: a {'write' if self.write else 'read'} at {self.address:#x}"
        if self.kind == FaultKind.TAG_CHECK:
            said += f", pointer tag {self.pointer_tag}, memory tag {self.memory_tag}"
        return said

    def __repr__(self) -> str:
        return f"Fault({str(self)!r})"
