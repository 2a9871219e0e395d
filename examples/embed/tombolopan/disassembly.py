"""The text of instruction words."""
from __future__ import annotations

from ctypes import create_string_buffer

from .abi import OK, _library
from .ranges import in_bits

_ROOM = 96


def disassemble(word: int, pc: int = 0) -> str:
    """The text of an instruction word at an address, as objdump has it. ValueError where the word
    is no instruction of the profile.

    >>> disassemble(0x91000400), disassemble(0x14000004, pc=0x10000)
    ('add x0, x0, #0x1', 'b 0x10010')
    >>> disassemble(0)
    Traceback (most recent call last):
        ...
    ValueError: word 0x00000000 is no instruction
    """
    in_bits("word", word, 32)
    in_bits("pc", pc, 64)
    text = create_string_buffer(_ROOM)
    if _library.tb_disassemble(word, pc, text, _ROOM) != OK:
        raise ValueError(f"word {word:#010x} is no instruction")
    return text.value.decode("ascii")
