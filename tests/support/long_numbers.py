"""Numbers of DWARF (LEB128; DWARF 5, 7.6) in more bytes than they need, in the assembler's text of
clang and of gcc with -dA. Attributes of one byte, numbers of texts and references become such
numbers too, some with their form in front of them. Entries move: references are to labels."""

import random
import re

# The code of an entry, a reference to one, an attribute or an end of one byte, and the length of a
# location with the offset in it.
ENTRY = re.compile(r"\t\.(?:uleb128|byte)\s+(\w+)\s+// (?:\(DIE \(|Abbrev \[\d+\] )(0x\w+)")
REFERENCE = re.compile(r"\t\.(?:4byte|word)\s+(\w+)\s+// DW_AT_(?:type|sibling|\w+_origin)")
ONE_BYTE = re.compile(r"\t\.byte\s+(\w+)\s+// (?:DW_AT_(\w+)|[Ee]nd [Oo]f [Cc]hildren)")
LENGTH = re.compile(r"\t\.uleb128 (\w+)\t// DW_AT_")
OFFSET = re.compile(r"\t\.sleb128 (-?\d+)$")
UNIT = re.compile(r"\t\.4byte\t0x\w+\t// Length of Compilation Unit Info")
# Of the abbreviations: a form that becomes another one, any other number, and the end of a list.
FORM = re.compile(r"\t\.(?:uleb128|byte)\s+\w+\s+// \(?DW_FORM_(data1|ref4|strx1)\b")
NUMBER = re.compile(r"\t\.(?:[us]leb128|byte)\s+(\w+)\s+// (?:\(|Abbrev|DW_[TAF]|EOM)")
END = re.compile(r"\t\.byte\t(0)$")
UDATA, INDIRECT, MOST = 0x0F, 0x16, 9
FORMS = {"data1": UDATA, "ref4": 0x15, "strx1": 0x1A}
# Attributes of one byte that are no such data.
NO_DATA = {"producer", "name", "linkage_name", "comp_dir", "low_pc", "ranges", "location",
           "frame_base", "call_return_pc", "call_pc", "call_value", "const_value"}


class Rewriter:
    """The lines of a text, with drawn lengths of numbers."""

    def __init__(self, seed: int) -> None:
        self.source = random.Random(seed)
        self.is_indirect = seed % 2 == 1
        self.lines: list[str] = []
        # The line with the length of the last location, and that length.
        self.length = (0, 0)

    def number(self, value: int, has_sign: bool = False) -> tuple[str, int]:
        """The line of a number, and how many bytes it has above those that it needs."""
        bits = (value if value >= 0 else ~value).bit_length() + has_sign
        least = max(1, -(-bits // 7))
        more = (0, 1, max(0, 3 - least), self.source.randint(0, MOST - least))
        count = least + self.source.choice(more)
        parts = [value >> 7 * at & 127 | (at < count - 1) << 7 for at in range(count)]
        return f"\t.byte {', '.join(map(str, parts))}", count - least

    def put(self, value: int, has_sign: bool = False) -> int:
        """Adds a number, and returns how many bytes it has above those that it needs."""
        line, more = self.number(value, has_sign)
        self.lines.append(line)
        return more

    def refer(self, number: int) -> None:
        """Adds a reference, in three bytes or more."""
        count = self.source.randint(3, MOST)
        offset = f"(.Lentry_{number}-.Lunit)"
        parts = [f"{offset}>>{7 * at}&127|{(at < count - 1) << 7}" for at in range(count)]
        self.lines.append(f"\t.byte {', '.join(parts)}")

    def entry(self, line: str) -> None:
        """Adds a line of the entries."""
        if found := ENTRY.match(line):
            self.lines.append(f".Lentry_{int(found[2], 16)}:")
            self.put(int(found[1], 0))
        elif found := REFERENCE.match(line):
            self.refer(int(found[1], 0))
        elif UNIT.match(line):
            self.lines.append("\t.4byte .Lend_of_unit-.Lunit-4")
        elif found := ONE_BYTE.match(line):
            if self.is_indirect and found[2] and found[2] not in NO_DATA:
                self.put(UDATA)
            self.put(int(found[1], 0))
        elif found := LENGTH.match(line):
            self.length = (len(self.lines), int(found[1], 0))
            self.put(int(found[1], 0))
        elif found := OFFSET.match(line):
            at, length = self.length
            self.lines[at], _ = self.number(length + self.put(int(found[1]), True))
        else:
            self.lines.append(line)

    def abbreviation(self, line: str) -> None:
        """Adds a line of the abbreviations."""
        number = NUMBER.match(line) or END.match(line)
        if found := FORM.match(line):
            is_indirect = self.is_indirect and found[1] == "data1"
            self.put(INDIRECT if is_indirect else FORMS[found[1]])
        elif number:
            self.put(int(number[1], 0), ".sleb128" in line)
        else:
            self.lines.append(line)


def with_long_numbers(text: str, seed: int) -> str:
    """The text of an assembler with other lengths of the numbers in its entries and in their
    abbreviations."""
    made, section = Rewriter(seed), ""
    for line in text.splitlines():
        if "\t.section\t" in line:
            made.lines += [".Lend_of_unit:"] * (section == ".debug_info")
            section = line.split("\t")[2].split(",")[0]
            made.lines += [line, *[".Lunit:"] * (section == ".debug_info")]
        elif section == ".debug_info":
            made.entry(line)
        elif section == ".debug_abbrev":
            made.abbreviation(line)
        else:
            made.lines.append(line)
    return "\n".join(made.lines) + "\n"
