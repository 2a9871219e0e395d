"""The families of instructions that the profile doesn't have, as isa/a64.absent has them."""

import re
from collections.abc import Iterator
from dataclasses import dataclass, field

from a64 import table
from a64.table import Row, Rows, TableError

ABSENT = "isa/a64.absent"
PAGE = "docs/TENANTS.md"
NAMES = "tools/disassembly/absent.py"
CODE = "crates/run_cause/src/families.rt"
KEYS = {"words", "mnemonics", "page", "avoid"}

Bits = tuple[int, int]  # a mask and the value of its bits


@dataclass
class Family:
    """A family: what is said of it, and the bits of its words."""
    name: str
    place: str
    said: dict[str, str] = field(default_factory=dict)
    words: list[Bits] = field(default_factory=list)

    @property
    def mnemonics(self) -> list[str]:
        return self.said.get("mnemonics", "").split()


Families = list[Family]


def parse_bits(token: str, of: str) -> Bits:
    found = re.fullmatch(r"([0-9A-F]{8})=([0-9A-F]{8})", token)
    if not found:
        raise TableError(f"{of}: `{token}` is not MASK=VALUE of eight hexadecimal digits each")
    mask, value = int(found[1], 16), int(found[2], 16)
    if value & ~mask:
        raise TableError(f"{of}: `{token}`: the value has bits that the mask hasn't")
    return mask, value


def read_families() -> Families:
    """The families, in their order."""
    families: Families = []
    for place, line in table.numbered_lines(ABSENT):
        if not line[0].isspace():
            if any(line == other.name for other in families):
                raise TableError(f"{place}: {line} is there twice")
            families.append(Family(line, place))
            continue
        key, _, text = line.strip().partition(" ")
        if not families or key not in KEYS or key in families[-1].said:
            raise TableError(f"{place}: a line of no family, of no key, or a second one: {key}")
        families[-1].said[key] = text.strip()
        if key == "words":
            of = f"{place}: {families[-1].name}"
            families[-1].words = [parse_bits(token, of) for token in text.split()]
    for family in families:
        if ("page" in family.said) != ("avoid" in family.said):
            raise TableError(f"{family.place}: {family.name}: `page` and `avoid` go together")
        if not family.words and not family.mnemonics:
            raise TableError(f"{family.place}: {family.name} has neither words nor mnemonics")
    return families


def check_rows(rows: Rows, families: Families) -> None:
    """Whether a row is named that a family has too."""
    for row in rows.values():
        for family in families:
            check_row(row, family)


def check_row(row: Row, family: Family) -> None:
    named = {word.lower() for word in re.findall(r"\w+", row.said["names"])}
    for mnemonic in family.mnemonics:
        if mnemonic in named:
            raise row.error(f"{mnemonic.upper()} is absent by {family.place} ({family.name})",
                            "names")


# ---- what is written

NAMES_FILE = '''\
# Written by tools/isa.py from {path}. Do not edit.
"""The mnemonics that a disassembler has for words that are no instruction of the profile."""

FAMILIES = {{
{names}
}}

ABSENT = {{name for names in FAMILIES.values() for name in names.split()}}
'''

BEGIN = f"<!-- Written by tools/isa.py from {ABSENT}: -->\n"
END = "<!-- to here. -->\n"


def names_file(families: Families) -> str:
    lines = [f'    "{family.name}": "{" ".join(family.mnemonics)}",' for family in families
             if family.mnemonics]
    return NAMES_FILE.format(path=ABSENT, names="\n".join(lines))


def page_table(families: Families) -> str:
    """The table of the page: the families that share what avoids them on one line, at the place of
    the last."""
    lines: dict[str, list[str]] = {}
    for family in families:
        if "page" in family.said:
            avoid = family.said["avoid"]
            lines[avoid] = [*lines.pop(avoid, []), family.said["page"]]
    rows = [f"| {', '.join(names)} | {avoid} |\n" for avoid, names in lines.items()]
    return "| Instruction | Without `tenant-cc` |\n|---|---|\n" + "".join(rows)


def page(families: Families) -> str:
    """The page with its table."""
    text = (table.ROOT / PAGE).read_text()
    if text.count(BEGIN) != 1 or text.count(END) != 1:
        raise TableError(f"{PAGE}: the lines around its table of instructions are missing")
    before, _, rest = text.partition(BEGIN)
    return f"{before}{BEGIN}\n{page_table(families)}\n{END}{rest.partition(END)[2]}"


def written(families: Families) -> dict[str, str]:
    """The files that are written whole."""
    return {NAMES: names_file(families)}


# ---- what families.rt tells

ATOM = re.compile(r"(?:word|\w+)(?: >> (\d+))?(?: & (0x[0-9A-F_]+|\d+))? == (0x[0-9A-F_]+|\d+)")
ARM = re.compile(r"if let Some\(\w+\) = (\w+)\(word\)"
                 r"|if (?!let)([^{]*?)\s*\{\s*Some\((\".*?\"|\w+)\)|else \{\s*(\w+)\(word\)")


def number(text: str) -> int:
    return int(text.replace("_", ""), 0)


def bits_of_atom(text: str, shifted: int) -> Bits:
    """The bits that a comparison tests; `shifted` is how far its variable is shifted already."""
    found = ATOM.fullmatch(text.strip())
    if not found:
        raise TableError(f"{CODE}: `{text.strip()}` is no test of a word's bits")
    shift = int(found[1] or 0) + shifted
    mask = number(found[2]) if found[2] else (1 << 32 - shift) - 1
    return mask << shift & 0xFFFF_FFFF, number(found[3]) << shift


def bits_of_test(text: str, shifted: int = 0) -> list[Bits]:
    """The bits of a test with `||` and `&&`."""
    found: list[Bits] = []
    for choice in text.split("||"):
        both = [bits_of_atom(atom, shifted) for atom in choice.split("&&")]
        mask, value = 0, 0
        for part in both:
            mask, value = mask | part[0], value | part[1]
        found.append((mask, value))
    return found


def function_body(code: str, name: str) -> str:
    found = re.search(rf"^(?:pub )?fn {name}\(word: u32\) -> .*?{{\n(.*?)^}}", code, re.M | re.S)
    if not found:
        raise TableError(f"{CODE}: there is no function {name}")
    return found[1]


def bits_of_condition(code: str, text: str) -> list[Bits]:
    """The bits of a condition: a test, or the call of a function that is one."""
    call = re.fullmatch(r"(\w+)\(word\)", text.strip())
    if not call:
        return bits_of_test(text)
    body = function_body(code, call[1])
    named = re.match(r"\s*let (\w+) = word >> (\d+)(?: & (\d+))?;\n", body)
    if not named:
        return bits_of_test(body)
    # The variable stands for shifted bits of the word, all of them or some.
    test = body[named.end():]
    for part in set(re.findall(rf"\b{named[1]} == (\w+)", test)):
        mask = f" & {named[3]}" if named[3] else ""
        test = re.sub(rf"\b{named[1]} == {part}\b", f"word >> {named[2]}{mask} == {part}", test)
    return bits_of_test(test)


def find_families(code: str, name: str = "family_of") -> Iterator[tuple[str, Bits]]:
    """The families and bits of a function of the code, in their order."""
    for inner, condition, family, last in ARM.findall(function_body(code, name)):
        if inner or last:
            yield from find_families(code, inner or last)
            continue
        constant = re.search(rf'const {re.escape(family)}: &str = "(.*?)";', code)
        words = constant[1] if constant else family.strip('"')
        yield from ((words, bits) for bits in bits_of_condition(code, condition))


def differences(families: Families) -> Iterator[str]:
    """Where the code tells another family than the data have."""
    code = (table.ROOT / CODE).read_text()
    found = list(find_families(code))
    wanted = [(family, bits) for family in families for bits in family.words]
    for family, bits in wanted:
        if (family.name, bits) not in found:
            yield f"{family.place}: {family.name}: {CODE} has no {bits[0]:08X}={bits[1]:08X}"
    said = [(family.name, bits) for family, bits in wanted]
    for name, bits in found:
        if (name, bits) not in said:
            yield f"{CODE}: {bits[0]:08X}={bits[1]:08X} of {name} is not in {ABSENT}"
    for at, (family, bits) in enumerate(wanted):
        for other, others in wanted[at + 1:]:
            both = bits[0] & others[0]
            if other is family or (bits[1] ^ others[1]) & both:
                continue
            pair = [(family.name, bits), (other.name, others)]
            if all(each in found for each in pair) and found.index(pair[0]) > found.index(pair[1]):
                yield (f"{other.place}: {other.name}: {CODE} asks for {others[0]:08X}="
                       f"{others[1]:08X} before {family.name}")
