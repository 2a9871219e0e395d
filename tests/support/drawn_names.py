"""Draws names as compilers write them for linkers: those of C++ by the grammar of the Itanium ABI,
5.1, and those of Rust in its legacy form. An image has functions with such names."""

import pathlib
import random
import struct
from collections.abc import Sequence

from tests.support.hostile_images import START, STRINGS, SYMBOL_TABLE, file_of, symbol
from tests.support.running import run

NOP, BREAKPOINT = 0xD503201F, 0xD4200000
DIGITS = "0123456789ABCDEFGHIJKLMNOPQRSTUVWXYZ"
WORDS = ("a", "B", "at", "Map", "_x", "S_", "E", "basic_string", "h1", "std", "main")
SCALARS = ("v", "w", "b", "c", "a", "h", "s", "t", "i", "j", "l", "m", "x", "y", "n", "o", "f",
           "d", "e", "g", "Dn", "Di", "Ds", "Du", "Da", "Dc")
STANDARD = ("Sa", "Ss", "Sb", "Si", "So", "Sd")
UNARY = ("ps", "ng", "ad", "de", "co", "nt")
BINARY = ("pl", "mi", "ml", "dv", "rm", "an", "or", "eo", "aS", "pL", "mI", "mL", "dV", "rM", "aN",
          "oR", "eO", "ls", "rs", "lS", "rS", "eq", "ne", "lt", "gt", "le", "ge", "ss", "aa", "oo",
          "cm", "pm")
STEPS = ("pp", "mm")
OPERATORS = (*UNARY, *BINARY, *STEPS, "nw", "na", "dl", "da", "pt", "cl", "ix")
LITERALS = ("i", "j", "l", "m", "x", "y", "b", "c", "s", "h")


class Names:
    """Draws names of C++. It keeps what `S_` may refer to, as 5.1.8 of the ABI counts it, so that
    references are to what was written before, and fits. Kinds in `without` are not drawn."""

    def __init__(self, seed: int, without: frozenset[str] = frozenset()) -> None:
        self.source = random.Random(seed)
        self.without = without
        self.depth = 0
        # The first argument of the template whose function is written: a type, a value or none.
        self.parameter_of, self.first = "", ""
        # Whether the last name has arguments of a template, is that of a conversion, has `const`.
        self.has_arguments = self.is_bare = self.has_qualifiers = False
        # What was written before that can be referred to: C for classes, T for templates without
        # their arguments, F for functions and arrays, R for references, O for others.
        self.seen = ""

    def one(self, *kinds: str) -> str:
        """What one of the methods of these names writes; only the first, where it is deep."""
        self.depth += 1
        kinds = tuple(it for it in kinds if it not in self.without)
        kind = kinds[0] if self.depth > 9 else self.source.choice(kinds)
        made: str = getattr(self, kind)()
        self.depth -= 1
        return made

    def some(self, kind: str, least: int, most: int) -> str:
        """So many in a row."""
        return "".join(self.one(kind) for _ in range(self.source.randint(least, most)))

    def number(self, first: str, last: str) -> str:
        """A reference by number: nothing, or a number, between two letters."""
        at = self.source.choice((-1, -1, 0, 1, 12))
        return first + (str(at) if at >= 0 else "") + last

    # ---- names

    def word(self) -> str:
        """A source name, at times with a tag of the ABI."""
        return self.bare() + ("B5cxx11" if self.source.random() < 0.05 else "")

    def bare(self) -> str:
        """A source name without a tag."""
        word = self.source.choice(WORDS)
        return f"{len(word)}{word}"

    def operator(self) -> str:
        """An operator's name."""
        return self.source.choice(OPERATORS)

    def literal_operator(self) -> str:
        """The operator of a literal."""
        return "li" + self.bare()

    def conversion(self) -> str:
        """The operator of a conversion."""
        return "cv" + self.one("scalar")

    def closure(self) -> str:
        """A type of a lambda."""
        given = self.some("small", 1, 2) if self.source.random() < 0.6 else "v"
        return f"Ul{given}{self.number('E', '_')}"

    def unnamed(self) -> str:
        """A type without a name."""
        return self.number("Ut", "_")

    def anonymous(self) -> str:
        """The namespace without a name."""
        return "12_GLOBAL__N_1"

    def last(self) -> str:
        """What a name ends with."""
        return self.one("word", "word", "word", "operator", "literal_operator")

    def member_function(self) -> str:
        """A function of a class or of a namespace."""
        qualifiers = self.source.choice(("", "", "", "K", "V", "VK", "KR", "O"))
        made = f"N{qualifiers}{self.prefix()}"
        end = self.one("last", "last", "last", "last", "conversion", "special_member")
        if end[0] in "CD":
            self.has_arguments = False
            has_no_name = made.endswith("_") and "member_of_none" in self.without \
                or made.endswith("B5cxx11") and "member_of_tagged" in self.without
            return made + ("1f" if has_no_name else end) + "E"
        made += end + self.some_arguments()
        self.is_bare = end.startswith("cv")
        self.has_qualifiers = bool(qualifiers)
        return made + "E"

    def special_member(self) -> str:
        """A constructor or a destructor."""
        return self.source.choice(("C1", "C2", "D0", "D1", "D2"))

    def nested(self) -> str:
        """A class in others."""
        return "N" + self.prefix() + self.one("word", "closure", "unnamed") + "E"

    def some_arguments(self) -> str:
        """Arguments of a template, or none."""
        self.has_arguments = self.source.random() < 0.3
        if not self.has_arguments:
            return ""
        self.seen += "T"
        made = self.template()
        self.has_arguments = True
        return made

    def prefix(self) -> str:
        """The names around one; each can be referred to then."""
        made = self.reference("C") if self.source.random() < 0.2 else ""
        if not made:
            made = self.one("own_word", "own_word", "anonymous")
            if made != self.anonymous():
                made += self.some_arguments()
            self.seen += "C"
        for _ in range(self.source.choice((0, 0, 0, 1, 2))):
            made += self.one("word", "word", "closure", "unnamed")
            self.seen += "C"
        return made

    def simple(self) -> str:
        """A name in no other, or in `std`."""
        return self.source.choice(("", "", "St")) + self.last()

    def with_arguments(self) -> str:
        """A template's name with its arguments."""
        made = self.simple()
        self.seen += "T"
        made += self.template()
        self.has_arguments = True
        return made

    def local(self) -> str:
        """A name in a function."""
        kept = self.parameter_of
        made = "Z" + self.plain_function() + "E"
        self.parameter_of, self.has_arguments = kept, False
        if self.source.random() < 0.4:
            return made + self.one("closure", "unnamed")
        return made + self.word() + self.source.choice(("", "", "_0", "_3", "__12_"))

    def text(self) -> str:
        """A string in a function."""
        return "Z" + self.plain_function() + "Es" + self.source.choice(("", "_0"))

    def name(self) -> str:
        """A name of any kind."""
        self.has_arguments = self.is_bare = self.has_qualifiers = False
        return self.one("simple", "member_function", "with_arguments")

    # ---- types

    def scalar(self) -> str:
        """A built-in type but `void`."""
        return self.source.choice(SCALARS[1:])

    def qualified(self) -> str:
        """A type with qualifiers."""
        made = self.source.choice(("K", "V", "VK")) + self.one("scalar", "named", "pointer")
        self.seen += "O"
        return made

    def pointer(self) -> str:
        """A pointer."""
        made = "P" + self.one("scalar", "plain", "procedure", "array")
        self.seen += "O"
        return made

    def referred(self) -> str:
        """A reference of C++."""
        made = self.source.choice("RO") + self.one("scalar", "plain", "procedure", "array")
        self.seen += "R"
        return made

    def procedure(self) -> str:
        """A type of functions."""
        exempt = self.source.choice(("", "", "", "Do", "K", "VK"))
        reference = self.source.choice(("", "", "", "R", "O"))
        if exempt:
            reference = "" if exempt == "Do" and "noexcept_reference" in self.without else reference
        result = self.returned(bool(exempt or reference))
        made = f"{exempt}F{result}{self.signature()}{reference}E"
        self.seen += "F"
        return made

    def small(self) -> str:
        """A type of few letters."""
        return self.one("scalar", "own_class", "small_pointer")

    def small_pointer(self) -> str:
        """A pointer to such a type."""
        made = "P" + self.one("scalar", "own_class")
        self.seen += "O"
        return made

    def array(self) -> str:
        """A type of arrays."""
        made = f"A{self.source.choice(('', '3', '40'))}_" + \
            self.one("scalar", "own_class", "pointer", "array")
        self.seen += "F"
        return made

    def member(self) -> str:
        """A pointer to a member."""
        made = "M" + self.one("named") + self.one("scalar", "named", "procedure", "array")
        self.seen += "O"
        return made

    def named(self) -> str:
        """A class."""
        made = self.one("own_word", "nested", "own_word", "library", "class_with_arguments",
                        "local")
        if made not in STANDARD:
            self.seen += "C"
        return made

    def own_word(self) -> str:
        """A class in no other."""
        return self.source.choice(("", "", "St")) + self.word()

    def class_with_arguments(self) -> str:
        """A class of a template."""
        made = self.own_word()
        self.seen += "T"
        return made + self.template()

    def library(self) -> str:
        """A class of the C++ library with a reference of its own."""
        return self.source.choice(STANDARD)

    def reference(self, kinds: str) -> str:
        """A reference to what was before, of these kinds; nothing, where there is none."""
        fitting = [at for at, kind in enumerate(self.seen) if kind in kinds]
        if not fitting:
            return ""
        at = self.source.choice(fitting)
        if at == 0:
            return "S_"
        at -= 1
        return f"S{DIGITS[at // 36] if at >= 36 else ''}{DIGITS[at % 36]}_"

    def parameter(self) -> str:
        """A parameter of the template, where there is one."""
        if self.parameter_of != "type":
            return "j"
        self.seen += "O"
        return "T_"

    def deduced(self) -> str:
        """The type of an expression."""
        made = self.source.choice(("Dt", "DT")) + self.expression() + "E"
        self.seen += "O"
        return made

    def vendor(self) -> str:
        """A type of a vendor, and a vector."""
        made = self.source.choice(("u7__int24", "Dv4_f", "Dv16_h"))
        self.seen += "O"
        return made

    def again(self) -> str:
        """A type that was before, but no reference of C++."""
        return self.reference("CFO") or "i"

    def own_class(self) -> str:
        """A class in no other."""
        made = self.own_word()
        self.seen += "C"
        return made

    def again_class(self) -> str:
        """A class that was before."""
        return self.reference("C") or "Si"

    def plain(self) -> str:
        """A type but a reference of C++."""
        return self.one("scalar", "scalar", "pointer", "qualified", "named", "named", "again",
                        "again", "parameter", "member", "deduced", "vendor")

    def returned(self, has_qualifiers: bool) -> str:
        """A type that a function can return, which may have qualifiers."""
        if has_qualifiers and "qualified_returns" in self.without:
            return self.one("scalar", "own_class")
        return self.one("scalar", "pointer", "referred", "named", "parameter", "member")

    def kind(self) -> str:
        """A type."""
        return self.one("scalar", "plain", "plain", "plain", "plain", "referred", "again")

    def signature(self) -> str:
        """The types of parameters."""
        if self.source.random() < 0.3:
            return "v"
        return self.some("kind", 1, 3) + ("z" if self.source.random() < 0.05 else "")

    # ---- arguments of templates, and expressions

    def template(self) -> str:
        """Arguments of a template."""
        first = self.source.choice(("type", "type", "value"))
        made = self.one("scalar", "plain", "referred") if first == "type" else self.literal()
        made += self.some("argument", 0, 2)
        self.first = first
        return f"I{made}E"

    def argument(self) -> str:
        """One of them."""
        return self.one("scalar", "kind", "kind", "literal", "computed", "pack")

    def pack(self) -> str:
        """Arguments of a parameter that takes several."""
        return "J" + self.some("kind", "empty_pack" in self.without, 2) + "E"

    def computed(self) -> str:
        """An argument that is an expression."""
        return "X" + self.expression() + "E"

    def literal(self) -> str:
        """A number, an enumerator or a function."""
        kind = self.source.random()
        if kind < 0.7:
            letter = self.source.choice(LITERALS)
            value = "01"[self.source.randrange(2)] if letter == "b" else \
                self.source.choice(("0", "5", "n7", "1024"))
            return f"L{letter}{value}E"
        return f"L{self.own_class()}3E" if kind < 0.8 else f"L_Z{self.plain_function()}E"

    def expression(self) -> str:
        """An expression."""
        return self.one(
            "literal", "parameter_value", "unary", "step", "no_exception", "binary", "sizes",
            "size", "alignment", "alignment_of_type", "call", "cast", "rare_cast", "made_of",
            "choice", "scoped", "selected", "argument_value", "creation", "index")

    def parameter_value(self) -> str:
        """A parameter of the template as a value."""
        if self.parameter_of != "value":
            return "Li1E"
        self.seen += "E"
        return "T_"

    def argument_value(self) -> str:
        """A parameter of the function."""
        return self.source.choice(("fp_", "fp0_"))

    def unary(self) -> str:
        """An operator of one."""
        return self.source.choice(UNARY) + self.expression()

    def no_exception(self) -> str:
        """Whether none is thrown."""
        return "nx" + self.expression()

    def step(self) -> str:
        """An increment or a decrement."""
        return self.source.choice(("pp_", "mm_", "pp", "mm")) + self.expression()

    def binary(self) -> str:
        """An operator of two."""
        return self.source.choice(BINARY) + self.expression() + self.expression()

    def index(self) -> str:
        """An element."""
        return "ix" + self.expression() + self.expression()

    def sizes(self) -> str:
        """Sizes and alignments."""
        return "st" + self.small()

    def size(self) -> str:
        """The size of a value."""
        return "sz" + self.expression()

    def alignment(self) -> str:
        """The alignment of a value."""
        return "az" + self.expression()

    def alignment_of_type(self) -> str:
        """The alignment of a type."""
        return "at" + self.small()

    def call(self) -> str:
        """A call."""
        return "cl" + self.one("scoped", "selected") + self.some("expression", 0, 2) + "E"

    def cast(self) -> str:
        """A conversion."""
        return "cv" + self.small() + self.expression()

    def rare_cast(self) -> str:
        """A cast with a keyword."""
        return self.source.choice(("dc", "cc", "sc", "rc")) + self.one("kind") + self.expression()

    def made_of(self) -> str:
        """A value made of none or of several."""
        count = self.source.choice((0, 2))
        return "cv" + self.one("kind") + "_" + self.some("expression", count, count) + "E"

    def choice(self) -> str:
        """One of two."""
        return "qu" + self.expression() + self.expression() + self.expression()

    def scoped(self) -> str:
        """A name in a class that is not known yet."""
        return "sr" + self.one("again_class") + self.word()

    def selected(self) -> str:
        """A member of a value."""
        return self.source.choice(("dt", "pt")) + self.expression() + self.word()

    def creation(self) -> str:
        """What is made by `new`."""
        return "nw_" + self.one("scalar", "named") + self.source.choice(("E", "piLi4EE", "piE"))

    # ---- whole names

    def plain_function(self) -> str:
        """A function that is no template."""
        self.parameter_of = ""
        if self.source.random() < 0.5:
            qualifiers = self.source.choice(("", "", "K", "VKR"))
            return f"N{qualifiers}{self.prefix()}{self.last()}E{self.signature()}"
        return self.simple() + self.signature()

    def function(self) -> str:
        """A function's name and type."""
        self.parameter_of = ""
        name = self.name()
        result = ""
        if self.has_arguments:
            self.parameter_of = self.first
            result = "" if self.is_bare else self.returned(self.has_qualifiers)
        made = name + result + self.signature()
        self.parameter_of, self.has_arguments = "", False
        return made

    def variable(self) -> str:
        """A variable's name."""
        return self.one("own_word", "nested", "local")

    def special(self) -> str:
        """A table, a thunk, a guard or a temporary."""
        kind = self.source.choice(
            ("TV", "TT", "TI", "TS", "GV", "Th", "Tv", "Tc", "TC", "TH", "TW"))
        if kind in ("TV", "TT", "TI", "TS"):
            return kind + self.one("named")
        if kind in ("GV", "TH", "TW"):
            return kind + self.variable()
        if kind == "TC":
            return f"{kind}{self.one('named')}16_{self.one('named')}"
        offset = {"Th": "Thn16_", "Tv": "Tv0_n24_", "Tc": "Tch8_v16_n32_"}[kind]
        return offset + self.function()

    def whole(self) -> str:
        """A name as a linker has it."""
        self.seen, self.depth, self.parameter_of = "", 0, ""
        if self.source.random() < 0.05:
            return "_Z" + self.function() + self.source.choice(
                (".cold", ".isra.0", ".constprop.3.part.1", ".llvm.123"))
        return "_Z" + self.one("function", "function", "function", "function", "variable",
                               "special", "text")


def rust_name(source: random.Random) -> str:
    """A legacy name of Rust: parts with escapes, and a hash."""
    escapes = ("$LT$", "$GT$", "$RF$", "$BP$", "$u20$", "$C$", "$LP$", "$RP$", "$u7b$", "$u7d$",
               "..", ".", "$u5b$", "$u5d$", "$u27$", "$SP$")
    parts = []
    for _ in range(source.randint(1, 4)):
        part = "".join(source.choice((*WORDS, *escapes)) for _ in range(source.randint(1, 5)))
        part = f"_{part}" if part.startswith("$") else part
        parts.append(f"{len(part)}{part}")
    digest = "".join(source.choice("0123456789abcdef") for _ in range(16))
    return f"_ZN{''.join(parts)}17h{digest}E"


def told_names(alone: pathlib.Path, folder: pathlib.Path, names: Sequence[bytes]) -> list[str]:
    """What a trace calls functions of one instruction each, with these names; what has no name is
    the address of its instruction."""
    strings, table = bytearray(b"\0"), bytearray(24)
    for at, name in enumerate(names):
        table += symbol(len(strings), 0x12, START + 4 * at, 4)
        strings += name + b"\0"
    code = struct.pack(f"<{len(names) + 1}I", *[NOP] * len(names), BREAKPOINT)
    (folder / "names.elf").write_bytes(file_of(code, [
        (b".symtab", SYMBOL_TABLE, bytes(table), 2), (b".strtab", STRINGS, bytes(strings), 0)]))
    ran = run([alone, "--trace", "--last", "0", "names.elf"], cwd=folder)
    lines = ran.errors.splitlines()
    return [lines[at - 1].removesuffix(":") for at, line in enumerate(lines)
            if line.endswith(" nop") and line[:9].strip().isdigit()]
