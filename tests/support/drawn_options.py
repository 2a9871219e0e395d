"""Draws tables of options for argp, as text of C, and command lines for them; drawn_options.c
parses the ones by the others, natively or as a tenant."""

import pathlib
import random
from collections.abc import Callable
from dataclasses import dataclass, field
from typing import Optional

from tests.support.running import Ran

DRIVER = pathlib.Path(__file__).with_name("drawn_options.c")
LETTERS = "abcdefgxyzABCXYZ1?VV@"
NAMES = ("alpha", "alphabet", "alps", "beta", "bet", "gamma", "output", "out", "verbose", "version",
         "help", "usage", "x", "very-long-name-of-an-option", "n22-columns-of-a-name",
         "n23-columns-of-a-name1", "n24-columns-of-a-name12", "Zeta", "Beta", "quiet")
TITLES = ("FILE", "-x file", "  spaced", "(odd) Name", "a-word", "-other", "Words")
VALUES = ("FILE", "N", "SIZE-OF-IT", "[A B]")
ARGUMENTS = ("ARG", "ONE TWO", "[FILE...]", "ONE\nTWO THREE", "A\nB C\nD", "", "\nX")
WORDS = ("a of the option file output given words which may be long and have several lines of text "
         "printed-without-breaks over (default) [none] documentation, end. I").split()
# What the driver does something for, and other words.
GIVEN = ("value", "", "usage", "error", "fail0", "fail1", "fail2", "help27a", "help106", "unknown",
         "invalid", "next", "all", "a=b", "-", "help7b", *("word",) * 8)
FLAGS = {0x2: .15, 0x4: .1, 0x8: .25, 0x10: .15, 0x20: .5, 0x40: .15, 0x1000: .5, 0x2000: .5,
         0x4000: .5}
HELPS = (0x7a, 0x1, 0x2, 0x8, 0x7b, 0xff)
ARG_OPTIONAL, HIDDEN, ALIAS, DOC, NO_USAGE = 1, 2, 4, 8, 16


def quoted(text: Optional[str]) -> str:
    """A string of C, or a null pointer."""
    if text is None:
        return "NULL"
    return '"' + text.replace("\n", "\\n").replace("\v", "\\v") + '"'


@dataclass
class Tables:
    """The tables of some programs. Of each one it keeps the long and short names of options."""

    seed: int
    lines: list[str] = field(default_factory=list)
    rules: list[str] = field(default_factory=list)
    roots: list[int] = field(default_factory=list)
    names: list[tuple[list[str], list[str]]] = field(default_factory=list)

    def __post_init__(self) -> None:
        """Where it draws from."""
        self.source = random.Random(self.seed)

    def may(self, chance: float) -> bool:
        """Whether something of this chance happens."""
        return self.source.random() < chance

    def text(self, most: int, ends: tuple[str, ...] = ()) -> str:
        """So many words at most, between blanks or these."""
        made = self.source.choice(WORDS)
        for _ in range(self.source.randint(0, most - 1)):
            made += self.source.choice(("  ", ". ", *ends)) if self.may(.07) else " "
            made += self.source.choice(WORDS)
        return made

    def doc(self, most: int) -> Optional[str]:
        """A text of an option, which may be missing or empty."""
        return self.text(most) if self.may(.85) else self.source.choice((None, ""))

    def option(self, is_first: bool) -> str:
        """An option, a header or a text among the options, and its group."""
        choice = self.source.choice
        group, kind = choice((0,) * 14 + (1, 2, 3, -1, -2)), self.source.random()
        if kind < .1:
            return f"NULL, 0, NULL, 0, {quoted(choice(('Header:', self.text(6))))}, {group}"
        if kind < .16:
            value = quoted(choice((None, None, "ARG")))
            return f"{quoted(choice(TITLES))}, 0, {value}, {DOC}, {quoted(self.doc(8))}, {group}"
        number = self.source.randint(0, 40)
        key = ord(choice(LETTERS)) if self.may(.6) else choice((300 + number, 301))
        name: Optional[str] = choice((*NAMES, *(f"n{number}",) * 6))
        if key < 127 and self.may(.3):
            name = None
        chances = {ARG_OPTIONAL: .2, HIDDEN: .07, ALIAS: 0 if is_first else .12, NO_USAGE: .08}
        flags = sum(flag for flag, chance in chances.items() if self.may(chance))
        longs, shorts = self.names[-1]
        longs += [name] if name else []
        shorts += [chr(key)] if key < 127 else []
        value, doc = quoted(choice((None, None, *VALUES))), quoted(self.doc(choice((4, 8, 12))))
        return f"{quoted(name)}, {key}, {value}, {flags}, {doc}, {group}"

    def children(self, depth: int) -> list[str]:
        """The children of a parser."""
        if depth == 2 or self.may(.55):
            return []
        headers = (None, None, "", "Child options:", self.text(5))
        return [f"&argp_{self.parser(depth + 1)}, 0, {quoted(self.source.choice(headers))}, "
                f"{self.source.choice((0, 0, 0, 1, 2, -1, -2))}"
                for _ in range(self.source.choice((1, 1, 2, 3)))]

    def both_texts(self) -> Optional[str]:
        """The text of a parser: in front of the options, and behind them."""
        if self.may(.3):
            return None
        ends = ("\n", "\n\n")
        made = self.text(self.source.choice((5, 30)), ends) if self.may(.85) else ""
        return made + ("\v" + self.text(20, ends) if self.may(.4) else "")

    def parser(self, depth: int = 0) -> int:
        """A parser with its children: its number."""
        choice, own = self.source.choice, len(self.rules)
        self.rules.append("")
        count = choice((0, 1, 2, 4, 6, 9, 12)) if depth < 2 else choice((1, 2, 3))
        options = [self.option(at == 0) for at in range(count)]
        children = self.children(depth)
        self.rules[own] = (f"{{{choice((0, 0, 1, 2, 9, 9))}, {int(self.may(.15))}, "
                           f"{int(self.may(.1))}, {len(children)}}}")
        words = "int key, char *arg, struct argp_state *state"
        self.lines += [f"static error_t parse_{own}({words})",
                       f"{{ return act({own}, key, arg, state); }}",
                       f"static char *filter_{own}(int key, const char *text, void *input)",
                       f"{{ (void)input; return alter({own}, key, text); }}"]
        for kind, rows in (("option", options), ("child", children)):
            self.lines += [f"static const struct argp_{kind} {kind}_{own}[] = {{",
                           *(f"    {{{row}}}," for row in rows), "    {0}", "};"]
        arguments = quoted(choice((None, None, *ARGUMENTS)))
        functions = (f"parse_{own}" if self.may(.92) else "NULL",
                     f"filter_{own}" if self.may(.12) else "NULL")
        self.lines.append(
            f"static const struct argp argp_{own} = {{option_{own}, {functions[0]}, {arguments}, "
            f"{quoted(self.both_texts())}, child_{own}, {functions[1]}, NULL}};")
        return own

    def draw(self, count: int) -> str:
        """Tables of so many programs: a header for the driver."""
        for _ in range(count):
            self.names.append(([], []))
            self.roots.append(self.parser())
        listed = ", ".join(f"&argp_{root}" for root in self.roots)
        ends = [f"static const struct argp *const tables[] = {{{listed}}};",
                f"static const struct rule rules[] = {{{', '.join(self.rules)}}};"]
        return "\n".join(self.lines + ends) + "\n"

    def word(self, table: int) -> str:
        """A word of a command line."""
        choice, kind = self.source.choice, self.source.random()
        longs, shorts = self.names[table]
        if kind < .45 or (kind < .7 and not shorts):
            name = choice([*longs, "help", "usage", "version", "program-name"])
            name = name[:self.source.randint(1, len(name))] if self.may(.4) else name
            value = "=" + choice(GIVEN) if self.may(.4) else ""
            return ("-" if self.may(.15) else "--") + name + value
        if kind < .7:
            letters = "".join(choice([*shorts, "q"]) for _ in range(self.source.randint(1, 3)))
            return "-" + letters + (choice(GIVEN) if self.may(.2) else "")
        return "--" if kind < .76 else choice(GIVEN)

    def command(self) -> bytes:
        """A command line, or a help, for the driver."""
        table = self.source.randrange(len(self.roots))
        flags = sum(flag for flag, chance in FLAGS.items() if self.may(chance))
        if self.may(.2):
            return f"H {table} {flags & 0x3000 | self.source.choice(HELPS):x}\n".encode()
        count = self.source.choice((0, 1, 1, 2, 3, 4, 6, 8))
        words = [self.source.choice(("drawn", "/usr/bin/drawn"))]
        words += [self.word(table) for _ in range(count)]
        return "".join([f"T {table} {flags:x}\n", *(f"+{word}\n" for word in words)]).encode()


def results(run: Callable[[bytes], Ran], commands: list[bytes]) -> list[tuple[bytes, int]]:
    """Output and exit status of the driver over command lines; one that ends it ends a run, and the
    next run begins behind it."""
    found, at = [], 0
    while at < len(commands):
        ran = run(b"".join(commands[at:]))
        done = ran.out.count(b"=== ")
        assert done, ran.errors
        found.append((ran.out, ran.status))
        at += done
    return found
