"""What scripts do alike with their command lines: --help writes what a script says of itself on
standard output, and of a wrong command line standard error has one line, which names --help."""
from __future__ import annotations

import argparse
import pathlib
import sys
from collections.abc import Collection
from typing import NoReturn

WRONG = 2
HELP = ("-h", "--help")


def refuse(script: str, text: str) -> NoReturn:
    """Ends for a wrong command line."""
    print(f"{script}: {text} (--help)", file=sys.stderr)
    sys.exit(WRONG)


def show(text: str | None) -> NoReturn:
    """Writes what a script says of itself, and ends."""
    print((text or "").strip())
    sys.exit(0)


class Parser(argparse.ArgumentParser):
    """A parser of options, whose help is a text as it is written."""

    def __init__(self, text: str | None) -> None:
        super().__init__(description=text, formatter_class=argparse.RawDescriptionHelpFormatter)

    def error(self, message: str) -> NoReturn:
        """Ends for a wrong command line."""
        refuse(self.prog, message)


def read_words(
    text: str | None, least: int, most: int | None = None, options: Collection[str] = ()
) -> list[str]:
    """The words of a script whose options have no values; ends where they are no such words, or
    where not at least `least` and at most `most` of them are no options."""
    script, words = pathlib.Path(sys.argv[0]).name, sys.argv[1:]
    if any(word in HELP for word in words):
        show(text)
    for word in words:
        if word.startswith("-") and word != "-" and word not in options:
            refuse(script, f"there is no option {word}")
    count = sum(word not in options for word in words)
    if count < least or (most is not None and count > most):
        refuse(script, f"{count} words are too {'few' if count < least else 'many'}")
    return words
