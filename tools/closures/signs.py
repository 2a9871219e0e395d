"""The signs of public contracts: words of the kit, operators, and what the language adds."""

import re

from closures.closures import Repository, named
from closures.names import parts_of

# What a name of a value may end in.
ENDS = re.compile(r"\w\.(old|new|now|entry|exit|items|value)\b")


def signs_of(repository: Repository) -> dict[str, str]:
    """Every sign that a public contract uses, each with a call that does."""
    found: dict[str, str] = {}
    for function in repository.functions():
        if not function.is_public:
            continue
        source = repository.sources[function.crate, function.module]
        where = f"{function.crate}::{function.called}"
        for clause in function.clauses:
            found.setdefault(clause.word, where)
            for name in named(repository, clause.term, source.ghost, None):
                if name.kind == "kit":
                    for part in parts_of(name.name):
                        found.setdefault(part, where)
            for token in re.split(r"[\s(){};,]+", clause.term):
                if token and not re.search(r"\w", token):
                    found.setdefault(token, where)
            for end in ENDS.findall(clause.term):
                found.setdefault(f".{end}", where)
    return {sign: where for sign, where in found.items() if sign not in ("=", ":")}


def explained_in(page: str) -> set[str]:
    """The signs that a page has in its code: words and operators of each piece."""
    pieces = re.findall(r"`([^`\n]+)`", page) + re.findall(r"^    (.*)$", page, re.M)
    words = {part for piece in pieces for part in re.split(r"[\s(){};,]+", piece)}
    ends = {it[0] for piece in pieces for it in re.finditer(r"(?<=\w)\.[a-z]+", piece)}
    return words | ends
