#!/usr/bin/env python3
"""What to believe: the definitions that a theorem reaches.

    believe.py THEOREM [CLAUSE]    print them in the order in which they are read, with the files,
                                   types, constants and words of the kit, and what to skip; THEOREM
                                   is a public function with a contract, as `tenants_are_isolated`,
                                   `Host::slice`, `mte_tenant::slice`; of a theorem of
                                   docs/BELIEVE.md also what it rests on and what it does not say
    believe.py --given NAME THEOREM    the same with a definition as given (CRATE.MODULE.NAME)
    believe.py --all               print all theorems of docs/BELIEVE.md as one page of Markdown
    believe.py                     write docs/BELIEVE.md, which has their numbers
    believe.py --check             exit with 1 where it is not what the definitions give, where a
                                   closure is larger than its bound in closures/theorems.toml, or
                                   where a verdict counts other functions than the sources have
    believe.py --record LOG        take the verdicts of a log of `rt ci` into closures/verdicts.toml
    believe.py --root DIR ..       the same in another copy of the repository

A name is reached if it is a word of a clause, or of a definition, a field of a type or a constant
that is reached, and an import or the same file says what it is. An import that leads nowhere is an
error. So a closure has all that is named, and what a `requires` of the function names with it.

It has more than must be read where a bound variable is spelled like a definition, where other
fields or variants of a type name something, and where a type keeps facts (ghost fields): these are
followed.

It has less in three places, which no clause can name. Of a type with a model neither its view (how
its private fields are its value) nor its invariant (what holds of each value) is followed: callers
see the value alone. Of a generic call no impl of the trait is: the clauses of the trait are, and
each impl is proved to keep them. The words of the kit are listed by name and not followed.
"""

import argparse
import pathlib
import sys

import findings
from closures import pages, printed, theorems, verdicts
from closures.closures import Repository
from closures.names import ReadError

HERE = pathlib.Path(__file__).resolve().parent.parent
PAGE = "docs/BELIEVE.md"


def written(root: pathlib.Path, repository: Repository) -> tuple[str, list[str]]:
    """What the page must be, and what is not as it must be."""
    page = theorems.read_page()
    return (pages.written_page(root, repository, page),
            [*theorems.complaints(root, repository, page), *verdicts.complaints(root)])


def check(root: pathlib.Path, repository: Repository) -> list[str]:
    """All that differs."""
    text, found = written(root, repository)
    path = root / PAGE
    known = path.read_text(encoding="utf-8").split("\n") if path.exists() else []
    wanted = text.split("\n")
    if known != wanted:
        line = next((n for n, pair in enumerate(zip(known, wanted)) if pair[0] != pair[1]),
                    min(len(known), len(wanted)))
        found.append(f"{PAGE}:{line + 1}: is not what the definitions give: look at what has "
                     "changed, and run tools/believe.py")
    return found


def write(root: pathlib.Path, repository: Repository) -> list[str]:
    """Writes the page, if each closure keeps to its bound."""
    text, found = written(root, repository)
    if not found and (not (root / PAGE).exists() or (root / PAGE).read_text("utf-8") != text):
        (root / PAGE).write_text(text, encoding="utf-8")
        print(f"wrote {PAGE}")
    return found


def tell(repository: Repository, options: argparse.Namespace) -> list[str]:
    """Prints the closure of a theorem."""
    function = theorems.function_named(repository, options.theorem)
    if options.clause and options.clause not in {it.name for it in function.clauses}:
        return [f"{options.theorem} has no clause {options.clause}"]
    given = theorems.names_at(repository, tuple(options.given))
    listed = next((it for it in theorems.read_page().theorems
                   if theorems.function_named(repository, it.name) == function), None)
    if listed:
        print(f"{listed.says}\n")
    for line in printed.explained(repository, function, options.clause, given):
        print(line)
    if listed:
        print(f"\nit rests on {pages.rests_on(options.root, function.crate)} {PAGE} has under "
              f"\"What all rest on\"\n\nwhat it does not say: {listed.limits}")
    return []


def command_line() -> argparse.Namespace:
    """The options."""
    parser = argparse.ArgumentParser(
        description=__doc__, formatter_class=argparse.RawDescriptionHelpFormatter)
    parser.add_argument("theorem", nargs="?", help="a public function with a contract")
    parser.add_argument("clause", nargs="?", default="", help="one of its clauses")
    parser.add_argument("--all", action="store_true", help="print all theorems")
    parser.add_argument("--check", action="store_true", help="compare, and write nothing")
    parser.add_argument("--given", action="append", default=[], metavar="NAME",
                        help="a definition that is not followed")
    parser.add_argument("--record", type=pathlib.Path, metavar="LOG", help="take in verdicts")
    parser.add_argument("--root", type=pathlib.Path, default=HERE, help="the repository")
    return parser.parse_args()


def main() -> int:
    """The command line."""
    options = command_line()
    try:
        if options.record:
            verdicts.record(options.record, pages.read_crates(options.root))
            return 0
        repository = Repository.read(options.root)
        if options.theorem:
            found = tell(repository, options)
        elif options.all:
            print(pages.written_text(options.root, repository, theorems.read_page()), end="")
            found = []
        else:
            found = (check if options.check else write)(options.root, repository)
    except (ReadError, OSError) as error:
        found = [str(error)]
    return findings.status_of(found)


if __name__ == "__main__":
    sys.exit(main())
