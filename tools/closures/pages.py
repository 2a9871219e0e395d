"""docs/BELIEVE.md and the text of all theorems, as the closures and theorems.toml have it."""

import pathlib
from collections.abc import Iterable, Iterator

from closures import verdicts
from closures.closures import Repository, closure_of
from closures.names import Name
from closures.order import Reading, reading_of
from closures.sources import Function
from closures.theorems import Given, Page, Theorem, closure_of_theorem, function_named, names_at

MARK = """\
<!-- Written by tools/believe.py from the definitions and tools/closures/. Do not edit. -->
"""
HEAD = """\
# What to believe

For an auditor: for each theorem of the README, and for more laws of the heap, what must be read \
to know what it says. Nothing that is not listed has to be read: no body, nothing in `proofs/`, \
`must-fail/` and `specs/Inner`.

- `tools/believe.py THEOREM` prints the definitions in the order in which they are read, with line \
numbers, and what each file has that may be skipped. It also says what the theorem rests on beside \
its proof, and what it does not say.
- `tools/believe.py CALL` does so for any other call with a contract, as `mte_tenant::slice`.
- `tools/believe.py --all` prints all theorems as one page. Debian's package of the pages has it \
as `THEOREMS.md`.

A definition is **reached** by a theorem if a clause names it, or a definition, a type or a \
constant that is reached does. Files are in the order in which they are read, each before those \
that it builds on. Lines are those of the definitions, without comments and blank lines. Of a type \
with a model the model's value is followed, and not its fields.
"""
# Libraries of the kit that are parts of the standard library.
OF_STD = {"core", "std_alloc"}
COLUMNS = ["Definitions", "Lines", "Files", "Crates", "Types (lines)", "Constants",
           "Words of the kit", "As given", "Definitions left", "Lines left"]


def table(head: list[str], rows: list[list[str]]) -> Iterator[str]:
    """A table of Markdown."""
    yield f"| {' | '.join(head)} |"
    yield f"|{'---|' * len(head)}"
    yield from (f"| {' | '.join(row)} |" for row in rows)


def numbers(reading: Reading) -> list[str]:
    """The numbers of a closure, as cells."""
    types = reading.types()
    return [str(it) for it in (
        reading.definitions, reading.lines, len(reading.files), reading.crates,
        f"{len(types)} ({sum(it.lines for it in types)})", len(reading.constants()),
        sum(len(it) for it in reading.words.values()))]


def summary_row(repository: Repository, page: Page, theorem: Theorem, clause: str) -> list[str]:
    """The numbers of the closure of a theorem or of one of its clauses, and what is left of it with
    a part as given."""
    names = closure_of_theorem(repository, page, theorem, clause, "")
    given = next((it.given for it in theorem.bounds if it.clause == clause and it.given), "")
    left = reading_of(repository, closure_of_theorem(repository, page, theorem, clause, given))
    return [f".. clause `{clause}`" if clause else f"`{theorem.name}`",
            *numbers(reading_of(repository, names)),
            *([given, str(left.definitions), str(left.lines)] if given else ["", "", ""])]


def summary(repository: Repository, page: Page) -> Iterator[str]:
    """What the parts are that are taken as given, and the numbers of all closures."""
    parts = "; ".join(f"{name}, *{it.title}*" for name, it in page.given.items())
    yield f"The last columns take a part *as given*, which `--all` prints by itself: {parts}."
    yield ""
    rows = [summary_row(repository, page, theorem, clause) for theorem in page.theorems
            for clause in dict.fromkeys(["", *(it.clause for it in theorem.bounds)])]
    yield from table(["Theorem", *COLUMNS], rows)


def file_rows(repository: Repository, reading: Reading, has_names: bool) -> Iterator[str]:
    """The files of a closure, with the names of its definitions if they are wanted."""
    lengths = {it.path: it.length for it in repository.modules.values()}
    rows = []
    for path, found in reading.files.items():
        names = " ".join(f"`{it.name.name}`" for it in found)
        row = [f"`{path.removeprefix('crates/')}`", str(len(found)),
               f"{sum(it.lines for it in found)} of {lengths[path]}"]
        rows.append([*row, names] if has_names else row)
    head = ["File", "Definitions", "Lines", *(["Which"] if has_names else [])]
    yield from table(head, rows)


def items_of(reading: Reading) -> Iterator[str]:
    """The types and constants of a closure, by crate, and the words of the kit."""
    for what, items in (("Types", reading.types()), ("Constants", reading.constants())):
        by_crate: dict[str, list[str]] = {}
        for it in items:
            model = " (its model's value)" if it.has_model else ""
            by_crate.setdefault(it.name.crate, []).append(f"`{it.name.name}`{model}")
        if by_crate:
            yield ""
            yield f"{what} of the code: " + "; ".join(
                f"{crate} {', '.join(names)}" for crate, names in by_crate.items()) + "."
    yield ""
    yield "Words of the kit: " + "; ".join(
        f"`{module}`: " + " ".join(f"`{it}`" for it in names)
        for module, names in reading.words.items()) + "."


def kit_crates(crates: dict[str, list[str]], crate: str) -> list[str]:
    """The ported crates that a crate depends on, itself or by those below it."""
    seen: set[str] = set()
    left = [crate]
    while left:
        name = left.pop()
        if name not in seen:
            seen.add(name)
            left += crates.get(name, [])
    return sorted(seen - set(crates))


def read_crates(root: pathlib.Path) -> dict[str, list[str]]:
    """The crates of crates.txt, each with what it depends on."""
    found = {}
    for line in (root / "crates.txt").read_text(encoding="utf-8").splitlines():
        head, _, rest = line.partition("#")[0].partition(":")
        if head.strip():
            found[head.split()[0]] = rest.split()
    return found


def clauses_of(function: Function) -> Iterator[str]:
    """The clauses of a contract."""
    yield "```"
    for it in function.clauses:
        yield f"{it.word} {it.name}".rstrip() + f" {{ {' '.join(it.term.split())} }}"
    yield "```"


def given_names(names: Iterable[Name]) -> str:
    """The names of definitions, as a list in a sentence."""
    return ", ".join(f"`{it.name}`" for it in sorted(names, key=lambda it: it.name))


def left_of(repository: Repository, page: Page, theorem: Theorem, names: set[Name]) -> str:
    """What a theorem's part of the page takes as given, as the begin of a sentence."""
    if not theorem.given:
        return ""
    given = page.given[theorem.given]
    known = given_names(names_at(repository, given.names) & names)
    return f"With {known} as given, whose own closure is under *{given.title}*, it reaches "


def rests_on(root: pathlib.Path, crate: str) -> str:
    """What a theorem of a crate rests on, as a part of a sentence."""
    ported = ", ".join(f"`{it}`" for it in kit_crates(read_crates(root), crate))
    return (f"the proof of `{crate}` and of the crates below it, on the statements of the kit's "
            f"{ported}, and on what")


def section(root: pathlib.Path, repository: Repository, page: Page,
            theorem: Theorem) -> Iterator[str]:
    """A theorem's part of the text of all."""
    function = function_named(repository, theorem.name)
    names = closure_of_theorem(repository, page, theorem, "", theorem.given)
    reading = reading_of(repository, names)
    yield from (f"## `{theorem.name}`", "",
                f"{theorem.says} Its contract is in `{function.path}`:", "")
    yield from clauses_of(function)
    yield from ("", f"{left_of(repository, page, theorem, names)}{reading.definitions} definitions "
                f"of {reading.lines} lines:", "")
    yield from file_rows(repository, reading, True)
    yield from items_of(reading)
    yield ""
    yield f"**It rests on** {rests_on(root, function.crate)} is under *What all rest on*."
    yield from ("", f"**What it does not say.** {theorem.limits}", "")


def given_part(repository: Repository, given: Given) -> Iterator[str]:
    """The part on what is given."""
    start = names_at(repository, given.names)
    reading = reading_of(repository, closure_of(repository, start))
    yield from (f"## {given.title}", "")
    yield (f"{given.says}: {given_names(start)}, with all that they reach. {reading.definitions} "
           f"definitions of {reading.lines} lines:")
    yield ""
    yield from file_rows(repository, reading, False)
    yield ""


def written_part(repository: Repository, page: Page) -> Iterator[str]:
    """The part on files of definitions that a tool writes."""
    yield from ("## Definitions that a tool writes", "")
    for path, why in page.written.items():
        found = [f"`{it.name}`" for it in page.theorems
                 if path in reading_of(repository, closure_of_theorem(
                     repository, page, it, "", it.given)).files]
        where = f"is reached by {', '.join(found)}" if found else "is reached by the machine alone"
        yield f"- `{path}` {where}. {why}"
    yield ""


def trusted_words(root: pathlib.Path, page: Page) -> Iterator[str]:
    """What all theorems rest on, in words."""
    crates = read_crates(root)
    ported = sorted({it for below in crates.values() for it in below} - set(crates) - OF_STD)
    yield from ("## What all rest on", "", page.trusted, "")
    names = ", ".join(f"`{it}`" for it in ported)
    yield from (f"Ported crates of the kit that any crate depends on: {names}.", "")


def verdicts_part() -> Iterator[str]:
    """What the prover printed of the theorems' crates."""
    data = verdicts.read()
    yield from ("The last line of `rt verdict` for the theorems' crates and for the program:", "")
    yield from (f"- `{name}`: `{it['line']}`" for name, it in data["crate"].items())
    yield from ("", "How many modules of the kit's statements each loaded:", "")
    libraries = sorted({library for it in data["crate"].values() for library in it["statements"]})
    yield from table(["Crate", "Printed on", *libraries], [
        [f"`{name}`", it["date"], *(str(it["statements"].get(library, 0)) for library in libraries)]
        for name, it in data["crate"].items()])
    yield from ("", "The functions in C whose contracts a verdict rests on, as the prover's report "
                "counts them, with the first three of each library; `rt check --list-axioms` in "
                "the crate's folder prints them all. A law over definitions rests on none.", "")
    yield from (f"- `{name}`: `{line}`" for name, it in data["crate"].items()
                for line in it["axioms"])


def written_page(root: pathlib.Path, repository: Repository, page: Page) -> str:
    """The page: the numbers of all theorems, and what they rest on."""
    lines = [*summary(repository, page), "", *trusted_words(root, page)]
    return MARK + HEAD + "\n" + "\n".join(lines).rstrip("\n") + "\n"


def written_text(root: pathlib.Path, repository: Repository, page: Page) -> str:
    """The text of all theorems."""
    lines = [HEAD, *summary(repository, page), ""]
    for theorem in page.theorems:
        lines += section(root, repository, page, theorem)
    for given in page.given.values():
        lines += given_part(repository, given)
    lines += [*written_part(repository, page), *trusted_words(root, page), *verdicts_part()]
    return "\n".join(lines) + "\n"
