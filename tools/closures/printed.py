"""A closure as text on a terminal."""

from collections.abc import Iterator

from closures.closures import Repository, closure_of, start_of
from closures.names import Name
from closures.order import Reading, reading_of, skipped
from closures.sources import Function


def numbers(reading: Reading) -> str:
    """The numbers of a closure."""
    types, constants = reading.types(), reading.constants()
    return (f"{reading.definitions} definitions, {reading.lines} lines (and {reading.comments} of "
            f"comment), {len(reading.files)} files, {reading.crates} crates; {len(types)} types of "
            f"{sum(it.lines for it in types)} lines; {len(constants)} constants; "
            f"{sum(len(it) for it in reading.words.values())} words of the kit")


def files(repository: Repository, reading: Reading) -> Iterator[str]:
    """The files, each with the definitions to read and those to skip."""
    lengths = {it.path: it.length for it in repository.modules.values()}
    for path, found in reading.files.items():
        yield ""
        yield f"{path}: {sum(it.lines for it in found)} of {lengths[path]} lines"
        yield from (f"  {it.start:4} {it.name.name}" for it in found)
        left = list(skipped(repository, path, found))
        if left:
            yield f"  skip {', '.join(left)}"


def explained(repository: Repository, function: Function, clause: str,
              given: frozenset[Name]) -> Iterator[str]:
    """What a contract reaches, in the order in which it is read."""
    names = closure_of(repository, start_of(repository, function, clause), given)
    reading = reading_of(repository, names)
    yield f"{function.called} ({function.path}:{function.line})"
    for it in function.clauses:
        if not clause or it.name == clause or it.word.startswith("requires"):
            yield f"  {it.word} {it.name}".rstrip() + f" {{ {' '.join(it.term.split())} }}"
    yield numbers(reading)
    yield from files(repository, reading)
    if given:
        yield ""
        yield f"given, not followed: {', '.join(sorted(it.name for it in given & names))}"
    yield ""
    yield "types and constants of the code:"
    for item in reading.items:
        model = " (read as its model's value)" if item.has_model else ""
        yield f"  {item.path}:{item.start} {item.name.name}{model}"
    yield ""
    yield "words of the kit:"
    for module, found in reading.words.items():
        yield f"  {module}: {' '.join(found)}"
    yield ""
    yield ("may be skipped: all that is not named here; what is in specs/Inner, proofs/ and "
           "must-fail/; and each body")
