"""Strategies of a hostile program on the library's heap, compared with theory; docs/ATTACKS.md."""

import math
import pathlib
import re
import resource
import sys

import pytest

from tests.support.library import shared_object
from tests.support.pages import named_code, read_page
from tests.support.places import EXAMPLES
from tests.support.running import Ran, run

ALLOC = EXAMPLES / "alloc"
PAGE = "docs/ATTACKS.md"
# The seeds of the table, the standard errors that a number may be off, seconds of a processor.
SEEDS, ERRORS, SECONDS = 400, 3, 20
LAWS = ("chunks_are_guarded", "odd_distances_differ", "freed_chunks_are_refused")


def attack(shared: pathlib.Path, *words: str, script: pathlib.Path = ALLOC / "attacks.py") -> Ran:
    """A run of the script."""
    return run([sys.executable, script, *words], extra={"TOMBOLOPAN": str(shared_object(shared))})


def written(script: str) -> str:
    """The table that a script wrote."""
    table = re.search(rf"{script}: -->\n\n(.*?)\n<!-- to here", read_page(PAGE), re.S)
    assert table
    return table[1]


def rows_of(table: str) -> dict[str, list[str]]:
    """The cells of each row of a table, by the first."""
    rows = [[it.strip() for it in line.strip("|").split("|")] for line in table.splitlines()[2:]]
    return {row[0]: row[1:] for row in rows}


def numbers_of(cell: str) -> tuple[int, int]:
    """How often a strategy succeeds, and how often it should."""
    found = re.fullmatch(r"(\d+) \((\d+)(?:±\d+)?\)", cell)
    assert found, cell
    return int(found[1]), int(found[2])


def processor_time() -> float:
    """The seconds of a processor that the programs took that have ended."""
    used = resource.getrusage(resource.RUSAGE_CHILDREN)
    return used.ru_utime + used.ru_stime


def test_the_page_has_the_table(shared: pathlib.Path) -> None:
    """It is what the script writes; each number is near theory, and 0 on the heap by a law."""
    shared_object(shared)
    before = processor_time()
    ran = attack(shared)
    assert processor_time() - before < SECONDS
    assert (ran.status, ran.errors, ran.output) == (0, "", written("attacks.py"))
    rows = rows_of(ran.output)
    for text, cells in rows.items():
        for found, expected in map(numbers_of, cells[:-1]):
            error = math.sqrt(expected * (SEEDS - expected) / SEEDS)
            assert abs(found - expected) <= (ERRORS * error + 1 if error else 0), text
    by_law = {it[-1].strip("`"): it[0] for it in rows.values() if it[-1].startswith("`")}
    assert by_law == dict.fromkeys(LAWS, "0 (0)")
    assert all(f"`{it}`" in read_page("docs/PROVED.md") for it in LAWS)


def test_theory_and_counts() -> None:
    """Where at most four tags are drawn, all states of the generator have each four offsets once:
    theory is what is counted over them."""
    attacks, margins = rows_of(written("attacks.py")), rows_of(written("margins.py"))
    for text, mistake, half in (
        ("the chunk 2 blocks away", "a live chunk 2 blocks away", 0),
        ("a freed chunk, its block taken once", "a freed chunk whose block was taken once", 1),
    ):
        counted = SEEDS * (1 - float(margins[mistake][half]))
        assert abs(numbers_of(attacks[text][0])[1] - counted) <= 0.55, text


def test_the_sentence_of_the_readme() -> None:
    """Of 16 chunks two have one tag in every seed."""
    said = "has two chunks of one tag among 16 in every seed"
    assert said in re.sub(r"\s+", " ", read_page("README.md"))
    assert rows_of(written("attacks.py"))["another of 16 chunks"][0] == f"{SEEDS} ({SEEDS})"


@pytest.mark.parametrize("file, right, wrong, said", [
    ("tag_model.py", "self.seed >> 5", "self.seed >> 4", "the model is not the heap under the"),
    ("tag_theory.py", "return rest(states)", "return 0.4", "another of 8 chunks: "),
])
def test_a_difference_is_reported(
    shared: pathlib.Path, tmp_path: pathlib.Path, file: str, right: str, wrong: str, said: str
) -> None:
    """A model that is not the heap, and a theory that is not met."""
    folder = tmp_path / "examples" / "alloc"
    folder.mkdir(parents=True)
    for name in ("embed", "page_part.py", "command_line.py"):
        (tmp_path / "examples" / name).symlink_to(EXAMPLES / name)
    for path in [ALLOC / "attacks.py", *ALLOC.glob("tag_*.py")]:
        (folder / path.name).write_text(path.read_text(encoding="utf-8"), encoding="utf-8")
    text = (folder / file).read_text(encoding="utf-8")
    assert right in text
    (folder / file).write_text(text.replace(right, wrong), encoding="utf-8")
    ran = attack(shared, "--seeds", "20", script=folder / "attacks.py")
    assert ran.status == 1 and f"attacks.py: {said}" in ran.errors, ran.errors


def test_a_strategy_of_ones_own(shared: pathlib.Path, tmp_path: pathlib.Path) -> None:
    """The program of the page writes a row without theory."""
    path = tmp_path / "mine.py"
    path.write_text(named_code(PAGE, "mine.py").replace("seeds=400", "seeds=50"))
    ran = run([sys.executable, path], extra={"TOMBOLOPAN": str(shared_object(shared)),
                                             "PYTHONPATH": str(ALLOC)})
    row = re.fullmatch(r"\| a chunk, by a guess \| (\d+) \| (\d+) \| (\d+) \|  \|\n", ran.output)
    assert ran.status == 0 and row, ran.output + ran.errors
    assert all(0 < int(it) < 50 for it in row.groups())


def test_wrong_words(shared: pathlib.Path) -> None:
    """Status 2 and a line."""
    for words in (["--seeds", "0"], ["--seeds", "5", "--write"]):
        ran = attack(shared, *words)
        assert ran.status == 2 and "--seeds is at least 1" in ran.errors
