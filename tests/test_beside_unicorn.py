"""Our programs for those who come from Unicorn, beside twins by Unicorn's own package.

The rule: of our text, what a pattern of BEYOND finds is taken out, for Unicorn cannot know it; what
is left is the twin's text. Lines of code are counted without blank lines, comments and docstrings.
"""

import ast
import pathlib
import re

import pytest

from tests.support.embedding.built import EMBED, in_python
from tests.support.places import TESTS
from tests.support.running import Ran, run
from tests.support.tools import give_up, need

OURS = EMBED / "from_unicorn"
TWINS = TESTS / "unicorn"
NAMES = ["watch", "hooks", "services", "protect", "context"]
# Debian's package of Unicorn is one of this Python.
PYTHON = "/usr/bin/python3"
BEYOND = {
    # Texts of instructions; what a run says of its end, with the steps that are left.
    "hooks": r"(?<=^at 0x100..): (?!writes|reads).*| Stop\(.*\)$",
    "services": r", \d+ steps$",
}


def known_to_unicorn(name: str, text: str) -> str:
    """Our text without what Unicorn cannot know."""
    return re.sub(BEYOND[name], "", text, flags=re.M) if name in BEYOND else text


def code_lines(path: pathlib.Path) -> int:
    """How many lines of a program have code."""
    text = path.read_text(encoding="utf-8")
    told = [range(it.lineno, (it.end_lineno or it.lineno) + 1) for it in ast.walk(ast.parse(text))
            if isinstance(it, ast.Expr) and isinstance(it.value, ast.Constant)]
    return sum(line.strip()[:1] not in ("", "#") and not any(at in it for it in told)
               for at, line in enumerate(text.splitlines(), 1))


@pytest.mark.parametrize("name", NAMES)
def test_texts(shared: pathlib.Path, name: str) -> None:
    """Ours and its twin write the same text, but for what Unicorn cannot know."""
    need(PYTHON)
    if run([PYTHON, "-c", "import unicorn"]).status != 0:
        give_up("missing: python3-unicorn (tests/packages.txt has the Debian packages)")
    it = in_python(shared, OURS / f"{name}.py")
    ours = run(it.words, extra=it.extra)
    assert (ours.status, ours.errors) == (0, "")
    twin = run([PYTHON, "-B", TWINS / f"{name}.py"])
    assert twin == Ran(0, known_to_unicorn(name, ours.output).encode(), b"")


@pytest.mark.parametrize("name", NAMES)
def test_lengths(name: str) -> None:
    """Ours has at most as many lines of code as its twin."""
    assert 0 < code_lines(OURS / f"{name}.py") <= code_lines(TWINS / f"{name}.py")


def test_each_has_a_twin() -> None:
    """No program is left out."""
    assert sorted(it.stem for it in OURS.glob("*.py")) == sorted(NAMES)
