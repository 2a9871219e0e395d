"""What a reader of the sources may count on: nothing unused, types that fit, sound shell scripts,
and lines that fit a screen.

A file that a tool of this repository writes says so in its first line (`Do not edit`), and is left
out; so is what stands in proofs/, which the prover reads, and in tests/expected. A function of
Rattle with `#[rattlefmt::skip]` is a table, and an import is one line, whatever its length.
"""

import ast
import functools
import pathlib
import re
import sys
from collections.abc import Iterator

from tests.support.checkout import tracked_files
from tests.support.places import ROOT, TESTS
from tests.support.running import Ran, run
from tests.support.tools import need

WIDTH = 100
LONGEST_FILE = 800
LONGEST_FUNCTION = 45
SUFFIXES = (".antt", ".c", ".cpp", ".h", ".py", ".rs", ".rt", ".S", ".s", ".sh")
LEFT_OUT = re.compile(r"(^|/)proofs/|^tests/expected/")


def read(name: str) -> str:
    """The text of a file."""
    return (ROOT / name).read_text(encoding="utf-8")


@functools.cache
def interpreter(name: str) -> str:
    """What runs a script, by its first line; empty where it is none."""
    with open(ROOT / name, "rb") as file:
        first = file.readline(200)
    found = re.match(rb"#!(?:/usr/bin/env )?(?:\S*/)?(\w+)", first)
    return found[1].decode() if found else ""


def is_generated(name: str) -> bool:
    """Whether a tool of this repository writes the file."""
    return "Do not edit" in read(name).split("\n", 1)[0]


def python_files() -> list[str]:
    """Every Python file."""
    return [name for name in tracked_files()
            if name.endswith(".py") or interpreter(name).startswith("python")]


def shell_files() -> list[str]:
    """Every shell script."""
    return [name for name in tracked_files()
            if name.endswith(".sh") or interpreter(name) in ("bash", "sh")]


def hand_written() -> list[str]:
    """Every source file that is written by hand."""
    scripts = {*python_files(), *shell_files()}
    return [name for name in tracked_files()
            if (name.endswith(SUFFIXES) or name in scripts) and not LEFT_OUT.search(name)
            and not is_generated(name)]


def without_tables(text: str) -> str:
    """A file of Rattle without the functions that are tables, and without imports."""
    text = re.sub(r"^#\[rattlefmt::skip\]\n(?:.+\n|\n(?= ))*", lambda it: "\n" * it[0].count("\n"),
                  text, flags=re.M)
    return re.sub(r"^\s*(?:ghost )?(?:pub )?use .*$", "", text, flags=re.M)


def test_lines() -> None:
    """Lines that are written by hand have at most 100 columns."""
    files = hand_written()
    assert len(files) > 500
    wide = []
    for name in files:
        text = without_tables(read(name)) if name.endswith((".rt", ".antt")) else read(name)
        wide += [f"{name}:{number}: {len(line)} columns"
                 for number, line in enumerate(text.split("\n"), 1) if len(line) > WIDTH]
    assert not wide, f"{len(wide)} wide lines\n" + "\n".join(wide[:60])


def test_lengths_of_files() -> None:
    """A file of tests or tools has at most 800 lines."""
    lengths = {name: read(name).count("\n") for name in python_files()
               if name.startswith(("tests/", "tools/"))}
    assert not {name: length for name, length in lengths.items() if length > LONGEST_FILE}


def functions(name: str) -> Iterator[tuple[str, int]]:
    """The functions of a Python file, each with its number of lines."""
    for node in ast.walk(ast.parse(read(name))):
        if isinstance(node, ast.FunctionDef) and node.end_lineno is not None:
            yield f"{name}: {node.name}", node.end_lineno - node.lineno + 1


def test_lengths_of_functions() -> None:
    """A function of tests or tools has some 40 lines at most."""
    found = [it for name in python_files() if name.startswith(("tests/", "tools/"))
             for it in functions(name)]
    assert not [it for it in found if it[1] > LONGEST_FUNCTION]


def test_white_space() -> None:
    """No line of Python, of the shell or of C ends with a blank, and each file ends with a line
    feed. (`rt fmt` sees to those of Rattle.)"""
    files = [name for name in hand_written() if not name.endswith((".rt", ".antt"))]
    wrong = [name for name in files if re.search(r"[ \t\r]$|[^\n]\Z", read(name), re.M)]
    assert not wrong, "\n".join(wrong)


def test_python() -> None:
    """pyflakes has nothing to say of any Python file."""
    need("pyflakes3")
    files = python_files()
    assert len(files) > 40
    ran = run(["pyflakes3", *files], cwd=ROOT)
    assert ran == Ran(0, b"", b""), ran.output


def test_types(shared: pathlib.Path) -> None:
    """mypy accepts what pyproject.toml names, whose functions have types."""
    need("mypy")
    ran = run(["mypy", "--cache-dir", shared / "mypy"], cwd=ROOT)
    assert ran.status == 0, ran.output + ran.errors


def test_scripts_are_read() -> None:
    """bash reads every shell script."""
    files = shell_files()
    assert len(files) >= 8
    told = [run(["bash", "-n", name], cwd=ROOT) for name in files]
    assert [ran.errors for ran in told if ran.status] == []


def test_scripts() -> None:
    """shellcheck has nothing to say of any shell script."""
    need("shellcheck")
    ran = run(["shellcheck", "--format=gcc", *shell_files()], cwd=ROOT)
    assert ran.output == "" and ran.status == 0


def test_scripts_may_be_run() -> None:
    """A file that begins as a script may be executed, and no other source file may."""
    wrong = []
    for name in [*python_files(), *shell_files()]:
        is_executable = bool((ROOT / name).stat().st_mode & 0o111)
        if is_executable != bool(interpreter(name)):
            wrong.append(name)
    assert not wrong, "\n".join(wrong)


def test_python_is_compiled() -> None:
    """The oldest Python that is asked for, 3.11 of Debian 12, reads every Python file."""
    command = "import sys; [compile(open(name).read(), name, 'exec') for name in sys.argv[1:]]"
    ran = run([sys.executable, "-c", command, *python_files()], cwd=ROOT)
    assert ran == Ran(0, b"", b"")


def test_packages() -> None:
    """The list of packages has a comment for each, each once, in order, and names of Debian's."""
    lines = (TESTS / "packages.txt").read_text(encoding="utf-8").splitlines()
    listed = [line for line in lines if not line.startswith("#")]
    found = [re.fullmatch(r"([a-z0-9][a-z0-9+.-]+) +# (\S.*)", line) for line in listed]
    assert all(found), [line for line, it in zip(listed, found) if it is None]
    names = [it[1] for it in found if it]
    assert names == sorted(set(names))
