"""Fixtures of all tests: the built programs, and a folder that the workers of one run share."""

import os
import pathlib
import subprocess
import sys
from collections.abc import Iterator
from types import ModuleType

import pytest

from tests.support import debian, places
from tests.support.acts import EVERY_IMAGE
from tests.support.explained import ImageActs, run_acts
from tests.support.library import shared_object


def built(name: str) -> pathlib.Path:
    """A built program; no test passes where it is missing."""
    path = places.program(name)
    if not path.exists():
        pytest.fail(f"{path} is not there: tests/run.sh proves and builds it")
    return path


@pytest.fixture(scope="session")
def host() -> pathlib.Path:
    """The program mte_host."""
    return built("mte_host")


@pytest.fixture(scope="session")
def alone() -> pathlib.Path:
    """The program mte_run."""
    return built("mte_run")


@pytest.fixture(scope="session")
def shared(tmp_path_factory: pytest.TempPathFactory) -> pathlib.Path:
    """A folder that all workers of this run share."""
    base = tmp_path_factory.getbasetemp()
    folder = (base.parent if base.name.startswith("popen-") else base) / "shared"
    folder.mkdir(exist_ok=True)
    return folder


@pytest.fixture
def split(shared: pathlib.Path, monkeypatch: pytest.MonkeyPatch) -> pathlib.Path:
    """The script mte_split, over the library."""
    monkeypatch.setenv("TOMBOLOPAN", str(shared_object(shared)))
    return places.EXAMPLES / "many" / "mte_split"


@pytest.fixture
def to_pack(host: pathlib.Path, alone: pathlib.Path, shared: pathlib.Path) -> pathlib.Path:
    """A folder with what is packed, after it was installed."""
    assert host.exists() and alone.exists()
    return debian.to_pack(shared)


@pytest.fixture(scope="module", params=EVERY_IMAGE, ids="-".join)
def acts(
    request: pytest.FixtureRequest, alone: pathlib.Path, tmp_path_factory: pytest.TempPathFactory
) -> ImageActs:
    """Runs of all acts of an image; the tests of an image follow one another."""
    source, build = request.param
    return run_acts(alone, source, build, tmp_path_factory.mktemp("acts"))


def imported(name: str) -> Iterator[str]:
    """The modules of tests that one names."""
    for it in vars(sys.modules[name]).values():
        found = it.__name__ if isinstance(it, ModuleType) else getattr(it, "__module__", None) or ""
        if found.startswith("tests.") and found in sys.modules:
            yield found


def needs_library(name: str) -> bool:
    """Whether a module of tests needs the library for C: it names it, or one that it names does."""
    seen, waiting = {name}, [name]
    while waiting:
        for it in imported(waiting.pop()):
            if it not in seen:
                seen.add(it)
                waiting.append(it)
    return "tests.support.library" in seen


def place(item: pytest.Item, slow: set[str]) -> int:
    """The page is made first, by one worker, and programs with compiled blocks. Cases that need the
    library come after the others, and those that open the page last: all take minutes to make."""
    if item.name == "test_the_page_is_made" or module_of(item) == "tests.test_translate":
        return 0
    if "whole" in getattr(item, "fixturenames", ()):
        return 3
    return 2 if module_of(item) in slow else 1


def module_of(item: pytest.Item) -> str:
    """The module of a case."""
    assert isinstance(item, pytest.Function)
    return str(item.module.__name__)


def pytest_collection_modifyitems(items: list[pytest.Item]) -> None:
    """The order of the cases."""
    slow = {it for it in {module_of(item) for item in items} if needs_library(it)}
    items.sort(key=lambda it: place(it, slow))


@pytest.fixture(scope="session", autouse=True)
def library_begun(request: pytest.FixtureRequest, shared: pathlib.Path) -> None:
    """Where all cases are run, one worker has the library made beside its cases."""
    modules = {module_of(it) for it in request.session.items}
    is_all = any(map(needs_library, modules)) and not all(map(needs_library, modules))
    if is_all and os.environ.get("PYTEST_XDIST_WORKER") == "gw1":
        code = ("import pathlib, sys; from tests.support.library import static_library; "
                "static_library(pathlib.Path(sys.argv[1]))")
        subprocess.Popen([sys.executable, "-c", code, shared], cwd=places.ROOT)
