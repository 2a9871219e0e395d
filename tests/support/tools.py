"""Tools of the system that a test needs."""

import shutil

import pytest

from tests.support.places import ROOT
from tests.support.running import succeed


def need(*names: str) -> None:
    """Skips the test where a tool is missing, with its name."""
    missing = [name for name in names if shutil.which(name) is None]
    if missing:
        give_up(f"missing: {' '.join(missing)} (tests/packages.txt has the Debian packages)")


def give_up(why: str) -> None:
    """Skips a test that cannot run here, and says why. It may be asked while pytest collects the
    cases of a file, which are skipped together."""
    pytest.skip(why, allow_module_level=True)


def git(*words: str) -> str:
    """What git says of the checkout that the tests are in."""
    need("git")
    if not (ROOT / ".git").exists():
        give_up(f"{ROOT} is no checkout of git")
    return succeed(["git", *words], cwd=ROOT).output
