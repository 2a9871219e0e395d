"""The files of the repository, and a copy of them in which commands may write."""

import functools
import os
import pathlib
import shutil

from tests.support.places import ROOT
from tests.support.running import succeed
from tests.support.tools import git


@functools.cache
def tracked_files() -> tuple[str, ...]:
    """The files that a checkout has: those that git knows, and new ones that it does not ignore."""
    listed = git("ls-files", "-z", "--cached", "--others", "--exclude-standard")
    names = set(listed.split("\0")) - {""}
    return tuple(sorted(name for name in names if (ROOT / name).is_file()))


def copy_files(target: pathlib.Path, *folders: str) -> pathlib.Path:
    """Copies the files of a checkout, all or those of some folders; nothing that was built."""
    for name in tracked_files():
        if not folders or name.startswith(folders):
            (target / name).parent.mkdir(parents=True, exist_ok=True)
            shutil.copy2(ROOT / name, target / name)
    return target


def commit_all(folder: pathlib.Path) -> str:
    """Makes a repository of a folder with one commit, always of the same day; its name."""
    day = "2026-11-11T11:11:11Z"
    extra = {"GIT_AUTHOR_DATE": day, "GIT_COMMITTER_DATE": day, "GIT_CONFIG_GLOBAL": "/dev/null"}
    who = ["-c", "user.name=Nobody", "-c", "user.email=nobody@example.org"]
    for words in (["init", "--quiet"], ["add", "--all"], [*who, "commit", "--quiet", "-m", "All"]):
        succeed(["git", *words], cwd=folder, extra=extra)
    return succeed(["git", "rev-parse", "HEAD"], cwd=folder).output.strip()


def link_built(target: pathlib.Path, built: pathlib.Path) -> None:
    """Puts a built program, or the library, where the copy's crate would have it."""
    crate = built.name.removeprefix("lib").removesuffix(".a")
    place = target / "crates" / crate / "out" / built.name
    place.parent.mkdir(parents=True, exist_ok=True)
    place.symlink_to(built)


def make_stub(folder: pathlib.Path, name: str, text: str) -> dict[str, str]:
    """Puts a script first on the PATH, and gives the environment that finds it."""
    folder.mkdir(parents=True, exist_ok=True)
    (folder / name).write_text(f"#!/usr/bin/env bash\n{text}", encoding="utf-8")
    (folder / name).chmod(0o755)
    return {"PATH": f"{folder}{os.pathsep}{os.environ['PATH']}"}
