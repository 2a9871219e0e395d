#!/usr/bin/env python3
"""Fetches the source of Debian's packages, as this machine's release has it.

    debian_source.py FOLDER PACKAGE [PART...]

Makes FOLDER/PACKAGE of the package's archive, its top folder left out, or adds the PARTs of it
that it lacks (files or folders), and does nothing where they are there. The archive comes by
apt-get from where apt's own configuration says, with its signatures checked, and stays in FOLDER.
Nothing is installed, and the system's own lists of packages stay as they are. Exit status 1: it was
not fetched, and standard error says why. Needed (Debian): apt, tar, bzip2, xz-utils.
"""
import pathlib
import platform
import re
import shutil
import subprocess
import sys
import tempfile
from collections.abc import Sequence
from typing import Union

import command_line

SECONDS = 900


class NotFetched(Exception):
    """A package's source was not fetched, with the reason."""


def address() -> str:
    """Address, release and component of the release's own archive, in apt's configuration."""
    release = platform.freedesktop_os_release().get("VERSION_CODENAME", "")
    form = ["--format", "$(SITE) $(RELEASE) $(COMPONENT)", "Created-By: Packages"]
    try:
        listed = subprocess.run(["apt-get", "indextargets", *form], stdout=subprocess.PIPE,
                                text=True, check=True)
    except (OSError, subprocess.CalledProcessError) as error:
        raise NotFetched(f"apt-get tells no archive: {error}") from error
    for line in listed.stdout.splitlines():
        if release and line.split()[1:] == [release, "main"]:
            return line
    raise NotFetched("apt's configuration has no archive of this release")


def archives_of(folder: pathlib.Path, package: str) -> list[pathlib.Path]:
    """The archives of a package that a folder has."""
    return [path for path in folder.glob(f"{package}_*.tar.*")
            if re.fullmatch(r"[^_]*_(?:[^-]*|.*\.orig)\.tar\.[^.]+", path.name)]


def download(folder: pathlib.Path, package: str) -> pathlib.Path:
    """The archive of a package, in `folder`."""
    for name in ("lists/partial", "cache/archives/partial"):
        (folder / name).mkdir(parents=True, exist_ok=True)
    (folder / "sources.list").write_text(f"deb-src {address()}\n")
    apt = [
        "apt-get", "-qq", "-o", f"Dir::Etc::sourcelist={folder}/sources.list",
        "-o", "Dir::Etc::sourceparts=-", "-o", f"Dir::State::lists={folder}/lists",
        "-o", f"Dir::Cache={folder}/cache", "-o", "APT::Sandbox::User=",
        "-o", "Acquire::http::Timeout=30",
    ]
    words = ["source", "--download-only", "--tar-only", package]
    if not any((folder / "lists").glob("*_Sources*")):
        subprocess.run([*apt, "update"], cwd=folder, stdout=sys.stderr, check=True, timeout=SECONDS)
    subprocess.run([*apt, *words], cwd=folder, stdout=sys.stderr, check=True, timeout=SECONDS)
    archives = archives_of(folder, package)
    if len(archives) != 1:
        raise NotFetched(f"{folder} has {len(archives)} archives of {package}, not one")
    return archives[0]


def download_once(where: Union[str, pathlib.Path], package: str) -> pathlib.Path:
    """The archive of a package, in a folder that keeps it; raises NotFetched."""
    folder = pathlib.Path(where).resolve()
    kept = archives_of(folder, package)
    try:
        return kept[0] if kept else download(folder, package)
    except (OSError, subprocess.CalledProcessError, subprocess.TimeoutExpired) as error:
        why = f"{package} was not fetched (apt-get needs the network): {error}"
        raise NotFetched(why) from error


def fetch(where: Union[str, pathlib.Path], package: str,
          parts: Sequence[str] = ()) -> pathlib.Path:
    """The folder of a package's source, or of these parts of it; raises NotFetched."""
    folder = pathlib.Path(where).resolve()
    source = folder / package
    missing = [part for part in parts if not (source / part).exists()]
    if source.is_dir() and not missing:
        return source
    try:
        folder.mkdir(parents=True, exist_ok=True)
        archive = download_once(folder, package)
        with tempfile.TemporaryDirectory(dir=folder) as name:
            unpack = ["tar", "-xf", str(archive), "-C", name, "--strip-components=1",
                      "--wildcards", *(f"*/{part}" for part in missing)]
            subprocess.run(unpack, check=True)
            for part in missing:
                (source / part).parent.mkdir(parents=True, exist_ok=True)
                shutil.move(pathlib.Path(name) / part, source / part)
            if not parts:
                shutil.copytree(name, source, symlinks=True)
    except (OSError, subprocess.CalledProcessError, subprocess.TimeoutExpired) as error:
        why = f"{package} was not fetched (apt-get needs the network): {error}"
        raise NotFetched(why) from error
    return source


def main() -> None:
    folder, package, *parts = command_line.read_words(__doc__, 2)
    try:
        fetch(folder, package, parts)
    except NotFetched as error:
        sys.exit(f"debian_source.py: {error}")


if __name__ == "__main__":
    main()
