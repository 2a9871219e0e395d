"""The version of what is packed, and its date."""

import os
import pathlib
import subprocess
import sys
from dataclasses import dataclass
from datetime import datetime, timezone
from email.utils import format_datetime

ROOT = pathlib.Path(__file__).resolve().parent.parent.parent
UNPROVED = "~unproved"


def read_version() -> str:
    """The version of this tree."""
    return (ROOT / "VERSION").read_text(encoding="utf-8").strip()


def git(*words: str) -> str:
    """What git answers of the checkout."""
    try:
        ran = subprocess.run(["git", "-C", ROOT, *words], stdout=subprocess.PIPE, text=True,
                             check=True)
    except FileNotFoundError:
        sys.exit("git is not installed")
    return ran.stdout.strip()


def is_tagged(version: str) -> bool:
    """Whether the commit has the tag of the version."""
    return f"v{version}" in git("tag", "--points-at", "HEAD").splitlines()


def is_changed() -> bool:
    """Whether a file differs from the commit's."""
    words = ["git", "-C", str(ROOT), "diff", "--quiet", "HEAD"]
    return subprocess.run(words, check=False).returncode != 0


@dataclass(frozen=True)
class Release:
    """A version as Debian writes it, and seconds since 1970 by which all files are dated."""

    version: str
    seconds: int

    @property
    def moment(self) -> datetime:
        """The date as a value."""
        return datetime.fromtimestamp(self.seconds, timezone.utc)

    @property
    def least(self) -> str:
        """The version that these sources have on a machine where they are built without proof."""
        return self.version.removesuffix(UNPROVED) + UNPROVED

    @property
    def mail_date(self) -> str:
        """The date as a changelog has it."""
        return format_datetime(self.moment)


def find_release(is_unproved: bool) -> Release:
    """The release of this checkout. Before the commit with the version's tag the version sorts
    below it, and names the commit; so does what is built without proof."""
    version = read_version()
    seconds = int(os.environ.get("SOURCE_DATE_EPOCH") or git("log", "-1", "--format=%ct"))
    is_release = is_tagged(version) and not is_changed()
    if not is_release:
        day = datetime.fromtimestamp(seconds, timezone.utc).strftime("%Y%m%d")
        commit = git("rev-parse", "--short=10", "HEAD")
        version += f"~{day}.{commit}{'.changed' if is_changed() else ''}"
    return Release(version + (UNPROVED if is_unproved else ""), seconds)
