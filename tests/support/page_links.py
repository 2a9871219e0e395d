"""Finds what the pages name: links, headings, and paths of files."""

import fnmatch
import functools
import pathlib
import posixpath
import re
from collections.abc import Iterator

from tests.support.checkout import tracked_files
from tests.support.pages import all_parts, read_page
from tests.support.places import ROOT

LINK = re.compile(r"\]\(([^)\s]+)\)")
HEADING = re.compile(r"^#+ (.*)$", re.M)
# A heading that a page names: of another page, or of its own.
OTHER_HEADING = re.compile(r'(docs/(?:project/)?\w+\.md),? \(?"([^"]+)"')
OWN_HEADING = re.compile(r'\("([^"]+)", (?:below|above)\)')
PATH = re.compile(r"(?<![\w$./<{:-])(?:\.{0,2}/)?[\w.*-]+(?:/[\w.*-]+)+/?|`([\w*-]+\.\w+)`")
SUFFIXES = (".antt", ".c", ".edit", ".forms", ".h", ".md", ".py", ".rows", ".rs", ".rt", ".s",
            ".S", ".script", ".sh", ".svg", ".toml", ".txt")
# A word of capitals alone in a path is the reader's.
READERS = re.compile(r"(?:^|/)[A-Z][A-Z_]*(?=[./]|$)(?!\.md$)")
# Files of others that pages name.
FOREIGN = {**dict.fromkeys(("chunk.h", "combined.h", "local_cache.h", "primary64.h",
                            "secondary.h", "size_class_map.h"), "Scudo"),
           "THEOREMS.md": "a package, by tools/deb.sh"}
# The page of what changed names files as they were called then.
HISTORY = "CHANGELOG.md"


@functools.cache
def all_paths() -> frozenset[str]:
    """Each file of a checkout, and each folder."""
    files = tracked_files()
    folders = {str(it) for name in files for it in pathlib.PurePosixPath(name).parents}
    return frozenset([*files, *folders])


@functools.cache
def crates() -> frozenset[str]:
    """The names of the crates."""
    return frozenset(path.name for path in (ROOT / "crates").iterdir())


@functools.cache
def prose(page: str) -> str:
    """A page without its blocks."""
    text = re.sub(r"^```.*?^```$", "", read_page(page), flags=re.M | re.S)
    return re.sub(r"^    .*$", "", text, flags=re.M)


@functools.cache
def readers_files() -> frozenset[str]:
    """The files that are the reader's: a page shows them as code."""
    named = [re.match(r"`([\w.]+)`", part.before) for part in all_parts() if part.language]
    return frozenset(found[1] for found in named if found)


def slug(heading: str) -> str:
    """The anchor of a heading, as GitHub and GitLab make it."""
    kept = re.sub(r"[^\w\- ]", "", heading.lower())
    return kept.replace(" ", "-")


def headings(page: str) -> list[str]:
    """The headings of a page."""
    return HEADING.findall(prose(page))


def wrong_link(page: str, target: str) -> str:
    """What is wrong with the target of a link; empty where nothing is."""
    if re.match(r"https?:|mailto:", target):
        return ""
    path, _, anchor = target.partition("#")
    place = posixpath.normpath(posixpath.join(posixpath.dirname(page), path)) if path else page
    if place not in all_paths():
        return f"{page}: the link {target} leads to no file"
    if anchor and anchor not in map(slug, headings(place)):
        return f"{page}: the link {target} leads to no heading"
    return ""


def wrong_links(page: str) -> list[str]:
    """The links of a page that lead nowhere."""
    found = [wrong_link(page, target) for target in LINK.findall(prose(page))]
    return [it for it in found if it]


def named_headings(page: str) -> Iterator[tuple[str, str]]:
    """The headings that a page names in words, each with the page that should have it."""
    text = prose(page)
    yield from OTHER_HEADING.findall(text)
    yield from ((page, heading) for heading in OWN_HEADING.findall(text))


def wrong_headings(page: str) -> list[str]:
    """The headings that a page names and that are not there."""
    return [f"{page}: {other} has no heading {heading!r}" for other, heading in named_headings(page)
            if other not in all_paths() or heading not in headings(other)]


def is_there(page: str, path: str) -> bool:
    """Whether a path is there: from the top, from the page's folder, or below crates/."""
    for base in ("", posixpath.dirname(page), "crates"):
        name = posixpath.normpath(posixpath.join(base, path))
        if name in all_paths() or ("*" in name and fnmatch.filter(all_paths(), name)):
            return True
    return False


def means_file(page: str, path: str) -> bool:
    """Whether a word with a slash is the path of a file of the repository."""
    first = path.split("/")[0]
    is_ours = first in ("", ".", "..") or first in crates() or first in all_paths()
    is_ours = is_ours or re.match(r"\w+/(?:src|specs|proofs|must-fail)/", path) is not None
    return is_ours or (path.endswith(SUFFIXES) and is_there(page, first))


def named_paths(page: str) -> Iterator[str]:
    """The paths of files of the repository that a page names; not of what is built there."""
    for found in PATH.finditer(prose(page)):
        path = found[0].strip("`").rstrip(".")
        if READERS.search(path) or re.search(r"(^|/)out(/|$)", path):
            continue
        is_readers = path.startswith("./") and (page.startswith("docs/") or "/" not in page)
        if "/" in path and not path.startswith("/") and not is_readers and means_file(page, path):
            yield path


def named_files(page: str) -> Iterator[str]:
    """The files without a folder that a page names in backticks."""
    for found in PATH.finditer(prose(page)):
        name = found[1]
        if name and name.endswith(SUFFIXES) and not READERS.search(name):
            if name not in readers_files():
                yield name


def wrong_paths(page: str) -> list[str]:
    """The files that a page names and that are not there."""
    names = {path.rsplit("/", 1)[-1] for path in all_paths()}
    missing = [path for path in named_paths(page) if not is_there(page, path)]
    missing += [name for name in named_files(page)
                if name not in FOREIGN and not fnmatch.filter(names, name)]
    return [f"{page}: {path} is not there" for path in dict.fromkeys(missing)]
