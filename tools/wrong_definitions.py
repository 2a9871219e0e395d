#!/usr/bin/env python3
"""Which law of the heap refuses a wrong definition of it.

    wrong_definitions.py [--keep FOLDER] [NAME..]    makes each mistake (all), checks the laws that
                                                     must refuse it, and prints which do
    wrong_definitions.py --every ..                  checks all laws of a state; one whose proof
                                                     rests on what was changed is refused too
    wrong_definitions.py --none                      checks all of them over what is there

A contract asks that code and definition agree; so a mistake in both, made alike, meets it. What is
left are the laws of the definitions. tools/wrong_definitions.toml has the mistakes.

The laws of a state are those of `mte_laws` that name no tenant. They are copied, with what their
statements and proofs need, and checked over `scudo_heap`, and the crates that an edit changes, as
sources. Their code is not proved anew. The libraries below have to be in crates/*/out, as
`rt ci mte_laws` leaves them.
"""
import argparse
import pathlib
import re
import shutil
import subprocess
import sys
import tempfile
import time
import tomllib
from collections.abc import Iterable
from typing import NamedTuple

from closures import pages
from static_library import ROOT, kit

DATA = ROOT / "tools/wrong_definitions.toml"
LAWS = "mte_laws"
KIT_CRATES = ("arrayvec", "byteorder", "circular_buffer", "hex", "itoa", "thiserror")
# The crates that the laws of a state are about, lowest first.
CRATES = ("common", "a64_bits", "mte_tags", "scudo_header", "scudo_primary",
          "scudo_secondary", "scudo_heap")
MODULE = re.compile(r"^use Rattle\.(\w+)\.((?:specs|proofs)[\w.]*?)(?:\.\{.*| as .*)?$", re.M)
GHOST = re.compile(r"^ghost use Rattle\.(\w+)\.([\w.]+)\.\{([^}]*)\};\n", re.M)
FUNCTION = re.compile(r"((?:^///.*\n)+)^pub fn (\w+)\(\)\n((?:.*\n)*?)\{\}\n", re.M)


class WrongDefinition(NamedTuple):
    """A mistake in definitions: what it shows, whether laws of sessions refuse it, the laws that
    must refuse it, the changes of files, and those of all proofs."""

    name: str
    shows: str
    of_sessions: bool
    laws: list[str]
    changes: list[list[str]]
    proofs: list[list[str]]

    def crates(self) -> set[str]:
        """The crates whose files it changes."""
        return {file.split("/")[1] for file, _, _ in self.changes}


def read_data() -> list[WrongDefinition]:
    """All wrong definitions."""
    data = tomllib.loads(DATA.read_text(encoding="utf-8"))
    return [WrongDefinition(name, it["shows"], it.get("sessions", False), it["laws"],
                            it["changes"], it.get("proofs", []))
            for name, it in data.items()]


# ---- the laws of a state

def modules_of(crate: pathlib.Path) -> dict[str, tuple[pathlib.Path, str]]:
    """The modules of specs and proofs, each with its file and its text."""
    found = {}
    for path in sorted((*crate.glob("specs/**/*.antt"), *crate.glob("proofs/**/*.antt"))):
        name = ".".join(path.relative_to(crate).with_suffix("").parts)
        found[name] = (path, path.read_text(encoding="utf-8"))
    return found


def without_tenants(modules: dict[str, tuple[pathlib.Path, str]]) -> set[str]:
    """The modules that name nothing of a tenant."""
    named = {name: MODULE.findall(text) for name, (_, text) in modules.items()}
    left = set(modules)
    while True:
        kept = {name for name in left if all(
            module in left or module not in modules if crate == LAWS
            else crate in CRATES or crate == "std" for crate, module in named[name])}
        if kept == left:
            return left
        left = kept


def copy_laws(source: pathlib.Path, out: pathlib.Path) -> list[str]:
    """Copies the laws of a state of a crate, and returns their names."""
    modules = modules_of(source)
    kept = without_tenants(modules)
    laws: dict[str, list[str]] = {}
    for path in sorted((source / "src").glob("*.rt")):
        text = path.read_text(encoding="utf-8")
        states = {name for crate, module, names in GHOST.findall(text) if module in kept
                  for name in re.findall(r"\w+", names)}
        parts = [it for it in FUNCTION.finditer(text)
                 if set(re.findall(r"\{ (\w+) \}", it[3])) <= states]
        if parts:
            laws[path.stem] = [it[2] for it in parts]
            uses = "".join(it[0] for it in GHOST.finditer(text) if it[2] in kept)
            used = set(re.findall(r"\w+", "".join(it[3] for it in parts)))
            uses = GHOST.sub(lambda it: ghost_line(it, used), uses)
            write(out / "src" / path.name, "\n".join((uses, *(it[0] for it in parts))))
    names = {name for found in laws.values() for name in found}
    heads = "".join(f"mod {module};\n" for module in laws)
    shown = "".join(f"pub use {module}::{{{', '.join(found)}}};\n"
                    for module, found in laws.items())
    write(out / "src/lib.rt", f"//! Laws.\n#![tactic(auto)]\n\n{heads}\n{shown}")
    for name in kept:
        path, text = modules[name]
        if path.name == "Lib.antt":
            folder = name.rpartition(".")[0]
            text = "".join(f"{line}\n" for line in text.splitlines()
                           if f"{folder}.{line.split()[-1]}" in kept)
        if path.name != "Answers.antt" or len(name.split(".")) != 4 or name.split(".")[2] in names:
            write(out / path.relative_to(source), text)
    return sorted(names)


def ghost_line(found: re.Match[str], used: set[str]) -> str:
    """An import of the names that are used."""
    names = [name for name in re.findall(r"\w+", found[3]) if name in used]
    return f"ghost use Rattle.{found[1]}.{found[2]}.{{{', '.join(names)}}};\n" if names else ""


def write(path: pathlib.Path, text: str) -> None:
    """Writes a file and its folder."""
    path.parent.mkdir(parents=True, exist_ok=True)
    path.write_text(text, encoding="utf-8")


# ---- a check

def change_files(wrong: WrongDefinition, folder: pathlib.Path) -> None:
    """Makes the changes in copies of the crates."""
    for file, old, new in wrong.changes:
        path = folder / file.removeprefix("crates/")
        text = path.read_text(encoding="utf-8")
        if text.count(old) != 1:
            sys.exit(f"{wrong.name}: {file} does not have once:\n{old}")
        path.write_text(text.replace(old, new), encoding="utf-8")
    for path in folder.glob("*/proofs/**/*.antt"):
        text = path.read_text(encoding="utf-8")
        for old, new in wrong.proofs:
            text = text.replace(old, new)
        path.write_text(text, encoding="utf-8")


def crates_under(of_sessions: bool) -> list[str]:
    """The crates that laws of a state, or of sessions, are about, lowest first."""
    if not of_sessions:
        return list(CRATES)
    listed = pages.read_crates(ROOT)
    seen: set[str] = set()
    left = [LAWS]
    while left:
        name = left.pop()
        left += [it for it in listed.get(name, []) if it not in seen]
        seen.add(name)
    return [name for name in listed if name in seen - {LAWS}]


def copied_crates(wrong: WrongDefinition | None, under: list[str]) -> list[str]:
    """The crates that are sources: from the lowest that is changed on, those between too."""
    changed = wrong.crates() if wrong else {"scudo_heap"}
    return under[min(under.index(name) for name in under if name in changed):]


def words_of(folder: pathlib.Path, of_sessions: bool, sources: Iterable[str]) -> list[str]:
    """The command that checks the laws in a folder over sources and libraries."""
    tools = kit()
    words = [f"{tools}/bin/rattle", "check", "--crate-name", LAWS, "src/lib.rt",
             "--extern", f"std={tools}/rlibs/std.rlib", "-L", f"dependency={tools}/rlibs"]
    if of_sessions:
        for name in KIT_CRATES:
            words += ["--extern", f"{name}={tools}/rlibs/{name}.rlib"]
    given = set(sources)
    for name in crates_under(of_sessions):
        library = ROOT / "crates" / name / "out/rlib"
        words += ["-L", f"dependency={library}"]
        words += (["--lib", f"{name}={folder / name}/src/lib.rt"] if name in given
                  else ["--extern", f"{name}={library}/{name}.rlib"])
    return [*words, "--antt-project", f"{tools}/rattle/logic/antt-project.json",
            "--logic-built", f"{tools}/logic_built", "--jobs", "1"]


class Answer(NamedTuple):
    """What the prover said: which laws it refused, in how many seconds, and all of its words."""

    refused: list[str]
    seconds: float
    said: str


def check(folder: pathlib.Path, wrong: WrongDefinition | None, has_all: bool) -> Answer:
    """Checks the laws of a state, or those that are named, over a wrong definition."""
    of_sessions = wrong is not None and wrong.of_sessions
    sources = copied_crates(wrong, crates_under(of_sessions))
    for name in [*sources, *[LAWS] * of_sessions]:
        for part in ("src", "specs", "proofs"):
            if (ROOT / "crates" / name / part).is_dir():
                shutil.copytree(ROOT / "crates" / name / part, folder / name / part)
    laws = [] if of_sessions else copy_laws(ROOT / "crates" / LAWS, folder / LAWS)
    only = wrong.laws if wrong and not (has_all and laws) else []
    if wrong:
        change_files(wrong, folder)
    began = time.monotonic()
    words = words_of(folder, of_sessions, sources)
    words += [word for name in only for word in ("--only", name)]
    ran = subprocess.run(words, cwd=folder / LAWS, text=True, stdout=subprocess.PIPE,
                         stderr=subprocess.STDOUT, check=False)
    proved = set(re.findall(r"^fn (?:\w+::)*(\w+): proved", ran.stdout, re.M))
    return Answer([it for it in only or laws if it not in proved], time.monotonic() - began,
                  ran.stdout)


def run(wrong: WrongDefinition | None, kept: pathlib.Path | None, has_all: bool) -> bool:
    """Checks the laws over a wrong definition and prints which refuse it; whether the named do."""
    name = wrong.name if wrong else "none"
    with tempfile.TemporaryDirectory(prefix="wrong-") as scratch:
        folder = (kept / name if kept else pathlib.Path(scratch)).absolute()
        shutil.rmtree(folder, ignore_errors=True)
        answer = check(folder, wrong, has_all)
        if kept:
            write(folder / "log", answer.said)
    print(f"{name}: {', '.join(answer.refused) or 'proved'} ({answer.seconds:.0f} s)", flush=True)
    return set(wrong.laws if wrong else ()) <= set(answer.refused)


def main() -> int:
    """The command line."""
    parser = argparse.ArgumentParser(description=__doc__.split("\n", 1)[0])
    parser.add_argument("names", nargs="*", help="these wrong definitions (all)")
    parser.add_argument("--every", action="store_true", help="check every law of a state")
    parser.add_argument("--none", action="store_true", help="change nothing")
    parser.add_argument("--keep", type=pathlib.Path, help="a folder for copies and logs")
    given = parser.parse_args()
    if given.none:
        return 0 if run(None, given.keep, True) else 1
    wanted = [it for it in read_data() if it.name in (given.names or it.name)]
    return 0 if all([run(it, given.keep, given.every) for it in wanted]) else 1


if __name__ == "__main__":
    sys.exit(main())
