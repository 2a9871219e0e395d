"""The command line of tools/wasm.sh."""

import argparse
import hashlib
import os
import pathlib
import re
import subprocess
import sys
import tempfile
from collections.abc import Sequence

import mark

from wasm import archive, lowered, module, page

ROOT = pathlib.Path(__file__).resolve().parent.parent.parent
MODULE, PAGE = "mte_run.wasm", "tombolopan.html"
KEPT = ROOT / "crates/mte_run/out/wasm"


def say(text: str) -> None:
    """Says how far it is."""
    print(f"wasm.sh: {text}", file=sys.stderr, flush=True)


def sum_of_sources() -> str:
    """The sum of what objects are made of: crates, toolchain, and what lowers and compiles."""
    script = 'source "$1/tools/sources.sh" && sum_of_sources "$1"'
    ran = subprocess.run(["bash", "-c", script, "bash", str(ROOT)], check=True,
                         stdout=subprocess.PIPE, text=True)
    held = hashlib.sha256(ran.stdout.encode() + str(mark.toolchain()).encode())
    tools = ROOT / "tools"
    own = sorted((tools / "wasm" / lowered.SESSION).glob("*.txt"))
    made_by = [tools / it for it in ("unproved.py", "unchecked.py", "retarget.py",
                                     "wasm/lowered.py", "wasm/module.py")]
    for path in (*made_by, *own):
        held.update(path.read_bytes())
    return held.hexdigest()[:32]


def kept_object(name: str, is_proved: bool) -> pathlib.Path:
    """The object of a program of these sources, which stays where it was made once: it takes
    minutes."""
    kind = "proved" if is_proved else "unproved"
    kept = KEPT / f"{name}.{sum_of_sources()}.{kind}.o"
    if kept.exists():
        return kept
    KEPT.mkdir(parents=True, exist_ok=True)
    for old in KEPT.glob(f"{name}.*"):
        old.unlink()
    with tempfile.TemporaryDirectory(prefix="wasm-") as folder:
        work = pathlib.Path(folder)
        say(f"the LLVM module of {name}, {kind}")
        text = lowered.lower(ROOT, work, name, is_proved=is_proved)
        say(f"{name} as WebAssembly")
        part = kept.with_suffix(".part")
        module.compile_module(text, part, work)
        os.replace(part, kept)
    return kept


def marked(content: bytes, is_proved: bool) -> bytes:
    """The module with the lines of its build (tools/mark.py)."""
    values = {**mark.commit_and_changes(), **mark.toolchain(),
              "build": "proved" if is_proved else "unproved"}
    empty = mark.text_of({})
    if content.count(empty) != 1:
        sys.exit("wasm.sh: the module has no place for the lines of its build")
    return content.replace(empty, mark.text_of(values))


def linked(name: str, is_proved: bool) -> bytes:
    """The module of a program."""
    compiled = kept_object(name, is_proved)
    with tempfile.TemporaryDirectory(prefix="wasm-") as folder:
        return module.link(compiled, pathlib.Path(folder))


def make_page(is_proved: bool) -> tuple[bytes, str]:
    """The module of mte_run, and the page of this checkout."""
    content = marked(linked(lowered.PROGRAM, is_proved), is_proved)
    session = linked(lowered.SESSION, is_proved)
    say("the page")
    return content, page.make_page(content, session, is_proved)


def options_of(words: Sequence[str]) -> archive.Options:
    """The options of a command line of mte_run, as the page keeps them."""
    found: archive.Options = {}
    rest = list(words)
    while rest:
        word = rest.pop(0)
        matched = re.fullmatch(r"--([a-z-]+)(?:=(.*))?", word)
        if not matched:
            sys.exit(f"wasm.sh: {word} is no option of mte_run")
        value = matched[2]
        if value is None and rest and not rest[0].startswith("--"):
            value = rest.pop(0)
        found[matched[1]] = True if value is None else value
    return found


def read_words() -> argparse.Namespace:
    """Reads the command line."""
    parser = argparse.ArgumentParser(
        prog="wasm.sh", usage="wasm.sh [--unproved] OUT\n"
        "       wasm.sh [--unproved] [--source FILE].. --with IMAGE INPUT OUT.html [-- OPTION..]",
        description="Makes mte_run as a WebAssembly module and a page of one file with it inside "
        f"({MODULE} and {PAGE} in the folder OUT), from a proved build where there is one; or a "
        "page with a run inside.", allow_abbrev=False)
    parser.add_argument("--unproved", action="store_true", help="of a build without proof")
    parser.add_argument("--with", dest="run", nargs=2, metavar=("IMAGE", "INPUT"),
                        help="a page with the run of that program on that input (- for none)")
    parser.add_argument("--source", action="append", default=[], type=pathlib.Path, metavar="FILE",
                        help="a source file that the page shows next to the stacks")
    parser.add_argument("out", type=pathlib.Path, metavar="OUT")
    parser.add_argument("options", nargs="*", metavar="OPTION", help="options of mte_run")
    return parser.parse_args()


def write_run(words: argparse.Namespace, is_proved: bool) -> None:
    """Writes the page with a run inside."""
    image, given = words.run
    options = options_of(words.options)
    sources = [(it.name, it.read_bytes()) for it in words.source]
    content = pathlib.Path(image).read_bytes()
    bytes_given = b"" if given == "-" else pathlib.Path(given).read_bytes()
    run = archive.run_text(pathlib.Path(image).name, content, bytes_given, options, sources)
    _, text = make_page(is_proved)
    words.out.write_text(page.with_run(text, run), encoding="utf-8")


def main() -> None:
    """Makes what the command line asks for."""
    words = read_words()
    is_proved = not words.unproved and lowered.is_proved(ROOT)
    if words.run:
        write_run(words, is_proved)
        return
    content, text = make_page(is_proved)
    words.out.mkdir(parents=True, exist_ok=True)
    (words.out / MODULE).write_bytes(content)
    (words.out / PAGE).write_text(text, encoding="utf-8")
    packed = len(archive.pack(text.encode()))
    print(f"{words.out / PAGE}: {len(text.encode())} bytes, {packed} packed, "
          f"{'of a proved build' if is_proved else 'built without proof'}")


if __name__ == "__main__":
    try:
        main()
    except OSError as error:
        sys.exit(f"wasm.sh: {error}")
