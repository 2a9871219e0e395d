#!/usr/bin/env python3
"""Compiles the hottest blocks of images for the machine of the host, and builds a program with
them.

    translate.py [--blocks N] [--input FILE].. [--program NAME] [--proved] --out FOLDER FILE...

FILE is an image, which this checkout's mte_run runs with each input and counts, or what
`mte_run --profile` wrote of other runs; several files may be of one image or of several. The N
blocks (300) that take the most steps, 40 times or more in a run, become types of a64_forms and
a64_blocks in a copy of this checkout in FOLDER, and the program of the copy is built without proof:
mte_host, or libtombolopan_c.a, whose fuzzed runs take them (mte_host), so that only what is behind
the first slice counts, where a yield ends that. With --proved it is proved, mte_host alone: what
`rt ci` proved of the same crates on this machine is not proved once more. The program is in FOLDER
then, and kept in $XDG_CACHE_HOME/tombolopan (~/.cache/tombolopan) for the next time that the same
blocks are to be in the same sources.

Reports are those of the program without blocks, for any image: a run takes a block only where its
words are in memory, on pages without WRITE. a64_blocks proves that for all blocks, and nothing is
proved for an image but that its types are blocks. What such a program is worth, and what proofs
cost, is in docs/SPEED.md.
"""
import argparse
import hashlib
import os
import pathlib
import re
import shutil
import subprocess
import sys
import tempfile
from collections.abc import Iterable, Mapping, Sequence

ROOT = pathlib.Path(__file__).resolve().parent.parent
sys.path.insert(0, str(ROOT / "examples" / "embed"))

from tombolopan_profile import counts as run_counts  # noqa: E402
from tombolopan_profile import forms  # noqa: E402
from compiled_blocks import choosing, crates  # noqa: E402

MTE_RUN = ROOT / "crates" / "mte_run" / "out" / "mte_run"
STEPS, SLICE = "1000000000", "1048576"
CRATE = "compiled_image"
USES = "a64_forms a64_registers a64_run a64_step a64_blocks mte_tags"
LISTED = re.compile(r"([a-z]\w*)[^:]*:(.*)")
# The programs, and the crates that say which blocks their runs take.
PROGRAMS = {"mte_host": "mte_host", "libtombolopan_c.a": "tombolopan_c"}
# Of these the runs that take blocks are fuzzed.
FUZZED = {"libtombolopan_c.a"}
ALIAS = """\
//! The blocks that runs take before their tables of decoded instructions.

use a64_blocks::ImageBlocks;
use compiled_image::Images;

/// Those of images.
pub type Hot = ImageBlocks<Images>;
"""


def leave(text: str) -> int:
    print(f"translate.py: {text}", file=sys.stderr)
    return 2


class NotCounted(Exception):
    """A run of an image that was not counted, and why."""


def count_run(image: pathlib.Path, words: Sequence[str], folder: pathlib.Path) -> pathlib.Path:
    """What mte_run counts of a run of an image."""
    if not MTE_RUN.exists():
        raise NotCounted(f"there is no {MTE_RUN.relative_to(ROOT)} (tools/build.sh)")
    found = folder / f"{len(os.listdir(folder))}.counts"
    ran = subprocess.run([MTE_RUN, "--profile", found, *words, image.resolve()],
                         stdout=subprocess.DEVNULL, stderr=subprocess.PIPE, text=True,
                         errors="replace")
    if not found.exists():
        raise NotCounted(f"{image}: {ran.stderr.strip()}")
    return found


def count_setup(image: pathlib.Path, folder: pathlib.Path) -> run_counts.Counts:
    """The counts of an image's first slice, where a yield ends it: fuzzed runs begin behind it.
    Nothing where no yield does."""
    counts = run_counts.read_files([count_run(image, ["--slices", SLICE], folder)])
    has_yielded = counts.events and counts.events[-1].what == "yield"
    return counts if has_yielded else run_counts.Counts()


def counts_of(files: Iterable[pathlib.Path], inputs: Sequence[pathlib.Path],
              folder: pathlib.Path) -> list[pathlib.Path]:
    """The counts of runs: those of files, and of images as they run here with each input, or once
    without."""
    found = []
    for file in files:
        with open(file, "rb") as opened:
            is_image = opened.read(4) == b"\x7fELF"
        found += [count_run(file, ["--steps", STEPS, *words], folder)
                  for words in [["--input", str(it)] for it in inputs] or [[]]
                  ] if is_image else [file]
    return found


def read_profiles(files: Iterable[pathlib.Path], folder: pathlib.Path | None = None,
                  ) -> list[choosing.Profile]:
    """The images of some counts, with all that were counted of each; where a folder for more
    counts is given, behind their setups."""
    groups: dict[str, list[run_counts.Counts]] = {}
    for file in files:
        counts = run_counts.read_files([file])
        groups.setdefault(counts.image, []).append(counts)
    found = []
    for name, group in groups.items():
        if any(it.image_told() != group[0].image_told() for it in group):
            raise run_counts.WrongCounts(f"there are counts of several images called {name}")
        image = pathlib.Path(name)
        setup = run_counts.Counts() if folder is None else count_setup(image, folder)
        found.append(choosing.Profile(group, forms.words_of(image.read_bytes()), setup))
    return found


def listed_files() -> list[str]:
    """The files of this checkout."""
    listed = subprocess.run(["git", "ls-files", "-z"], cwd=ROOT, stdout=subprocess.PIPE, text=True,
                            check=True).stdout
    return [name for name in listed.rstrip("\0").split("\0") if (ROOT / name).is_file()]


def kept_place(texts: Mapping[str, str], program: str, proved: bool) -> pathlib.Path:
    """Where the program with some blocks is kept that these sources and this toolchain make."""
    total = hashlib.sha256(repr([sorted(texts.items()), program, proved]).encode())
    total.update(subprocess.run(["rt", "version"], stdout=subprocess.PIPE, check=True).stdout)
    for name in listed_files():
        if name.startswith(("crates", "tools", "VERSION")):
            total.update(name.encode() + b"\0" + (ROOT / name).read_bytes())
    base = os.environ.get("XDG_CACHE_HOME") or os.path.expanduser("~/.cache")
    return pathlib.Path(base) / "tombolopan" / f"blocks-{total.hexdigest()}"


def copy_checkout(folder: pathlib.Path) -> None:
    """A copy of the files of this checkout."""
    for name in listed_files():
        place = folder / name
        place.parent.mkdir(parents=True, exist_ok=True)
        shutil.copy2(ROOT / name, place)


def put_crate(folder: pathlib.Path, texts: Mapping[str, str], user: str) -> None:
    """Puts the crate of types into a checkout, and lets a crate use it."""
    sources = folder / "crates" / CRATE / "src"
    sources.mkdir(parents=True)
    for name, text in texts.items():
        (sources / name).write_text(text)
    (folder / "crates" / user / "src" / "blocks.rt").write_text(ALIAS)
    listed = folder / "crates.txt"
    lines = []
    for line in listed.read_text().splitlines():
        crate = line.partition(":")[0].partition(" ")[0]
        lines.append(f"{line} a64_blocks {CRATE}" if crate == user else line)
        if crate == "a64_blocks":
            lines.append(f"{CRATE}: {USES}")
    listed.write_text("\n".join(lines) + "\n")


def leave_what_is_below(folder: pathlib.Path, crate: str) -> None:
    """Takes all out of a checkout but the sources of a crate and of those below it. Wrong bodies
    are the gate's."""
    needed, lines = {crate}, []
    for line in reversed((folder / "crates.txt").read_text().splitlines()):
        found = LISTED.match(line)
        if found and found[1] in needed:
            needed.update(found[2].split())
            lines.append(line)
    (folder / "crates.txt").write_text("".join(f"{line}\n" for line in reversed(lines)))
    for place in (folder / "crates").iterdir():
        if place.is_dir():
            shutil.rmtree(place / "must-fail" if place.name in needed else place, True)


def run_build(copy: pathlib.Path, program: str, crate: str, proved: bool) -> bool:
    """Builds the program of a copy of this checkout, and says whether that was done."""
    if not proved:
        command = [str(copy / "tools" / "build.sh"), "--unproved", "--only", program]
        return not subprocess.run(command).returncode
    leave_what_is_below(copy, crate)
    return not (subprocess.run(["rt", "fmt"], cwd=copy / "crates" / CRATE).returncode
                or subprocess.run(["rt", "ci"], cwd=copy).returncode)


def build(texts: Mapping[str, str], program: str, folder: pathlib.Path, proved: bool) -> bool:
    """Puts the program with some blocks into a folder, and says whether it was built."""
    kept = kept_place(texts, program, proved)
    if not kept.exists():
        copy = folder / "checkout"
        copy_checkout(copy)
        put_crate(copy, texts, PROGRAMS[program])
        crate = program.removeprefix("lib").removesuffix(".a")
        if not run_build(copy, program, crate, proved):
            return False
        kept.parent.mkdir(parents=True, exist_ok=True)
        part = kept.with_name(f"{kept.name}.{os.getpid()}")
        shutil.copy2(copy / "crates" / crate / "out" / program, part)
        part.replace(kept)
    shutil.copy2(kept, folder / program)
    return True


def read_command() -> argparse.Namespace:
    parser = argparse.ArgumentParser(description=__doc__,
                                     formatter_class=argparse.RawDescriptionHelpFormatter)
    add = parser.add_argument
    add("--blocks", metavar="N", type=int, default=300,
        help="how many blocks, at most %d (300)" % crates.MOST)
    add("--input", metavar="FILE", type=pathlib.Path, action="append", default=[],
        help="an input of the images' runs; none: one run without input")
    add("--program", choices=PROGRAMS, default="mte_host")
    add("--proved", action="store_true", help="prove mte_host with its blocks")
    add("--out", metavar="FOLDER", type=pathlib.Path, required=True,
        help="a folder that is not there")
    add("files", metavar="FILE", type=pathlib.Path, nargs="+", help="an image, or counts")
    return parser.parse_args()


def main() -> int:
    options = read_command()
    if not 0 < options.blocks <= crates.MOST:
        return leave(f"--blocks takes 1 to {crates.MOST}")
    if options.proved and options.program != "mte_host":
        return leave("--proved is of mte_host alone")
    try:
        with tempfile.TemporaryDirectory() as made:
            folder = pathlib.Path(made)
            counts = counts_of(options.files, options.input, folder)
            profiles = read_profiles(counts, folder if options.program in FUZZED else None)
    except (OSError, NotCounted, run_counts.WrongCounts) as error:
        return leave(str(error))
    blocks = choosing.choose(profiles, options.blocks)
    if not blocks:
        return leave(f"no block is executed {choosing.EXECUTIONS} times in a run that has it")
    try:
        options.out.mkdir(parents=True)
    except OSError as error:
        return leave(str(error))
    steps = sum(it.steps for it in profiles)
    print(f"{len(blocks)} blocks of {sum(len(it.addresses) for it in blocks)} instructions, about "
          f"{min(1, sum(it.steps for it in blocks) / steps):.0%} of {steps} steps", flush=True)
    if not build(crates.texts_of(blocks), options.program, options.out, options.proved):
        return leave("the program was not built")
    return 0


if __name__ == "__main__":
    sys.exit(main())
