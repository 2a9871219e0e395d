#!/usr/bin/env python3
"""Runs known weaknesses of libraries, and planted ones, by `mte_run --check`, and says what it
tells of each.

    cves.py [--run PROGRAM] [--work FOLDER] [--only NAME] [--write | --check]

For each entry of cves.toml the source of a package is fetched from Debian, its correction undone
where it has one, or a bug planted, and built by ../libc/tenant-cc, a library with a small program
that reaches the weakness.
PROGRAM (crates/mte_run/out/mte_run) has to tell the cause, with the place in its stack; and of the
source with the correction, where there is one, nothing. FOLDER keeps sources and what is built (a
temporary folder). A table is printed; --write puts it into docs/project/CHECKED.md, and --check
compares it with the page's. Status 1: something else was told. Status 3: a source was not fetched.
Needed (Debian): clang, lld, apt, and the network; and the C library of ../libc/build.py.
"""
import pathlib
import re
import shutil
import struct
import subprocess
import sys
import tempfile
import tomllib
import zlib
from typing import Any, NamedTuple

HERE = pathlib.Path(__file__).resolve().parent
ROOT = HERE.parents[1]
sys.path.insert(0, str(HERE.parent))
import debian_source  # noqa: E402
from command_line import Parser  # noqa: E402

PAGE = ROOT / "docs" / "project" / "CHECKED.md"
TENANT_CC = HERE.parent / "libc" / "tenant-cc"
HEAD = "| Weakness | Package | What is wrong | Source | Told as | By the stack in |"
NOTHING = "nothing"
Entry = dict[str, Any]


class Told(NamedTuple):
    """What was told of a tenant: the line with the cause, and the stack in front of others."""

    cause: str
    stack: str


def gzip_with_extra_field() -> bytes:
    """A gzip file whose header has an extra field of 96 bytes (RFC 1952)."""
    text, extra = b"expanded\n", bytes(range(96))
    packed = zlib.compressobj(9, zlib.DEFLATED, -15)
    body = packed.compress(text) + packed.flush()
    head = bytes([0x1F, 0x8B, 8, 4, 0, 0, 0, 0, 0, 255]) + struct.pack("<H", len(extra)) + extra
    return head + body + struct.pack("<II", zlib.crc32(text), len(text))


def many_attributes() -> bytes:
    """An element of XML with 40 attributes."""
    names = " ".join(f"a{number}='{number}'" for number in range(40))
    return f"<list><item {names}/></list>\n".encode()


INPUTS = {"gzip": gzip_with_extra_field, "attributes": many_attributes}


def input_of(entry: Entry, source: pathlib.Path) -> bytes:
    """What the tenant of an entry reads."""
    if "input" in entry:
        return INPUTS[entry["input"]]()
    if "given" in entry:
        return (source / entry["given"]).read_bytes()
    if "own" in entry:
        return (HERE / entry["own"]).read_bytes()
    return str(entry.get("text", "")).encode()


def version(folder: pathlib.Path, package: str) -> str:
    """The version of the source, by the name of its archive."""
    archive = debian_source.archives_of(folder, package)[0].name
    return archive.removeprefix(f"{package}_").partition(".orig")[0]


def build(entry: Entry, source: pathlib.Path, image: pathlib.Path) -> None:
    """Builds the program of an entry over a source."""
    part = entry.get("folder", ".")
    flags = [it.format(source=source, root=ROOT) for it in entry.get("flags", [])]
    flags += [f"--arguments={entry['arguments']}", "--stack=262144"] if "arguments" in entry else []
    headers = image.parent / "headers"
    for name, folder in entry.get("headers", {}).items():
        headers.mkdir(exist_ok=True)
        (headers / name).unlink(missing_ok=True)
        (headers / name).symlink_to(source / folder)
        flags.append(f"-I{headers}")
    files = [str(source / part / f"{name}.c") for name in entry["files"]]
    files += [str(HERE / entry["driver"])] if "driver" in entry else []
    words = [str(TENANT_CC), entry.get("level", "-O0"), "-g", "-w", "-fno-builtin", *flags,
             f"-I{source / part}", *files, "-o", str(image)]
    built = subprocess.run(words, capture_output=True, text=True, check=False)
    if built.returncode:
        sys.exit(f"cves.py: {image.name} was not built: {built.stderr[-2000:]}")


def told_of(run: pathlib.Path, entry: Entry, image: pathlib.Path, source: pathlib.Path) -> Told:
    """What is told of a tenant."""
    given = image.parent / "input"
    given.write_bytes(input_of(entry, source))
    words = [str(run), "--check", "--steps", "100000000", "--input", str(given), str(image)]
    ran = subprocess.run(words, capture_output=True, timeout=300, check=False)
    text = ran.stderr.decode(errors="replace")
    found = re.search(r"^(?:Cause: (?:\[\w+\]: )?|mte_run: )(.*)$", text, re.M)
    cause = re.search(r"^Cause: (?:\[\w+\]: )?(.*)$|^mte_run: (lost at the end.*)$", text, re.M)
    if not found or not cause:
        return Told(NOTHING, "")
    is_lost = cause[1] is None
    end = text.find("\n  allocated by")
    stack = text if is_lost or end < 0 else text[:end]
    return Told(cause[1] or cause[2], stack)


def place_in(stack: str, name: str) -> str:
    """The first function of a stack whose name begins so, with its line; none if there is none."""
    found = re.search(rf"#\d+ ({re.escape(name)}\w*)(?:\+0x[0-9a-f]+)? at (\S+:\d+)", stack)
    return f"`{found[1]}`, {found[2]}" if found else ""


def judged(run: pathlib.Path, name: str, entry: Entry, folder: pathlib.Path) -> tuple[str, bool]:
    """The row of an entry, and whether it is as it should be."""
    source = debian_source.fetch(folder, entry["package"])
    made = folder / "built" / name
    made.mkdir(parents=True, exist_ok=True)
    is_right = True
    how = "as it is"
    if "file" in entry:
        how = "planted" if entry.get("planted") else "correction undone"
        build(entry, source, made / "corrected.elf")
        is_right = told_of(run, entry, made / "corrected.elf", source).cause == NOTHING
        source = with_wrong(entry, source, made / "source")
    build(entry, source, made / "tenant.elf")
    told = told_of(run, entry, made / "tenant.elf", source)
    place = place_in(told.stack, entry["place"])
    number = version(folder, entry["package"])
    cause = re.sub(r" at 0x[0-9a-f]+.*", "", told.cause)
    row = f"| {name} | {entry['package']} {number} | {entry['title']} | {how} | {cause} | {place} |"
    return row, is_right and entry["cause"] in told.cause and place != ""


def with_wrong(entry: Entry, source: pathlib.Path, to: pathlib.Path) -> pathlib.Path:
    """A copy of a source with the correction undone."""
    shutil.rmtree(to, ignore_errors=True)
    shutil.copytree(source, to, symlinks=True)
    path = to / entry["file"]
    text = path.read_text(encoding="utf-8", errors="surrogateescape")
    if text.count(entry["right"]) != 1:
        sys.exit(f"cves.py: {entry['file']} has no such correction")
    text = text.replace(entry["right"], entry["wrong"])
    path.write_text(text, encoding="utf-8", errors="surrogateescape")
    return to


def page_table(text: str) -> str:
    """The lines of the page's table."""
    found = re.search(rf"^{re.escape(HEAD)}\n(?:\|.*\n)*", text, re.M)
    if not found:
        sys.exit("cves.py: the page has no such table")
    return found[0]


def main() -> None:
    reader = Parser(__doc__)
    reader.add_argument("--run", type=pathlib.Path, default=ROOT / "crates/mte_run/out/mte_run")
    reader.add_argument("--work", type=pathlib.Path)
    reader.add_argument("--only", default="")
    reader.add_argument("--write", action="store_true")
    reader.add_argument("--check", action="store_true")
    given = reader.parse_args()
    entries = tomllib.loads((HERE / "cves.toml").read_text(encoding="utf-8"))
    with tempfile.TemporaryDirectory() as name:
        folder = (given.work or pathlib.Path(name)).resolve()
        try:
            found = [judged(given.run, name, entry, folder) for name, entry in entries.items()
                     if given.only in name]
        except debian_source.NotFetched as error:
            print(f"cves.py: {error}", file=sys.stderr)
            sys.exit(3)
    table = "\n".join([HEAD, "|---|---|---|---|---|---|", *(row for row, _ in found)]) + "\n"
    print(table, end="")
    text = PAGE.read_text(encoding="utf-8")
    if given.write:
        PAGE.write_text(text.replace(page_table(text), table), encoding="utf-8")
    differs = given.check and page_table(text) != table
    sys.exit(0 if all(is_right for _, is_right in found) and not differs else 1)


if __name__ == "__main__":
    main()
