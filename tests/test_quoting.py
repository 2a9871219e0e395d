"""Names with each character up to U+00A0 and some beyond, and with bytes that are no UTF-8, in all
that `mte_run`, `tenant-run` and `tools/batch` say: compared with a terminal, of which no control
sequence may be asked, and with bash, to which the command that is printed has to be the same words
again. TOMBOLOPAN_DRAWN is how many names for bash are drawn."""

import functools
import importlib.machinery
import importlib.util
import json
import os
import pathlib
import random
import re
import sys
import unicodedata
from types import ModuleType

import pytest

from tests.support.batches import BATCH
from tests.support.drawn_names import told_names
from tests.support.hostile_images import (
    END_SEQUENCE, FAULT, PROGBITS, allocating, file_of, set_address, uleb, unit)
from tests.support.hostile_images import words as instructions
from tests.support.places import EXAMPLES
from tests.support.running import Word, run, succeed
from tests.support.tools import need

HELLO = EXAMPLES / "hi.elf"
DRAWN = int(os.environ.get("TOMBOLOPAN_DRAWN", "60"))
USAGE, READ = 2, 5
BEYOND = ("\u00ad\u0301\u061c\u200b\u200e\u2028\u202e\u2066\ue000\ufdd0\ufeff\uffff\U0001f600"
          "\U0010ffff")
CHARACTERS = [chr(number) for number in range(1, 0xA1)] + list(BEYOND)
# Longest names of files have 255 bytes.
CHUNKS = [CHARACTERS[at:at + 50] for at in range(0, len(CHARACTERS), 50)]
NO_TEXT = (b"\x80", b"\xff", b"\xc0\xaf", b"\xed\xa0\x80", b"\xf4\x90\x80\x80", b"\xe2\x82",
           b"\xc3(")


def asked(output: bytes) -> list[str]:
    """What a terminal is asked to do but to show characters and to begin lines. It reads UTF-8."""
    found = []
    for character in output.decode("utf-8", errors="surrogateescape"):
        kind = unicodedata.category(character)
        # Controls of ECMA-48 (C0, DEL, C1), overrides of direction, ends of lines, bytes that are
        # no UTF-8, and what no text has.
        if character != "\n" and (kind[0] == "C" or kind in ("Zl", "Zp")):
            found.append(f"U+{ord(character):04X}")
    return found


def shown(name: str) -> str:
    """A name as the program shows it."""
    return "".join(it if " " <= it <= "~" else f"\\u{{{ord(it):x}}}" for it in name)


@pytest.mark.parametrize("chunk", CHUNKS, ids=[f"from-{ord(it[0]):04x}" for it in CHUNKS])
def test_names_of_files(alone: pathlib.Path, tmp_path: pathlib.Path, chunk: list[str]) -> None:
    """A file that is not there is told with each character but printable ASCII as its number."""
    name = "x" + "".join(chunk).replace("/", "")
    lines: list[list[Word]] = [
        [name], ["--input", name, HELLO], ["--check", "--suppressions", name, HELLO],
        ["--script", name, "1", "--frames", "9", HELLO]]
    for words in lines:
        ran = run([alone, *words], cwd=tmp_path)
        assert (ran.status, ran.out) == (READ, b"")
        assert asked(ran.err) == []
        assert ran.errors.startswith(f"mte_run: cannot read {shown(name)}: ")
    for option in ("--json", "--map", "--core", "--html", "--sarif", "--trace-file", "--progress"):
        ran = run([alone, "--trace", option, f"absent/{name}", HELLO], cwd=tmp_path)
        assert asked(ran.err) == [] and f"absent/{shown(name)}: " in ran.errors, option


def test_words_that_are_refused(alone: pathlib.Path, tmp_path: pathlib.Path) -> None:
    """Nor do words of a command line that are no option, no number and no file reach a terminal."""
    for chunk in CHUNKS:
        word = "".join(chunk)
        for words in (["--" + word], ["--seed", word, "x"], ["--exact=" + word], ["x", word],
                      ["--check=" + word, "x"], ["--slices", word, "x"], ["-" + word]):
            ran = run([alone, *words], cwd=tmp_path)
            assert ran.status == USAGE and asked(ran.out + ran.err) == [], words


def test_words_that_are_no_text(
    alone: pathlib.Path, host: pathlib.Path, tmp_path: pathlib.Path
) -> None:
    """Both programs refuse bytes that are no UTF-8, without a word of them."""
    for program in (alone, host):
        for name in NO_TEXT:
            ran = run([program, "--frames", "9", b"x\x1b" + name, "x"], cwd=tmp_path)
            assert (ran.status, ran.out) == (USAGE, b"")
            assert ran.errors == f"{program.name}: an argument is not text\n"


def test_names_of_parts(host: pathlib.Path, split: pathlib.Path, tmp_path: pathlib.Path) -> None:
    """The lines of mte_host have a name as it was given, by docs/project/DECISIONS.md; those of
    mte_split have it as mte_run does, as have refused words of a command line."""
    for chunk in CHUNKS:
        name = "x" + "".join(chunk).replace("/", "")
        ran = run([host, "--frames", "9", name], cwd=tmp_path)
        assert (ran.status, ran.errors) == (READ, f"mte_host: cannot read {name}\n")
        ran = run([split, "--frames", "9", "--list", name], cwd=tmp_path)
        assert (ran.status, ran.errors) == (READ, f"mte_split: cannot read {shown(name)}\n")
        for words in (["--" + name], ["--frames", name, "--list", "x"]):
            ran = run([split, *words], cwd=tmp_path)
            assert ran.status == USAGE, words


def test_names_of_symbols(alone: pathlib.Path, tmp_path: pathlib.Path) -> None:
    """A name with blanks or other than printable ASCII is not told (docs/REPORT.md)."""
    names = [b"a" + bytes([byte]) + b"b" for byte in range(1, 256)]
    names += [f"a{it}b".encode() for it in CHARACTERS[0x7F:]]
    told = told_names(alone, tmp_path, [b"first", *names])[1:]
    for name, line in zip(names, told, strict=True):
        is_plain = all(33 <= byte <= 126 for byte in name)
        assert line == name.decode() if is_plain else re.fullmatch(r" +\d+  0x\w+ .* nop", line)
    ran = run([alone, "--trace", "--statistics", "--json", "told.json", "names.elf"], cwd=tmp_path)
    assert asked(ran.err + (tmp_path / "told.json").read_bytes()) == []


def image_of_files(names: list[bytes]) -> bytes:
    """A chunk for each source file, made in its first line."""
    program = bytearray(set_address(0x400000))
    for at in range(len(names)):
        program += b"\x04" + uleb(at) + b"\x05\x02\x0c"
    files = b"\x01\x01\x08" + uleb(len(names)) + b"".join(name + b"\0" for name in names)
    lines = unit(bytes(program) + b"\x05" + END_SEQUENCE, b"\x01\x01\x08\x01folder\0", files)
    return file_of(allocating(len(names)), [(b".debug_line", PROGBITS, lines, 0)])


def test_names_of_source_files(alone: pathlib.Path, tmp_path: pathlib.Path) -> None:
    """A name with control characters or bytes that are no UTF-8 is not told; others are shown by
    numbers, and in JSON as they are."""
    texts = [f"x{it}.c" for it in CHARACTERS if it != "/"]
    names = [it.encode() for it in texts] + [b"x" + it + b".c" for it in NO_TEXT]
    (tmp_path / "files.elf").write_bytes(image_of_files(names))
    ran = succeed([alone, "--leaks", "--json", "told.json", "files.elf"], cwd=tmp_path)
    told = re.findall(r"^    #0 0x\w+(?: at (.*):1)?$", ran.errors, re.M)
    wanted = [shown(it) if unicodedata.category(it[1]) != "Cc" else "" for it in texts]
    assert told == wanted + [""] * len(NO_TEXT)
    assert asked(ran.err) == []
    assert asked((tmp_path / "told.json").read_bytes()) == []
    json.loads((tmp_path / "told.json").read_text(encoding="utf-8"))


def test_names_of_sessions(host: pathlib.Path, tmp_path: pathlib.Path) -> None:
    """tools/batch writes no control character of a session's name, of a file's or of a list's."""
    for at, chunk in enumerate(CHUNKS):
        name = "x" + "".join(chunk).replace("/", "")
        folder = tmp_path / str(at) / name
        folder.mkdir(parents=True)
        (folder / "args").write_text("--frames\n9\nscript\n", "utf-8")
        (folder / "script").write_bytes(b"")
        (folder / "want.out").write_bytes(b"other")
        for place, status in ((folder.parent, 1), (tmp_path / name, 2), (folder / "script", 2)):
            ran = run([sys.executable, BATCH, place, "--program", host], cwd=tmp_path)
            assert ran.status == status and asked(ran.out + ran.err) == [], (place, ran)


@functools.cache
def tenant_run() -> ModuleType:
    """The tool as a module."""
    loader = importlib.machinery.SourceFileLoader(
        "tenant_run", str(EXAMPLES / "libc" / "tenant-run"))
    spec = importlib.util.spec_from_loader("tenant_run", loader)
    assert spec
    made = importlib.util.module_from_spec(spec)
    loader.exec_module(made)
    return made


def drawn_name(source: random.Random) -> str:
    """A name of a file that a shell has much to say about."""
    pool = ("'", '"', "\\", "$", "`", "!", " ", "\t", "\n", "*", "?", "[", "]", "{", "}", "(", ")",
            "<", ">", "|", "&", ";", "#", "~", "=", "-", "a", "9", "$(", "\\x", "\\'", "%s", "^",
            *source.sample(CHARACTERS, 6))
    name = "".join(source.choice(pool) for _ in range(source.randint(1, 16))).replace("/", "")
    return name if name not in ("", ".", "..") else "x"


def test_what_tenant_run_says(alone: pathlib.Path, tmp_path: pathlib.Path) -> None:
    """The report of mte_run, with the program's name in place of the image's, asks nothing of a
    terminal, and its command is the same words in bash; so are names that a tenant wrote."""
    need("bash")
    image, source, tool = tmp_path / "image", random.Random(6), tenant_run()
    image.write_bytes(file_of(instructions(*FAULT), []))
    report = run([alone, image]).errors
    names = [drawn_name(source) + it for it in CHARACTERS for _ in range(2)]
    script = ["llvm-symbolizer() { printf '%s\\0' \"$2\"; }"]
    for name in names:
        told = tool.renamed(report, image, name)
        assert asked(told.encode()) == [] and told.count("\n") == report.count("\n")
        assert str(image) not in told and tool.plain(name) == shown(name)
        script.append(told.splitlines()[-2])
    ran = succeed(["bash", "--norc", "-c", "\n".join(script)])
    assert ran.out == b"".join(f"--obj={it}".encode() + b"\0" for it in names)
    for words in (["--wrong\x1b"], ["absent\x9b"], ["--files", "a\x1b", "x"],
                  ["--env", "\x1b", "x"]):
        ended = run([EXAMPLES / "libc" / "tenant-run", *words])
        assert ended.status and ended.err and asked(ended.err) == [], words


def test_a_command_that_can_be_pasted(alone: pathlib.Path, tmp_path: pathlib.Path) -> None:
    """Bash takes the printed command for the words that it has to have, whatever the image is
    called; and the line is printable ASCII."""
    need("bash")
    image = file_of(instructions(*FAULT), [])
    source = random.Random(5)
    parts = ("".join(CHARACTERS[at:at + 3]) for at in range(0, len(CHARACTERS), 3))
    names = ["-", "-x", *(it.replace("/", "") for it in parts)]
    names += [drawn_name(source) for _ in range(DRAWN)]
    script = ["llvm-symbolizer() { printf '%s\\0' \"$#\" \"$@\"; }"]
    for name in names:
        (tmp_path / name).write_bytes(image)
        given = name if not name.startswith("-") else f"./{name}"
        ran = run([alone, given], cwd=tmp_path)
        assert asked(ran.err) == [], name
        script.append(ran.errors.splitlines()[-2])
        (tmp_path / name).unlink()
    ran = succeed(["bash", "--norc", "-c", "\n".join(script)], cwd=tmp_path)
    words = ran.out.split(b"\0")
    for name in names:
        count = int(words.pop(0))
        found, words = words[:count], words[count:]
        given = name if not name.startswith("-") else f"./{name}"
        assert found[:2] == [b"-i", f"--obj={given}".encode()], name
        assert all(re.fullmatch(rb"0x[0-9a-f]+", it) for it in found[2:])
    assert words == [b""]
