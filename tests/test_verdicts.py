"""Verdicts: signed runs that are made again. Each part of one is changed in turn, and has to be
named; OpenSSL knows the signature too."""

import base64
import hashlib
import json
import pathlib
import random
import runpy
import shutil
import sys
from collections.abc import Callable
from typing import Any

import pytest

from tests.support.batches import Batch
from tests.support.drawn_sessions import write_sessions
from tests.support.library import shared_object
from tests.support.places import EXAMPLES
from tests.support.running import Ran, Word, run, succeed
from tests.support.tools import give_up, need

VERDICT = EXAMPLES / "many" / "mte_verdict"
IMAGES = sorted((pathlib.Path(__file__).parent / "images").glob("*.elf"))
SESSIONS, DRAWN = 6, 6
# How many verdicts one case makes, and of how many of these a byte is changed.
MANY, CHANGED = 100, 12
NOT_A_VERDICT, SIGNATURE, FILE, PROGRAM, RUN, SYSTEM = 3, 4, 5, 6, 7, 8


@pytest.fixture(scope="module")
def keys(tmp_path_factory: pytest.TempPathFactory) -> pathlib.Path:
    """A folder with the keys `private` and `public`, and another `strange`."""
    need("openssl")
    if run([sys.executable, "-c", "import cryptography"]).status:
        give_up("missing: python3-cryptography (tests/packages.txt)")
    folder = tmp_path_factory.mktemp("keys")
    for name in ("private", "other"):
        succeed(["openssl", "genpkey", "-algorithm", "ed25519", "-out", folder / name])
    for name, out in (("private", "public"), ("other", "strange")):
        succeed(["openssl", "pkey", "-in", folder / name, "-pubout", "-out", folder / out])
    return folder


def verdict(act: str, file: pathlib.Path, key: pathlib.Path, command: list[Word],
            *options: str) -> Ran:
    """Makes or checks a verdict."""
    return run([sys.executable, VERDICT, act, file, "--key", key, *options, *command])


def check_is_right(file: pathlib.Path, keys: pathlib.Path, command: list[Word],
                   *options: str) -> None:
    ran = verdict("check", file, keys / "public", command, *options)
    assert ran.status == 0 and ran.output.startswith("right: signature, program, files and run")


def commands(host: pathlib.Path, alone: pathlib.Path, folder: pathlib.Path) -> list[list[Word]]:
    """Sessions and runs, over files of a folder."""
    succeed([sys.executable, EXAMPLES / "many" / "make_sessions.py", folder / "sessions",
             str(SESSIONS)])
    found: list[list[Word]] = []
    for session in sorted((folder / "sessions").iterdir()):
        words = (session / "args").read_text().split()
        found.append([host, *words[:2], *(session / word for word in words[2:])])
    (folder / "input").write_bytes(b"afmu")
    for image in random.Random(3).sample(IMAGES, SESSIONS):
        copy = folder / image.name
        shutil.copy(image, copy)
        found.append([alone, "--seed", "5", "--input", folder / "input", copy])
    return found


def statement(file: pathlib.Path) -> dict[str, Any]:
    """What a verdict says."""
    found: dict[str, Any] = json.loads(base64.b64decode(json.loads(file.read_text())["payload"]))
    return found


def test_what_is_signed(host: pathlib.Path, alone: pathlib.Path, keys: pathlib.Path,
                        tmp_path: pathlib.Path) -> None:
    """A verdict is right again, also where its files have other names; its sums are those of the
    run, and OpenSSL takes the signature over DSSE's encoding."""
    for number, command in enumerate(commands(host, alone, tmp_path)):
        file = tmp_path / f"{number}.json"
        assert verdict("make", file, keys / "private", command) == Ran(0, b"", b"")
        check_is_right(file, keys, command)
        moved = tmp_path / f"moved-{number}"
        moved.mkdir()
        for at, word in enumerate(command[1:], start=1):
            if isinstance(word, pathlib.Path):
                command[at] = pathlib.Path(shutil.copy(word, moved / f"{at}.copy"))
        check_is_right(file, keys, command)
        said, ran = statement(file), run(command)
        assert said["predicate"]["status"] == ran.status
        assert said["subject"][0]["digest"]["sha256"] == hashlib.sha256(ran.out).hexdigest()
        assert len(said["predicate"]["tenants"]) == ran.output.count("\ntenant ") + int(
            ran.output.startswith("tenant "))
        envelope = json.loads(file.read_text())
        body = base64.b64decode(envelope["payload"])
        kind = envelope["payloadType"]
        (tmp_path / "body").write_bytes(b"DSSEv1 %d %s %d " % (
            len(kind), kind.encode(), len(body)) + body)
        (tmp_path / "sig").write_bytes(base64.b64decode(envelope["signatures"][0]["sig"]))
        succeed(["openssl", "pkeyutl", "-verify", "-pubin", "-inkey", keys / "public", "-rawin",
                 "-in", tmp_path / "body", "-sigfile", tmp_path / "sig"])


def flipped(data: bytes, source: random.Random) -> bytes:
    """Bytes of which a bit of one is another."""
    found = bytearray(data)
    found[source.randrange(len(found))] ^= 1 << source.randrange(8)
    return bytes(found)


def test_each_part_that_changed(host: pathlib.Path, alone: pathlib.Path, keys: pathlib.Path,
                                tmp_path: pathlib.Path) -> None:
    """One bit of a file, the statement, the signature or the program, drawn: it is named."""
    source = random.Random(9)
    for command in commands(host, alone, tmp_path)[::3]:
        file, wrong = tmp_path / "verdict", tmp_path / "wrong"
        verdict("make", file, keys / "private", command)
        envelope = json.loads(file.read_text())
        for part, status in (("payload", SIGNATURE), ("sig", SIGNATURE)):
            row = envelope if part == "payload" else envelope["signatures"][0]
            for _ in range(DRAWN):
                held = row[part]
                row[part] = base64.b64encode(flipped(base64.b64decode(held), source)).decode()
                wrong.write_text(json.dumps(envelope))
                ran = verdict("check", wrong, keys / "public", command)
                assert ran.status == status and "signature: " in ran.errors, ran.errors
                row[part] = held
        for at, word in enumerate(command):
            if isinstance(word, pathlib.Path):
                (tmp_path / "flipped").write_bytes(flipped(word.read_bytes(), source))
                (tmp_path / "flipped").chmod(0o755)
                other = [*command[:at], tmp_path / "flipped", *command[at + 1:]]
                ran = verdict("check", file, keys / "public", other)
                assert ran.status == (FILE if at else PROGRAM), ran.errors
                assert (f"file {word.name}: " if at else "program: ") in ran.errors
        assert verdict("check", file, keys / "strange", command).status == SIGNATURE
        text = file.read_text()
        wrong.write_text(text[:source.randrange(len(text) - 10)])
        assert verdict("check", wrong, keys / "public", command).status == NOT_A_VERDICT


def test_runs_that_differ(host: pathlib.Path, keys: pathlib.Path, tmp_path: pathlib.Path) -> None:
    """Another program of which a tenant ends otherwise, or that writes something else."""
    command = commands(host, host, tmp_path)[0]
    file = tmp_path / "verdict"
    verdict("make", file, keys / "private", command)
    for change, named in (("s/^status .*/status exit 77/", "tenant 1: "), ("s/^heap 0/heap 0 /",
                          "report: "), ("$a more", "report: ")):
        wrong = tmp_path / "mte_host.wrong"
        wrong.write_text(f"#!/bin/sh\n{host} \"$@\" | sed '{change}'\n")
        wrong.chmod(0o755)
        ran = verdict("check", file, keys / "public", [wrong, *command[1:]], "--other-program")
        assert ran.status == RUN and f"mte_verdict: {named}" in ran.errors, ran.errors
    copy = tmp_path / "mte_host.copy"
    copy.write_bytes(host.read_bytes() + b"\0")
    copy.chmod(0o755)
    check_is_right(file, keys, [copy, *command[1:]], "--other-program")
    assert verdict("check", file, keys / "public", [*command, "more"]).status == FILE
    assert verdict("check", file, keys / "public", command[:3]).status == FILE


def test_wrong_command_lines(host: pathlib.Path, alone: pathlib.Path, keys: pathlib.Path,
                             tmp_path: pathlib.Path) -> None:
    """A line each, and nothing written."""
    command: list[Word] = [alone, IMAGES[0]]
    out = tmp_path / "out"
    (tmp_path / "none").write_text("no key\n")
    cases: list[tuple[int, list[Word]]] = [
        (2, ["make", out, *command]), (2, ["sign", out, "--key", keys / "private", *command]),
        (2, ["make", out, "--key", keys / "private", alone]),
        (2, ["make", out, "--key", keys / "public", *command]),
        (2, ["make", out, "--key", tmp_path / "none", *command]),
        (2, ["make", out, "--key", keys / "private", "--other-program", *command]),
        (2, ["make", out, "--key", keys / "private", alone, "--json=x", IMAGES[0]]),
        (SYSTEM, ["make", out, "--key", tmp_path / "missing", *command]),
        (SYSTEM, ["make", out, "--key", keys / "private", tmp_path / "missing", IMAGES[0]]),
        (SYSTEM, ["make", tmp_path / "no" / "out", "--key", keys / "private", *command]),
        (SYSTEM, ["check", out, "--key", keys / "public", *command])]
    for status, words in cases:
        ran = run([sys.executable, VERDICT, *words])
        assert (ran.status, ran.output) == (status, ""), words
        assert ran.errors.startswith("mte_verdict: ") and ran.errors.count("\n") == 1, ran.errors
    assert not out.exists()


@pytest.fixture
def at_once(monkeypatch: pytest.MonkeyPatch,
            capsys: pytest.CaptureFixture[str]) -> Callable[..., tuple[int, str]]:
    """What makes and checks verdicts in this process: a hundred processes take half a minute."""
    monkeypatch.setattr(sys, "path", [*sys.path])
    command = runpy.run_path(str(VERDICT))["main"]

    def ended(act: str, file: pathlib.Path, key: pathlib.Path, *words: Word) -> tuple[int, str]:
        words = ("mte_verdict", act, file, "--key", key, *words)
        monkeypatch.setattr(sys, "argv", [str(it) for it in words])
        try:
            command()
        except SystemExit as end:
            return int(end.code or 0), capsys.readouterr().err
        return 0, capsys.readouterr().err
    return ended


def words_in(session: pathlib.Path) -> list[Word]:
    """The words of a session, with the paths of its files."""
    words = (session / "args").read_text().split()
    return [*words[:2], *(session / it for it in words[2:])]


def change_a_byte(path: pathlib.Path, source: random.Random, part: bytes = b"") -> None:
    """Gives one byte of a file, or of a part of it, another value."""
    data = bytearray(path.read_bytes())
    begin = data.index(part) if part else 0
    data[source.randrange(begin, begin + len(part) if part else len(data))] ^= 1
    path.write_bytes(data)


def test_a_hundred_verdicts(host: pathlib.Path, shared: pathlib.Path, keys: pathlib.Path,
                            tmp_path: pathlib.Path, at_once: Callable[..., tuple[int, str]],
                            ) -> None:
    """Of drawn sessions the sums are those of the library's reports. A copy of the program finds
    them right over copies of the files in another folder, but for those of which a byte of a file
    or of what was signed is another: these it names."""
    sessions, copies, reports = (tmp_path / it for it in ("sessions", "copies", "reports"))
    write_sessions(sessions, range(MANY))
    batch = Batch(sessions, {"TOMBOLOPAN": str(shared_object(shared))})
    assert batch.run("--reports", reports).status == 0
    shutil.copytree(sessions, copies)
    copy = pathlib.Path(shutil.copy(host, tmp_path / "mte_host"))
    source = random.Random(5)
    changed = source.sample(range(MANY), CHANGED)
    for number, session in enumerate(sorted(sessions.iterdir())):
        file, other = tmp_path / f"{number}.json", copies / session.name
        assert at_once("make", file, keys / "private", host, *words_in(session)) == (0, "")
        report = (reports / f"{session.name}.out").read_bytes()
        said = statement(file)["subject"][0]["digest"]["sha256"]
        assert said == hashlib.sha256(report).hexdigest(), session.name
        named = source.choice(["script", "image-0", "image-3", ""]) if number in changed else "-"
        if named == "":
            change_a_byte(file, source, json.loads(file.read_text())["payload"].encode())
        elif named != "-":
            change_a_byte(other / named, source)
        status, errors = at_once("check", file, keys / "public", copy, *words_in(other))
        if named == "":
            assert status in (NOT_A_VERDICT, SIGNATURE), errors
        elif named == "-":
            assert (status, errors) == (0, "")
        else:
            assert status == FILE and f"file {named}: " in errors, errors
