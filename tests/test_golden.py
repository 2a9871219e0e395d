"""Golden steps: what a file has, that Unicorn and QEMU agree with it but for what is known, and
that each of them finds a step that was altered."""

import collections
import ctypes
import hashlib
import json
import lzma
import pathlib
import re
import shutil
import sys
from collections.abc import Callable, Iterator
from typing import Any

import pytest

from tests.support.library import shared_object, static_library
from tests.support.once import make_once
from tests.support.pages import parts_of, read_page
from tests.support.places import EXAMPLES, ROOT
from tests.support.running import Ran, Word, run, succeed
from tests.support.tools import give_up, need

GOLDEN = EXAMPLES / "golden"
ROWS = 41
EACH = 20
CONSUMERS = ("unicorn", "qemu")
MAKERS = ("make_golden.py", "make_golden.c")
KINDS = {"Translation", "Permission", "TagCheck", "Alignment", "SpAlignment", "PcAlignment"}


def make(shared: pathlib.Path, count: int, seed: int) -> bytes:
    """So many steps of a seed."""
    ran = succeed([sys.executable, GOLDEN / "make_golden.py", str(count), str(seed)],
                  extra={"TOMBOLOPAN": str(shared_object(shared))})
    return ran.out


def make_in_c(shared: pathlib.Path, *words: str) -> Ran:
    """What the script over make_golden.c says."""
    need("cc")
    return run([sys.executable, GOLDEN / "golden_file.py", *words],
               extra={"TOMBOLOPAN": str(shared_object(shared))})


def golden(shared: pathlib.Path, maker: str = MAKERS[0]) -> pathlib.Path:
    """A small file: twenty steps of each group."""

    def write(path: pathlib.Path) -> None:
        if maker == MAKERS[0]:
            path.write_bytes(make(shared, EACH * (ROWS + 2), 7))
        else:
            assert make_in_c(shared, str(EACH * (ROWS + 2)), "7", str(path)).status == 0

    return make_once(shared / f"golden.{maker}.jsonl", write)


def steps_of(path: pathlib.Path) -> list[dict[str, Any]]:
    """The objects of a file's lines, without the first."""
    return [json.loads(line) for line in path.read_text(encoding="utf-8").splitlines()[1:]]


def check(consumer: str, path: pathlib.Path) -> Ran:
    """What a consumer says of a file."""
    if consumer == "qemu":
        need("qemu-aarch64", "aarch64-linux-gnu-gcc")
    else:
        try:
            ctypes.CDLL("libunicorn.so.2")
        except OSError:
            give_up("missing: libunicorn.so.2 (tests/packages.txt has the Debian packages)")
    return run([sys.executable, GOLDEN / f"check_{consumer}.py", path])


@pytest.mark.parametrize("maker", MAKERS)
def test_a_file_has_each_row_as_often(shared: pathlib.Path, maker: str) -> None:
    """Twenty steps of each row, refused words and faulting fetches; all kinds of faults, both
    modes; a flag of the asynchronous mode that is set."""
    steps = steps_of(golden(shared, maker))
    counts = collections.Counter(it["row"] for it in steps)
    names = {line.split()[0] for line in (ROOT / "isa/a64.rows").read_text().splitlines()
             if line[:1].isupper()}
    assert set(counts) == names | {"Refused", "Fetch"} and len(names) == ROWS
    assert set(counts.values()) == {EACH}
    assert {it["end"]["kind"] for it in steps if it["end"]["is"] == "fault"} == KINDS
    assert {it["mode"] for it in steps} == {"sync", "async"}
    assert all(it["end"]["is"] == "illegal" for it in steps if it["row"] == "Refused")
    assert any(it["after"].get("pending") for it in steps)


def test_a_file_is_a_function_of_its_seed(shared: pathlib.Path) -> None:
    """The same count and seed give the same bytes, and another seed gives others."""
    assert make(shared, 86, 7) == make(shared, 86, 7)
    assert make(shared, 86, 7) != make(shared, 86, 8)


def test_a_file_has_the_sum_of_the_repository(
    shared: pathlib.Path, tmp_path: pathlib.Path
) -> None:
    """The C program makes the steps whose sums are kept, of 860 and of 100,000; the format is that
    of the Python script, and another sum is told."""
    lines = (GOLDEN / "sums.txt").read_text(encoding="utf-8").splitlines()
    assert [it.split()[0] for it in lines] == ["860", "100000"]
    for line in lines:
        count, seed, _ = line.split()
        ran = make_in_c(shared, count, seed, str(tmp_path / count))
        assert (ran.status, ran.output, ran.errors) == (0, f"{line}\n", "")
    heads = [json.loads(path.read_text(encoding="utf-8").splitlines()[0])
             for path in (tmp_path / "860", golden(shared))]
    assert heads[0] == {**heads[1], "seed": 1}
    other = tmp_path / "examples" / "golden"
    other.mkdir(parents=True)
    for path in [*GOLDEN.glob("*.h"), GOLDEN / "make_golden.c", GOLDEN / "golden_file.py"]:
        text = path.read_text(encoding="utf-8")
        (other / path.name).write_text(text.replace("below(1008)", "below(1007)"))
    (other / "sums.txt").write_text("\n".join(lines) + "\n")
    for name in ("over_library.py", "command_line.py"):
        (tmp_path / "examples" / name).symlink_to(EXAMPLES / name)
    (tmp_path / "isa").symlink_to(ROOT / "isa")
    ran = run([sys.executable, other / "golden_file.py", "860", "1", tmp_path / "other"],
              extra={"TOMBOLOPAN": str(shared_object(shared))})
    assert ran.status == 1 and "has another sum, " in ran.errors


def test_steps_are_counted(shared: pathlib.Path) -> None:
    """How they end adds up, and is what a file has."""
    ran = make_in_c(shared, "--count", str(EACH * (ROWS + 2)), "7")
    first, second = ran.output.splitlines()
    counts = {it.split()[0]: int(it.split()[1]) for it in first.split(", ")}
    ends = collections.Counter(
        it["end"].get("kind", it["end"]["is"]) for it in steps_of(golden(shared, MAKERS[1])))
    assert counts == dict(ends) and re.fullmatch(r"\d+\.\d\d s of a processor", second)


@pytest.mark.parametrize("maker", MAKERS)
@pytest.mark.parametrize("consumer", CONSUMERS)
def test_emulators_agree(shared: pathlib.Path, consumer: str, maker: str) -> None:
    """No step differs but in a way that is known."""
    ran = check(consumer, golden(shared, maker))
    assert ran.status == 0, ran.output + ran.errors
    assert "different 0," in ran.output


def next_bit(seed: int) -> int:
    """The bit that the generator of IRG puts on top of its state (Arm ARM, NextRandomTagBit)."""
    return (seed >> 5 ^ seed >> 3 ^ seed >> 2 ^ seed) & 1


def drawn_tag(rgsr: list[int], exclude: int) -> tuple[int, list[int]]:
    """A tag that IRG draws, and the generator's state behind it (Arm ARM, ChooseNonExcludedTag)."""
    tag, seed, offset = rgsr[0], rgsr[1], 0
    for place in range(4):
        bit = next_bit(seed)
        seed, offset = bit << 15 | seed >> 1, offset | bit << place
    if exclude == 0xFFFF:
        return 0, [0, seed]
    for _ in range(max(offset, 1)):
        tag = (tag + (offset > 0)) % 16
        while exclude >> tag & 1:
            tag = (tag + 1) % 16
    return tag, [tag, seed]


@pytest.mark.parametrize("maker", MAKERS)
def test_draws_of_irg(shared: pathlib.Path, maker: str) -> None:
    """IRG's tag and state are those of the manual's functions, written out here: no program can set
    the state under an emulator's user mode."""
    steps = [it for it in steps_of(golden(shared, maker)) if it["row"] == "Irg"]
    for it in steps:
        word, before, after = int(it["word"], 16), it["before"], it["after"]
        number, source, to = word >> 16 & 31, word >> 5 & 31, word & 31
        mask = 0 if number == 31 else int(before["x"][number], 16) & 0xFFFF
        address = int(before["sp"] if source == 31 else before["x"][source], 16)
        tag, rgsr = drawn_tag(before["rgsr"], mask | 1)
        want = address & ~(15 << 56) | tag << 56
        behind = after.get("sp", before["sp"]) if to == 31 else after.get("x", {}).get(
            str(to), before["x"][to])
        assert (int(behind, 16), after.get("rgsr", before["rgsr"])) == (want, rgsr), it
    assert len(steps) == EACH


def flip(of: dict[str, Any], name: str) -> None:
    """Changes the lowest bit of a number, also of one in hexadecimal digits."""
    number = of[name]
    of[name] = f"{int(number, 16) ^ 1:x}" if isinstance(number, str) else number ^ 1


def alter_register(it: dict[str, Any]) -> bool:
    """Another value of a register that an addition writes."""
    found = bool(it["row"] == "AddSubShift" and "x" in it["after"])
    if found:
        flip(it["after"]["x"], next(iter(it["after"]["x"])))
    return found


def alter_flags(it: dict[str, Any]) -> bool:
    """Another V behind a comparison."""
    found = bool(it["row"] == "CondCmp")
    if found:
        it["after"].setdefault("nzcv", it["before"]["nzcv"])
        flip(it["after"], "nzcv")
    return found


def alter_pc(it: dict[str, Any]) -> bool:
    """Another PC behind a step that goes on."""
    found = bool(it["row"] == "MoveWide")
    if found:
        it["after"]["pc"] = f"{int(it['after']['pc'], 16) + 4:x}"
    return found


def base(it: dict[str, Any]) -> int:
    """The base register of a load or a store."""
    number, before = int(it["word"], 16) >> 5 & 31, it["before"]
    return int(before["sp"] if number == 31 else before["x"][number], 16)


def alter_memory(it: dict[str, Any]) -> bool:
    """Another byte that a store writes, through a pointer without a tag."""
    granules = it["after"].get("granules", {})
    rows = ("LdStImm", "LdStUnscaled", "LdStPost", "Pair")
    found = bool(it["row"].startswith(rows) and granules and base(it) >> 56 == 0)
    if found:
        first = next(iter(granules))
        granules[first][0] = f"{int(granules[first][0], 16) ^ 1:032x}"
    return found


def alter_end(it: dict[str, Any]) -> bool:
    """A fault where there is none."""
    found = bool(it["row"] == "Brk")
    if found:
        it["end"] = {"is": "fault", "kind": "Permission", "access": "read", "at": "110000",
                     "pointer_tag": 0, "memory_tag": 0}
    return found


def alter_tag(it: dict[str, Any]) -> bool:
    """Another tag that a store of tags leaves."""
    granules = it["after"].get("granules", {})
    found = bool(it["row"] == "StG" and granules)
    if found:
        first = next(iter(granules))
        granules[first][1] ^= 1
    return found


def alter_flag(it: dict[str, Any]) -> bool:
    """Another flag of the asynchronous mode, behind an access whose tag differs."""
    found = bool(it["mode"] == "async" and it["after"].get("pending"))
    if found:
        it["after"]["pending"] = False
    return found


ALTERATIONS: dict[str, Callable[[dict[str, Any]], bool]] = {
    "register": alter_register, "flags": alter_flags, "pc": alter_pc, "memory": alter_memory,
    "end": alter_end, "tag": alter_tag, "flag": alter_flag,
}


def cases() -> Iterator[tuple[str, str]]:
    """Each alteration for each consumer that can see it: Unicorn has no tags."""
    for consumer in CONSUMERS:
        yield from ((consumer, name) for name in ALTERATIONS
                    if consumer == "qemu" or name not in ("tag", "flag"))


@pytest.mark.parametrize(("consumer", "name"), cases())
def test_a_planted_difference_is_found(
    shared: pathlib.Path, tmp_path: pathlib.Path, consumer: str, name: str
) -> None:
    """Of a file in which one step is altered, each consumer names that step and no other."""
    head = golden(shared).read_text(encoding="utf-8").splitlines()[0]
    steps = steps_of(golden(shared))
    number = next(number for number, it in enumerate(steps, 1) if ALTERATIONS[name](it))
    path = tmp_path / "altered.jsonl"
    path.write_text("\n".join([head, *map(json.dumps, steps)]) + "\n", encoding="utf-8")
    ran = check(consumer, path)
    assert ran.status == 1, ran.output + ran.errors
    assert ran.output.startswith(f"step {number} ") and "different 1," in ran.output


WRONG: dict[str, tuple[Callable[[str], str], str]] = {
    "no head": (lambda text: text.split("\n", 1)[1], "step 0: the first line does not name"),
    "cut": (lambda text: text[:-40], "step 860: "),
    "no state": (lambda text: text.replace('"before"', '"behind"', 1), "step 1: 'before'"),
    "empty": (lambda text: "", "step 0: "),
}


@pytest.mark.parametrize("name", WRONG)
def test_a_wrong_file_is_refused(
    shared: pathlib.Path, tmp_path: pathlib.Path, name: str
) -> None:
    """A file that has not the format is refused with the line that is wrong."""
    alter, said = WRONG[name]
    path = tmp_path / "wrong.jsonl"
    path.write_text(alter(golden(shared).read_text(encoding="utf-8")), encoding="utf-8")
    ran = check("unicorn", path)
    assert ran.status == 1 and said in ran.errors, ran.errors
    assert "Traceback" not in ran.errors


@pytest.mark.parametrize("words", [[], ["no such file"], ["a", "b", "c"]])
def test_a_wrong_command_line_is_refused(words: list[str]) -> None:
    """Status 2 and a line on standard error."""
    for program in ("check_unicorn.py", "check_qemu.py", "make_golden.py", "golden_file.py"):
        ran = run([sys.executable, GOLDEN / program, *words])
        assert ran.status in (1, 2) and ran.errors and ran.output == ""


def test_the_page_shows_a_step(shared: pathlib.Path) -> None:
    """The step that docs/GOLDEN.md shows is the one of that number in the file that it makes."""
    found = [part for part in parts_of("docs/GOLDEN.md") if part.language == "json"]
    number = re.search(r"Step (\d+) of the file above", read_page("docs/GOLDEN.md"))
    assert len(found) == 1 and number
    assert json.loads(found[0].text) == steps_of(golden(shared))[int(number[1]) - 1]


def release(*words: Word) -> Ran:
    """What the script that makes a release's file says."""
    need("rt", "git")
    return run([sys.executable, ROOT / "tools" / "golden_release.py", *words])


def test_the_file_of_a_release(shared: pathlib.Path, tmp_path: pathlib.Path) -> None:
    """A small one: its steps have the sum of the repository, its name the version, and it has the
    same bytes when it is made again."""
    words: list[Word] = ["--count", "860", "--library", static_library(shared)]
    files = []
    for name in ("one", "other"):
        ran = release(*words, tmp_path / name)
        assert ran.status == 0 and ran.errors == "", ran.errors
        (path,) = (tmp_path / name).iterdir()
        assert ran.output == f"{hashlib.sha256(path.read_bytes()).hexdigest()}  {path}\n"
        files.append(path)
    assert files[0].read_bytes() == files[1].read_bytes()
    version = (ROOT / "VERSION").read_text(encoding="utf-8").strip()
    assert files[0].name.startswith(f"tombolopan-golden-steps_{version}")
    first, rest = lzma.decompress(files[0].read_bytes()).split(b"\n", 1)
    assert f"860 1 {hashlib.sha256(rest).hexdigest()}" in (GOLDEN / "sums.txt").read_text()
    is_proved = json.loads(first)["library"]["build"] == "proved"
    assert files[0].name.endswith(".jsonl.xz") and ("~unproved" in files[0].name) != is_proved


def test_a_release_without_its_steps(shared: pathlib.Path, tmp_path: pathlib.Path) -> None:
    """Nothing is written of a count that has no sum, or without the library; nor of steps whose sum
    is another, which a changed maker has."""
    (tmp_path / "none.a").write_text("no archive")
    refused: tuple[tuple[list[Word], str], ...] = (
        (["--count", "12", "--library", static_library(shared)], "has no sum of 12"),
        (["--library", tmp_path / "absent"], "is not there"),
        (["--library", tmp_path / "none.a"], "none.a"))
    for words, said in refused:
        ran = release(*words, tmp_path / "out")
        assert ran.status == 1 and said in ran.errors and not (tmp_path / "out").exists()
    copy = tmp_path / "copy"
    for folder in ("tools/packing", "examples/golden", "examples/embed", "include", "isa"):
        shutil.copytree(ROOT / folder, copy / folder)
    for name in ("tools/golden_release.py", "examples/over_library.py",
                 "examples/command_line.py", "examples/command_line.sh", "VERSION"):
        shutil.copy(ROOT / name, copy / name)
    maker = copy / "examples" / "golden" / "make_golden.c"
    maker.write_text(maker.read_text().replace("below(1008)", "below(1007)"))
    for path in (copy / "examples" / "golden").glob("*.h"):
        path.write_text(path.read_text().replace("below(1008)", "below(1007)"))
    ran = run([sys.executable, copy / "tools" / "golden_release.py", "--count", "860", "--library",
               static_library(shared), tmp_path / "out"])
    assert ran.status == 1 and "has another sum" in ran.errors and not (tmp_path / "out").exists()
