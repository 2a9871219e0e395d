"""Worked calls of a heap by the library and by tenants, and drawn calls compared with a model of
Scudo's layout and of tags as IRG chooses them."""

import pathlib
import re

import pytest

from tests.support.heap_model import (
    ALLOCATED, AVAILABLE, BY_MALLOC, BY_MEMALIGN, QUARANTINED, SIZES, Header, checksum, choose,
    class_of,
)
from tests.support.heap_runs import Run, tenants_of
from tests.support.heap_tables import CAREFUL, LAWS_BROKEN, NOT_CAREFUL, TABLES, Table
from tests.support.running import Ran, run
from tests.test_python_package import told

GROUPS = {"TABLES": TABLES, "CAREFUL": CAREFUL, "NOT_CAREFUL": NOT_CAREFUL,
          "LAWS_BROKEN": LAWS_BROKEN}
# A tenant's pages are at most 4096, with those of its code and its stack.
MOST_PAGES = 4000
BEGIN = """
from tests.support import heap_tables
from tests.support.heap_replays import drawn_run, ran_alone, replayed
"""


def test_tables_are_whole() -> None:
    """Each kind of call is in some row, each refusal, and each group has tables."""
    rows = [row for group in GROUPS.values() for table in group.values() for row in table.rows]
    assert len(rows) == 304 and [len(it) for it in GROUPS.values()] == [23, 7, 8, 5]
    assert {row.refusal for row in rows} == {
        "", "TagCheck", "Translation", "Misaligned", "Unmapped", "HeaderCorrupt", "InvalidState",
        "NotABlock", "AlreadyFree"}
    assert len({row.name for row in rows}) == 15


@pytest.mark.parametrize("group", GROUPS)
def test_by_lists_of_calls(shared: pathlib.Path, group: str) -> None:
    """A heap over the library's plain memory."""
    assert told(shared, BEGIN + f"""
for name, table in heap_tables.{group}.items():
    for wrong in replayed(table) if not table.stores_tags else []:
        print(name, wrong)
""") == ""


@pytest.mark.parametrize("group", GROUPS)
def test_by_tenants_alone(shared: pathlib.Path, group: str) -> None:
    """A tenant makes the calls, over the library's plain memory."""
    assert told(shared, BEGIN + f"""
for name, table in heap_tables.{group}.items():
    for wrong in ran_alone(table) if table.pages <= {MOST_PAGES} else []:
        print(name, wrong)
""") == ""


def in_frames(host: pathlib.Path, folder: pathlib.Path, runs: list[Run]) -> Ran:
    """The report of tenants, one after another, over the same frames."""
    lines = []
    for number, it in enumerate(runs, 1):
        (folder / f"{number}.elf").write_bytes(it.image)
        mode = " async" if it.asynchronous else ""
        lines.append(f"admit {number} image {number} input 0 seed 0000000000000001 "
                     f"frames {it.pages} out 4096{mode}\nslice {number} 100000\nstop {number}\n")
    (folder / "script").write_text("".join(lines))
    frames = 2 * max(it.pages for it in runs) + 1
    names = [f"{number}.elf" for number in range(1, len(runs) + 1)]
    return run([host, "--frames", str(frames), "script", *names], cwd=folder)


@pytest.mark.parametrize("group", GROUPS)
def test_by_tenants_over_frames(host: pathlib.Path, tmp_path: pathlib.Path, group: str) -> None:
    """The same tenants over frames, which each gets from the one before it."""
    tables: list[Table] = [it for it in GROUPS[group].values() if it.pages <= MOST_PAGES]
    runs = [it for table in tables for it in tenants_of(table)]
    ran = in_frames(host, tmp_path, runs)
    assert (ran.status, ran.errors) == (0, "")
    found = re.findall(r"^status (exit 0|(?:fault|abort) \w+).*\n.*\noutput \d+ ?(\w*)$",
                       ran.output, re.M)
    assert found == [(it.end, it.output.hex()) for it in runs]


@pytest.mark.parametrize("seed", range(8))
def test_drawn_calls(shared: pathlib.Path, seed: int) -> None:
    """Pointers with their tags, headers with their checksums, tags in memory, and the pages that
    are mapped, of drawn calls of a careful program under drawn cookies."""
    assert told(shared, BEGIN + f"drawn_run({seed})\n") == ""


# ---- The model, by worked numbers of Scudo's and of the manual's formulas.


def test_sizes_of_classes() -> None:
    """As `size_class_map.h` gives them; the least class that has what is needed."""
    assert SIZES == [
        32, 64, 96, 128, 160, 192, 224, 256, 320, 384, 448, 512, 640, 768, 896, 1024, 1280, 1536,
        1792, 2048, 2560, 3072, 3584, 4096, 5120, 6144, 7168, 8192, 10240, 12288, 14336, 16384,
        20480, 24576, 28672, 32768, 40960, 49152, 57344, 65536, 81920, 98304, 114688, 131072]
    needs = {0: 1, 1: 1, 32: 1, 33: 2, 256: 8, 257: 9, 320: 9, 321: 10, 512: 12, 513: 13,
             114689: 44, 131072: 44, 131073: None, (1 << 64) - 1: None}
    assert {need: class_of(need) for need in needs} == needs


def test_each_class_of_the_heap(shared: pathlib.Path) -> None:
    """The largest and the least request of each class are two blocks of it in a row."""
    assert told(shared, f"""
for number, size in enumerate({SIZES!r}, 1):
    least = ([0] + {SIZES!r})[number - 1] - 15
    first, second = (it & (1 << 56) - 1 for it in Heap(pages=256).replay(
        [(MALLOC, max(least, 0), 0), (MALLOC, size - 16, 0)]).answers())
    region = 0x10000000 + number * 0x1000000
    assert (first, second) == (region + 16, region + size + 16), (number, hex(first), hex(second))
""") == ""


def test_checksums() -> None:
    """Of cookies, pointers and headers; a pointer's tag and a header's sum are not in it."""
    for cookie, pointer, header, wanted in (
        (0, 0x10400010, 0x18102, 0x1322),
        (0, 0x0500000010400010, 0x18102, 0x1322),
        (0, 0x10400010, 0xFFFF000000018102, 0x1322),
        (0, 0x12000010, 0x18102, 0x1142),
        (0, 0x12000010, 0x18103, 0x1342),
        (0xDEADBEEF, 0x10400010, 0x18102, 0xD211),
    ):
        assert checksum(cookie, pointer, header) == wanted


RESERVED_STATE, BY_NEW = 3, 1
CHUNK = Header(2, ALLOCATED, BY_MALLOC, 24, 0)
PACKED = [
    (0, 0x10400010, CHUNK, 0x1322000000018102),
    (0, 0x12000010, CHUNK, 0x1142000000018102),
    (0xDEADBEEF, 0x2000FFF0, Header(0xAB, RESERVED_STATE, BY_NEW, 0xFEDCB, 0x1234),
     0xB8F11234FEDCB7AB),
    (7, 0x20001010, Header(0, ALLOCATED, BY_MEMALIGN, 4095, 0), 0xEE72000000FFFD00),
]


@pytest.mark.parametrize(("cookie", "pointer", "header", "word"), PACKED)
def test_packed_headers(cookie: int, pointer: int, header: Header, word: int) -> None:
    """Each field is in its bits."""
    assert header.packed(cookie, pointer) == word


def test_headers_that_are_forged(shared: pathlib.Path) -> None:
    """A word is a header where its checksum is right, whatever its fields are: those that no chunk
    has are refused by their names, any other word is corrupt. It counts at its own address alone,
    and with its own cookie."""
    pointer, rows = 0x0100000012000010, []
    for header, wanted in (
        (CHUNK, "OK"), (Header(2, AVAILABLE, 0, 24, 0), "InvalidState"),
        (Header(2, QUARANTINED, 0, 24, 0), "InvalidState"),
        (Header(2, RESERVED_STATE, 0, 24, 0), "InvalidState"),
        (Header(2, ALLOCATED, BY_NEW, 24, 0), "OK"), (Header(2, ALLOCATED, 2, 48, 0), "OK"),
        (Header(2, ALLOCATED, 0, 49, 0), "NotABlock"),
        (Header(2, ALLOCATED, 0, 24, 1), "NotABlock"),
        (Header(0xAB, ALLOCATED, 0, 24, 0), "NotABlock"),
    ):
        for cookie in (0, 0xDEADBEEF):
            word = header.packed(cookie, pointer)
            rows.append((cookie, word, wanted))
            rows += [(cookie, word ^ 1 << bit, "HeaderCorrupt") for bit in (0, 24, 48, 63)]
            rows.append((cookie, header.packed(cookie, pointer + 16), "HeaderCorrupt"))
            rows.append((cookie, header.packed(cookie + 1, pointer), "HeaderCorrupt"))
    assert told(shared, f"""
for cookie, word, wanted in {rows!r}:
    last = Heap(cookie=cookie, pages=8).replay(
        [(MALLOC, 24, 0), (STORE, 0x12000000, word), (FREE, {pointer}, 0)])[2]
    found = heap_abort_name(last.answer) if last.code == Code.ABORT else "OK"
    assert found == wanted, (cookie, hex(word), found, wanted)
""") == ""


def test_chosen_tags() -> None:
    """ChooseNonExcludedTag of a tag, an offset and excluded tags."""
    for tag, offset, exclude, wanted in (
        (0, 0, 0x0001, 1), (15, 0, 0x8001, 1), (3, 2, 0x0000, 5), (14, 3, 0x8000, 2),
        (7, 9, 0xFFFF, 0),
    ):
        assert choose(tag, offset, exclude) == wanted
