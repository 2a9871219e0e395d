"""Recorded heap calls, their replay with statistics, and the margins of tags on the page."""

import csv
import json
import os
import pathlib
import re
import sys
import xml.etree.ElementTree as xml

import pytest

from tests.support.library import shared_object
from tests.support.once import make_once
from tests.support.pages import parts_of, read_page
from tests.support.places import EXAMPLES
from tests.support.running import Ran, Word, run, succeed
from tests.support.samples import tenant
from tests.support.tools import give_up, need

ALLOC = EXAMPLES / "alloc"
HEAD = "tombolopan heap calls 1\n"
THREADS = """
#include <pthread.h>
#include <stdlib.h>
#include <string.h>
enum { THREADS = 4, TURNS = 3000 };
static void *turn(void *number)
{
    for (long i = 0; i < TURNS; i++) {
        char *volatile chunk = malloc(16 + (size_t)(i * 7 % 900));
        memset(chunk, (int)i, 16);
        if (i % 3 == 0)
            chunk = realloc(chunk, 2000);
        if (i % 100 == 0) {
            void *other = NULL;
            free(posix_memalign(&other, 64, 100) == 0 ? other : NULL);
            free(calloc(3, 40));
        }
        free(chunk);
    }
    return number;
}
int main(void)
{
    pthread_t threads[THREADS];
    for (long i = 0; i < THREADS; i++)
        pthread_create(&threads[i], NULL, turn, NULL);
    for (long i = 0; i < THREADS; i++)
        pthread_join(threads[i], NULL);
    return 0;
}
"""


def recorder(shared: pathlib.Path) -> pathlib.Path:
    """The recorder, compiled as its comment says."""
    need("cc")
    words = ["cc", "-O2", "-Wall", "-Wextra", "-Werror", "-shared", "-fPIC", "-o"]

    def link(path: pathlib.Path) -> None:
        succeed([*words, str(path), str(ALLOC / "record.c")])

    return make_once(shared / "record.so", link)


def record(shared: pathlib.Path, trace: pathlib.Path, *words: str) -> str:
    """The lines of a program's heap calls."""
    succeed(words, extra={"LD_PRELOAD": str(recorder(shared)), "HEAP_TRACE": str(trace)})
    return trace.read_text(encoding="ascii")


def replay(shared: pathlib.Path, trace: pathlib.Path, *words: str) -> Ran:
    """What the script says of a trace."""
    return run([sys.executable, ALLOC / "replay.py", *words, trace],
               extra={"TOMBOLOPAN": str(shared_object(shared))})


def rows_of(ran: Ran) -> list[dict[str, str]]:
    """The rows of statistics."""
    assert ran.status == 0, ran.errors
    return list(csv.DictReader(ran.output.splitlines()))


def test_threads_are_recorded_in_order(shared: pathlib.Path, tmp_path: pathlib.Path) -> None:
    """No chunk is made where one is, and none freed that is not there; all calls are there."""
    source, program = tmp_path / "threads.c", tmp_path / "threads"
    source.write_text(THREADS)
    succeed(["cc", "-O1", "-o", program, source, "-lpthread"])
    text = record(shared, tmp_path / "trace", str(program))
    assert text.startswith(HEAD)
    live: set[str] = set()
    for line in text.splitlines()[1:]:
        name, _, made = line.partition(" = ")
        if name.startswith(("free", "realloc")):
            live.remove(name.split()[1])
        if made:
            assert made not in live
            live.add(made)
    counts = {it: len(re.findall(rf"^{it} ", text, re.M))
              for it in ("realloc", "memalign", "malloc")}
    assert counts["realloc"] == 4 * 1000 and counts["memalign"] == 4 * 30
    assert counts["malloc"] >= 4 * 3000
    rows = rows_of(replay(shared, tmp_path / "trace", "--every", "5000"))
    assert len(rows) >= 5 and int(rows[-1]["live_chunks"]) == int(rows[-1]["native_live_chunks"])


def test_a_program_does_what_it_did(shared: pathlib.Path, tmp_path: pathlib.Path) -> None:
    """Perl under the recorder, whose children are not recorded; and its heap in the replay."""
    need("perl")
    word = "my %h; $h{$_ % 70} .= q(x) x ($_ % 50) for 1 .. 500; print `echo child`, scalar %h;"
    ran = succeed(["perl", "-e", word])
    trace = tmp_path / "trace"
    with_it = succeed(["perl", "-e", word], extra={
        "LD_PRELOAD": str(recorder(shared)), "HEAP_TRACE": str(trace)})
    assert (with_it.out, with_it.err) == (ran.out, ran.err)
    rows = rows_of(replay(shared, trace, "--every", "500"))
    for row in rows:
        live, blocks, mapped, free = (
            int(row[name]) for name in ("live_bytes", "block_bytes", "mapped_bytes", "free_bytes"))
        assert 0 < live <= blocks and blocks + free <= mapped
        assert row["fragmentation"] == f"{1 - live / mapped:.4f}"
        assert row["live_bytes"] == row["native_live_bytes"]
        classes = {int(name[5:]): int(it) for name, it in row.items() if re.match(r"free_\d", name)}
        assert len(classes) == 44
        assert sum(size * count for size, count in classes.items()) == free


SMALL = HEAD + """\
malloc 24 = 0x10
malloc 24 = 0x20
calloc 2 100 = 0x30
free 0x20
malloc 20 = 0x20
realloc 0x30 3000 = 0x40
memalign 64 100 = 0x50
malloc 200000 = 0x60
free 0x99
free 0x0
malloc 30 = 0x0
realloc 0x10 0 = 0x0
"""


def test_statistics_of_a_few_calls(shared: pathlib.Path, tmp_path: pathlib.Path) -> None:
    """As they are counted by hand: one block is used again, by the call behind its free."""
    path = tmp_path / "trace"
    path.write_text(SMALL)
    ran = replay(shared, path, "--every", "1")
    rows = rows_of(ran)
    assert ran.errors.splitlines()[0] == "calls 9, unknown 1, refused 0, runs 2"
    assert [row["live_bytes"] for row in rows] == [
        "24", "48", "248", "224", "244", "3044", "3144", "203144", "203120"]
    assert [row["tags_drawn"] for row in rows] == ["1", "2", "3", "4", "5", "7", "8", "8", "9"]
    assert (rows[4]["reused"], rows[4]["reuse_distance"]) == ("1", "1.0")
    # A page of blocks of 64 and of 224 bytes; the last row has pages of a chunk of 200,000 too.
    assert [row["mapped_bytes"] for row in rows[:3]] == ["4096", "4096", "8192"]
    assert int(rows[7]["mapped_bytes"]) - int(rows[6]["mapped_bytes"]) == 49 * 4096
    assert rows[-1]["free_64"] == str(64 - 1)


def test_a_heap_that_is_used_up(shared: pathlib.Path, tmp_path: pathlib.Path) -> None:
    """Requests that the profile refuses, of size and of pages, are counted; chunks that are not
    there are neither moved nor freed."""
    lines = ["malloc 2000000 = 0x10", "realloc 0x10 50 = 0x20", "free 0x20"]
    lines += [f"malloc 1000 = {at:#x}" for at in range(0x1000, 0x1000 + 40 * 16, 16)]
    lines += [f"free {at:#x}" for at in range(0x1000, 0x1000 + 40 * 16, 16)]
    path = tmp_path / "trace"
    path.write_text(HEAD + "\n".join(lines) + "\n")
    ran = replay(shared, path, "--pages", "5", "--every", "43")
    rows = rows_of(ran)
    # Blocks of 1,024 bytes; one page has the block of 50 bytes.
    assert ran.errors.splitlines()[0] == "calls 83, unknown 0, refused 25, runs 2"
    assert (rows[0]["live_chunks"], rows[0]["free_1024"], rows[-1]["live_chunks"]) == (
        "16", "0", "0")


@pytest.mark.parametrize("right, wrong, said", [
    ("return 32 * class", "return 48 * class", "50 runs do not tell where all chunks are"),
    ("it->pages += more", "it->pages += more + 1", "pages and free blocks are not as they were"),
    ("it->freed[--it->count]", "it->freed[it->count-- / 2]", "pages and free blocks are not as"),
])
def test_a_wrong_guess_is_told(
    shared: pathlib.Path, tmp_path: pathlib.Path, right: str, wrong: str, said: str
) -> None:
    """Of blocks, of pages, and of which free block is next."""
    folder = tmp_path / "examples" / "alloc"
    folder.mkdir(parents=True)
    for path in [*ALLOC.glob("*.h"), ALLOC / "replay.c", ALLOC / "replay.py"]:
        text = path.read_text(encoding="utf-8")
        (folder / path.name).write_text(text.replace(right, wrong), encoding="utf-8")
    for name in ("over_library.py", "command_line.py"):
        (tmp_path / "examples" / name).symlink_to(EXAMPLES / name)
    (tmp_path / "include").symlink_to(ALLOC.parents[1] / "include")
    lines = [f"malloc 24 = {at:#x}" for at in range(0x1000, 0x1000 + 130 * 16, 16)]
    lines += ["free 0x1000", "free 0x1010", "free 0x1020", "malloc 24 = 0x1020"]
    trace = tmp_path / "trace"
    trace.write_text(HEAD + "\n".join(lines) + "\n")
    ran = run([sys.executable, folder / "replay.py", trace],
              extra={"TOMBOLOPAN": str(shared_object(shared))})
    assert f"replay: {said}" in ran.errors and (ran.status, ran.output) == (1, ""), ran.errors


def test_without_a_compiler(tmp_path: pathlib.Path) -> None:
    """The Debian package that has one is named."""
    ran = run([sys.executable, ALLOC / "replay.py", "trace"], cwd=tmp_path,
              extra={"PATH": str(tmp_path), "TOMBOLOPAN": ""})
    assert ran == Ran(1, b"", b"replay.py: cc is not there (Debian: gcc)\n")


@pytest.mark.parametrize("text, said", [
    ("", ":1: "), ("malloc 1 = 0x10\n", ":1: "), (HEAD + "malloc 1\n", ":2: "),
    (HEAD + "malloc 1 = 0x10\nfree\n", ":3: "), (HEAD + "mallocs 1 = 0x10\n", ":2: "),
    (HEAD + "malloc 1 = 0x10", ":2: "), (HEAD + "free 0x10 = 0x10\n", ":2: "),
])
def test_a_trace_that_is_none(
    shared: pathlib.Path, tmp_path: pathlib.Path, text: str, said: str
) -> None:
    """Is refused with its first line that has not the form."""
    path = tmp_path / "trace"
    path.write_text(text)
    ran = replay(shared, path)
    assert ran.status == 2 and ran.output == ""
    assert ran.errors == f"replay: {path}{said}it has not the form of a heap call\n"


def margins(shared: pathlib.Path, *words: str) -> Ran:
    """What the script says."""
    return run([sys.executable, ALLOC / "margins.py", *words],
               extra={"TOMBOLOPAN": str(shared_object(shared))})


def cells_of(table: str) -> dict[str, list[str]]:
    """The rows of a table by their mistakes."""
    parts = [[it.strip() for it in line.strip("|").split("|")] for line in table.splitlines()
             if line.startswith("|")]
    return {it[0]: it[1:] for it in parts[2:]}


def test_the_page_has_the_margins(shared: pathlib.Path) -> None:
    """What a part of the states gives is near what the page has of all of them; what laws say is
    the same, and no state counts against one."""
    ran = margins(shared, "--states", "40000")
    assert (ran.status, ran.errors) == (0, "")
    page = re.search(r"margins\.py: -->\n(.*?)<!-- to here", read_page("docs/ATTACKS.md"), re.S)
    assert page
    wanted, found = cells_of(page[1]), cells_of(ran.output)
    assert list(found) == list(wanted) and len(found) == 11
    for name, cells in found.items():
        assert cells[-1] == wanted[name][-1]
        for one, other in zip(cells[:-1], wanted[name]):
            assert abs(float(one) - float(other)) < 0.01, name
    laws = set(re.findall(r"`(\w+)`", page[1]))
    assert len(laws) == 5 and all(f"`{it}`" in read_page("docs/PROVED.md") for it in laws)


def test_margins_of_wrong_words(shared: pathlib.Path) -> None:
    """Status 2 and a line."""
    for words in (["--states", "0"], ["--states", "1048577"], ["--states", "5", "--write"]):
        ran = margins(shared, *words)
        assert ran.status == 2 and "--states is 1 to 1048576" in ran.errors


TENANT = """#include "tenant.h"
int main(void)
{
    char *kept[64] = {0};
    for (int i = 0; i < 400; i++) {
        char **at = &kept[i * 7 % 64];
        tenant_free(*at);
        *at = i % 5 == 0 ? tenant_calloc(3, 40 + i) : i % 7 == 0 ? tenant_memalign(64, 50 + i)
                                                                 : tenant_malloc(1 + i * 13 % 900);
        if (i % 3 == 0)
            *at = tenant_realloc(*at, 24 + i * 5);
        if (i % 4 == 0)
            kept[0] = tenant_malloc(16 + tenant_usable_size(*at) % 9);
    }
    tenant_malloc(2000000);
    tenant_realloc(kept[9], 0);
    return tenant_malloc(200000) != 0;
}
"""


def tenant_trace(alone: pathlib.Path, folder: pathlib.Path, *words: str) -> None:
    """Makes a trace of a tenant's services, and its numbers as JSON."""
    source, services = folder / "calls.c", folder / "services"
    source.write_text(TENANT)
    image = tenant(folder, source)
    ran = run([alone, *words, "--trace-file", services, "--statistics", "--json",
               folder / "told.json", image])
    assert ran.status == 1, ran.errors
    made = run([sys.executable, ALLOC / "tenant_calls.py", services])
    assert run([sys.executable, ALLOC / "tenant_calls.py"], stdin=services.read_bytes()) == made
    (folder / "trace").write_bytes(made.out)


def test_a_tenant_is_replayed(
    alone: pathlib.Path, shared: pathlib.Path, tmp_path: pathlib.Path
) -> None:
    """The heap calls that mte_run prints of a tenant give the same heap in the replay: as many
    tags, and each chunk at its address. The lines of a trace of instructions give them too."""
    need("clang", "ld.lld")
    tenant_trace(alone, tmp_path, "--services")
    text = (tmp_path / "trace").read_text(encoding="ascii")
    told = json.loads((tmp_path / "told.json").read_text(encoding="utf-8"))["statistics"]
    for name in ("malloc", "calloc", "realloc", "memalign", "free"):
        assert len(re.findall(rf"^{name} ", text, re.M)) == told[name] > 0, name
    assert told["usable_size"] > 0 and "usable_size" not in text
    again = replay(shared, tmp_path / "trace", "--every", "100000")
    (row,) = rows_of(again)
    assert row["tags_drawn"] == str(told["tags_drawn"])
    assert again.errors.startswith("calls ") and ", unknown 0, refused 0, " in again.errors
    tenant_trace(alone, tmp_path, "--trace")
    assert (tmp_path / "trace").read_text(encoding="ascii") == text


@pytest.mark.parametrize("text, status, said", [
    ("", 1, "there is no heap call"), ("  12  write(0x10, 3) = 3\n", 1, "there is no heap call"),
    ("  12  malloc(24)\n", 1, "there is no heap call"),
    ("1  malloc(24) = 0x10\n2  malloc(24, 3) = 0x10\n", 2, "line 2 has no heap call"),
    ("  12  free(12.5) = 0\n", 2, "line 1 has no"), ("3  calloc(7) = 0x10\n", 2, "line 1 has no"),
    ("3  realloc(0x10, 7) = 0x11111111111111111\n", 2, "line 1 has no"),
])
def test_services_that_are_none(
    tmp_path: pathlib.Path, text: str, status: int, said: str
) -> None:
    """Nothing is written, and a line says why."""
    path = tmp_path / "services"
    path.write_text(text)
    ran = run([sys.executable, ALLOC / "tenant_calls.py", path])
    assert (ran.status, ran.output) == (status, "") and said in ran.errors
    lines: list[list[Word]] = [[tmp_path / "absent"], [tmp_path], ["--x"], [path, path]]
    for words in lines:
        assert run([sys.executable, ALLOC / "tenant_calls.py", *words]).status == 2


def beside(shared: pathlib.Path, *words: Word) -> Ran:
    """What the script says of three heaps."""
    need("clang")
    ran = run([sys.executable, ALLOC / "beside_allocators.py", *words],
              extra={"TOMBOLOPAN": str(shared_object(shared))})
    if "has no Scudo" in ran.errors:
        give_up("missing: libclang-rt-14-dev")
    return ran


def test_three_heaps_on_one_trace(shared: pathlib.Path, tmp_path: pathlib.Path) -> None:
    """The profile uses the blocks again that Scudo uses again, row for row; what is mapped is what
    each says. The page has a table of the same form, of which this holds too."""
    trace = tmp_path / "trace"
    record(shared, trace, "perl", "-e", "my %h; for my $i (1 .. 900) { push @{$h{$i % 70}}, "
           "'x' x ($i * 7 % 300); delete $h{$i * 3 % 70} if $i % 5 == 0 } print scalar %h;")
    ran = beside(shared, "--rows", "3", trace)
    assert ran.status == 0, ran.errors
    page = re.search(r"beside_allocators\.py: -->\n(.*?)<!-- to here",
                     read_page("docs/ALLOCATORS.md"), re.S)
    assert page and page[1].strip().splitlines()[:2] == ran.output.splitlines()[:2]
    ours = rows_of(replay(shared, trace, "--every", "1000000"))[-1]
    for table, count in ((ran.output, 3), (page[1].strip(), 4)):
        lines = [[it.strip() for it in line.strip("|\n").split("|")]
                 for line in table.splitlines()[2:]]
        assert len(lines) == count
        for line in lines:
            assert line[5] == line[6] and all(int(it.replace(",", "")) > 0 for it in line[:5])
    last = [it.strip().replace(",", "") for it in ran.output.splitlines()[-1].strip("|").split("|")]
    assert [last[at] for at in (0, 1, 2, 4)] == [
        ours[name] for name in ("calls", "live_bytes", "mapped_bytes", "native_mapped_bytes")]
    assert last[5].split()[0] == ours["reused"] and last[7].split()[0] == ours["native_reused"]


def recorded_by_the_page(folder: pathlib.Path, environment: dict[str, str]) -> str:
    """The heap calls that the page's commands record, without their pointers."""
    part = next(it for it in parts_of("docs/ALLOCATORS.md") if "beside_allocators.py" in it.text)
    commands = [it for it in part.commands() if it.startswith(("cc ", "env "))]
    assert len(commands) == 2
    if not (folder / "examples").exists():
        (folder / "examples").symlink_to(EXAMPLES)
    for command in commands:
        succeed(["bash", "-c", command], cwd=folder, extra=environment)
    return re.sub("0x[0-9a-f]+", "", (folder / "calls.txt").read_text(encoding="ascii"))


def test_the_table_of_the_page(shared: pathlib.Path, tmp_path: pathlib.Path) -> None:
    """The calls that the page's commands record are the same whatever the environment; of Debian
    12 the table and the picture are the page's."""
    need("perl", "cc")
    calls = recorded_by_the_page(tmp_path, {"LC_ALL": "C.UTF-8", "MORE": "a variable"})
    assert calls == recorded_by_the_page(tmp_path, {"LC_ALL": "C"})
    perl, libc = succeed(["perl", "-e", "print $]"]).output, os.confstr("CS_GNU_LIBC_VERSION")
    if (perl, libc) != ("5.036000", "glibc 2.36"):
        give_up("missing: perl 5.36 and glibc 2.36, of Debian 12")
    ran = beside(shared, tmp_path / "calls.txt")
    assert ran.status == 0, ran.errors
    assert f"beside_allocators.py: -->\n\n{ran.output}\n<!-- to" in read_page("docs/ALLOCATORS.md")
    table, picture = tmp_path / "rows.csv", tmp_path / "replay.svg"
    table.write_bytes(replay(shared, tmp_path / "calls.txt", "--every", "100").out)
    assert draw("replay", table, picture) == Ran(0, b"", b"")
    stored = ALLOC.parents[1] / "docs" / "pictures" / picture.name
    assert picture.read_bytes() == stored.read_bytes()


def test_three_heaps_of_wrong_words(shared: pathlib.Path, tmp_path: pathlib.Path) -> None:
    """A status and a line."""
    (tmp_path / "none").write_text("malloc\n")
    lines: list[tuple[list[Word], int]] = [
        (["--rows", "0", tmp_path / "none"], 2), ([tmp_path / "none"], 1),
        ([tmp_path / "absent"], 1), ([], 2)]
    for words, status in lines:
        ran = beside(shared, *words)
        assert (ran.status, ran.output) == (status, "") and "beside_allocators.py: " in ran.errors


def draw(*words: Word) -> Ran:
    """What the script that draws says."""
    return run([sys.executable, ALLOC / "pictures.py", *words])


def points_of(path: pathlib.Path) -> list[list[tuple[float, float]]]:
    """The points of each line that is no mark of an axis."""
    svg = xml.fromstring(path.read_text(encoding="utf-8"))
    lines = [it.get("d", "") for it in svg.iter("{http://www.w3.org/2000/svg}path")
             if it.get("stroke-width") == "2"]
    return [[(float(x), float(y)) for x, y in (part.split(",") for part in line[1:].split("L"))]
            for line in lines]


def test_pictures_of_a_replay(shared: pathlib.Path, tmp_path: pathlib.Path) -> None:
    """A point a row, as high as its bytes, at most 400 a line; the last row is always drawn."""
    trace, table, picture = tmp_path / "trace", tmp_path / "rows.csv", tmp_path / "rows.svg"
    trace.write_text(SMALL)
    table.write_bytes(replay(shared, trace, "--every", "1").out)
    assert draw("replay", table, picture) == Ran(0, b"", b"")
    rows = list(csv.DictReader(table.read_text().splitlines()))
    native, mapped, live = (it for it in points_of(picture) if len(it) == len(rows))
    foot = max(y for points in (native, mapped, live) for _, y in points) + 1
    for points, name in ((native, "native_mapped_bytes"), (mapped, "mapped_bytes"),
                         (live, "live_bytes")):
        tall = [(float(row[name]), y) for row, (_, y) in zip(rows, points, strict=True)]
        for (one, y), (other, below) in zip(tall, tall[1:]):
            assert (one < other) <= (y >= below) and (one > other) <= (y <= below) and y <= foot
    head, *rest = table.read_text().splitlines(keepends=True)
    table.write_text(head + "".join(rest * 200))
    assert draw("replay", table, picture).status == 0
    assert all(len(points) <= 401 for points in points_of(picture))


def test_the_pictures_of_the_page(tmp_path: pathlib.Path) -> None:
    """That of the margins is what the script draws of the page's table; both are small."""
    stored = ALLOC.parents[1] / "docs" / "pictures"
    assert draw("margins", tmp_path / "margins.svg") == Ran(0, b"", b"")
    assert (tmp_path / "margins.svg").read_bytes() == (stored / "margins.svg").read_bytes()
    for name in ("margins.svg", "replay.svg"):
        assert (stored / name).stat().st_size < 20_000
        assert xml.fromstring((stored / name).read_text(encoding="utf-8")).tag.endswith("svg")


def test_pictures_of_wrong_files(tmp_path: pathlib.Path) -> None:
    """Status 2 and a line; nothing is written."""
    for number, text in enumerate((
            "", "calls\n1\n", "a,b\n1,2\n", "\0", "calls,native_mapped_bytes,mapped_bytes,"
            "live_bytes\n", "calls,native_mapped_bytes,mapped_bytes,live_bytes\n1,2,x,4\n",
            "calls,native_mapped_bytes,mapped_bytes,live_bytes\n1,2,nan,4\n")):
        path = tmp_path / str(number)
        path.write_text(text)
        ran = draw("replay", path, tmp_path / "out.svg")
        assert ran.status == 2 and ran.errors.startswith("pictures.py: "), ran.errors
    lines: tuple[list[Word], ...] = (
        [], ["replay"], ["margins"], ["other", "x"], ["margins", tmp_path / "no" / "a.svg"],
        ["replay", tmp_path / "absent", tmp_path / "out.svg"])
    assert all(draw(*words).status == 2 for words in lines)
    assert not (tmp_path / "out.svg").exists()
