"""The page that shows a heap step by step: its size, its data, hostile names, and a browser."""

import base64
import hashlib
import json
import pathlib
import re
from typing import Any

import pytest

from tests.support.browser import Browser
from tests.support.heap_pages import (
    GRANULE, ROW, heap_at_end, plain, read_page, tags_at_end)
from tests.support.places import EXAMPLES, IMAGES
from tests.support.running import Word, run
from tests.support.samples import tenant
from tests.support.tools import need

FAULT = 129
MOST_BYTES = 300_000
LONG = """#include "tenant.h"

struct node { struct node *next; char name[20]; };

static struct node *push(struct node *list, int value)
{
    struct node *node = tenant_malloc(sizeof *node);
    node->next = list;
    for (int i = 0; i < 20; i++)
        node->name[i] = 'a' + (value + i) % 26;
    return node;
}

int main(void)
{
    struct node *list = 0;
    char *big = tenant_malloc(300000);
    for (int i = 0; i < 25; i++) {
        char *buffer = tenant_memalign(64, 40 + i * 10);
        list = push(list, i);
        buffer = tenant_realloc(buffer, 45 + i * 10);
        buffer = tenant_realloc(buffer, i % 3 ? 200 : 8);
        tenant_free(i % 2 ? buffer : 0);
    }
    tenant_free(big);
    tenant_free(list->next);
    return list->next->name[0];
}
"""
STORES = """#include "tenant.h"
int main(void)
{
    char *p = tenant_malloc(64);
    uintptr_t other = ((uintptr_t)p & ~(15ull << 56)) | 9ull << 56;
    __asm__ volatile(".arch_extension memtag\\n st2g %0, [%0]\\n stg %0, [%0, #48]\\n"
                     " stgp xzr, xzr, [%0, #32]" :: "r"(other) : "memory");
    return *(volatile char *)p;
}
"""


def image_of(folder: pathlib.Path, name: str, text: str) -> pathlib.Path:
    """The image of a tenant in C."""
    need("clang", "ld.lld")
    source = folder / f"{name}.c"
    source.write_text(text, encoding="utf-8")
    return tenant(folder, source)


@pytest.fixture(scope="session", name="long")
def fixture_long(alone: pathlib.Path, shared: pathlib.Path) -> pathlib.Path:
    """The page of a use after free behind some 5,000 steps, with its image beside it."""
    image = image_of(shared, "long_page", LONG)
    page = image.with_suffix(".html")
    ran = run([alone, "--html", page, image])
    assert ran.status == FAULT and "Use After Free" in ran.errors
    return page


def test_a_page_is_small(long: pathlib.Path) -> None:
    """Of a use after free of 5,000 steps."""
    page = read_page(long)
    assert page.data["run"]["steps"] >= 5_000 and len(page.data["steps"]) >= 5_000
    assert long.stat().st_size < MOST_BYTES


def test_a_page_needs_no_network(long: pathlib.Path) -> None:
    """Nothing in it names another file, and a browser is told to load nothing: the sums of the
    style and the script are those of what is there, and no other runs."""
    page = read_page(long)
    for word in ("http:", "https:", "'//", " src=", " href=", "url(", "@import", "import(",
                 "fetch(", "XMLHttp", "WebSocket", "Beacon", "innerHTML", "eval(", "write("):
        assert word not in page.frame, word
    policy = re.search(r'content="(default-src .*?)"', page.text, re.S)
    assert policy and policy[1].startswith("default-src 'none';")
    for kind, element in (("style", "style"), ("script", "script")):
        found = re.search(f"<{element}>(.*?)</{element}>", page.text, re.S)
        assert found
        digest = hashlib.sha256(found[1].encode()).digest()
        total = f"{kind}-src 'sha256-{base64.b64encode(digest).decode()}'"
        assert total in policy[1], f"heap_page/frame.rt of report_documents should have {total}"


def test_a_page_has_what_json_has(alone: pathlib.Path, long: pathlib.Path) -> None:
    """Byte by byte, and the heap calls are those of `--services`."""
    image, told = long.with_suffix(".elf"), long.with_suffix(".json")
    ran = run([alone, "--json", told, "--services", "--last", "0", image])
    data = read_page(long).data
    assert data["run"] == json.loads(told.read_text(encoding="utf-8"))
    kinds = "malloc|calloc|realloc|memalign|free"
    listed = re.findall(rf"^ *(\d+)  ((?:{kinds})\(.*) = (\S+)$", ran.errors, re.M)
    assert data["made"] == len(data["calls"]) == len(listed) > 100
    for call, (step, text, result) in zip(data["calls"], listed):
        name, value = text.split("(")[0], call["text"].split(" = ")[1]
        assert call["step"] == int(step) and call["text"].startswith(f"{name}(")
        assert int(value, 16) == int(result, 0)


def test_steps_are_those_of_the_trace(alone: pathlib.Path, long: pathlib.Path) -> None:
    """Each step's word, the registers that it changed and the addresses that it accessed."""
    ran = run([alone, "--trace", "--last", "0", long.with_suffix(".elf")])
    lines = re.findall(r"^ *(\d+)  (0x[0-9a-f]{16})  [0-9a-f]{8}  ([^;\n]*)(.*)$", ran.errors, re.M)
    data = read_page(long).data
    assert data["first"] == 1 and len(lines) == len(data["steps"]) == data["run"]["steps"]
    for text, (_, pc, word, effect) in zip(data["steps"], lines):
        index, *changes = text.split(" ")
        assert int(data["code"][int(index)][0], 16) == int(pc, 16)
        assert data["code"][int(index)][1] == word.strip()
        told = [f"{name}={int(value, 16):x}" for name, value
                in re.findall(r"; (x\d+|sp) 0x[0-9a-f]+ -> 0x([0-9a-f]+)", effect)]
        assert [it for it in changes if re.match("x|sp", it)] == told
        places = re.findall(r"[^ ]* ?\[0x([0-9a-f]+)\]", effect)
        accesses = [re.sub(r"^.|[+].*", "", it) for it in changes if it[0] in "rw"]
        assert accesses == places or not places


def test_the_tags_of_a_page_are_those_of_the_memory(
    alone: pathlib.Path, long: pathlib.Path, tmp_path: pathlib.Path
) -> None:
    """What the events give to granules is what the memory has at the end: of heap calls of each
    kind, and of the instructions that store tags."""
    image = image_of(tmp_path, "stores", STORES)
    stores = tmp_path / "stores.html"
    assert run([alone, "--html", stores, image]).status == FAULT
    for path in (long, stores):
        data = read_page(path).data
        held, found = tags_at_end(data), heap_at_end(data).tags
        compared = {at: tag for at, tag in found.items() if at in held}
        assert compared and compared == {at: held[at] for at in compared}
    data = read_page(stores).data
    (call,) = data["calls"]
    assert [tags_at_end(data)[plain(call["made"]) + at] for at in (0, 16, 32, 48)] == [9] * 4


def test_a_chunk_that_is_freed_before_what_is_remembered(
    alone: pathlib.Path, tmp_path: pathlib.Path
) -> None:
    """Its tag is in the data, and is the memory's where nothing changed it later."""
    text = LONG.replace("i < 20", "i < 2000").replace("node->name[i]", "node->name[i % 20]")
    page = tmp_path / "late.html"
    assert run([alone, "--html", page, image_of(tmp_path, "late", text)]).status == FAULT
    data = read_page(page).data
    assert 1 < data["first"] == data["run"]["steps"] - len(data["steps"]) + 1
    ended = [call for call in data["calls"] if "ended" in call]
    assert any(call["step"] < data["first"] for call in ended)
    held = tags_at_end(data)
    for at, tag in heap_at_end(data).tags.items():
        assert at not in held or held[at] == tag, hex(at)


def test_many_heap_calls(alone: pathlib.Path, tmp_path: pathlib.Path) -> None:
    """The page has the last ones, and of those before them what was live: it stays small."""
    text = """#include "tenant.h"
int main(void)
{
    char *first = tenant_malloc(24), *last = 0;
    for (int i = 0; i < 9000; i++)
        tenant_free(last = tenant_malloc(16 + i % 7 * 16));
    return *(volatile char *)last + *first;
}
"""
    page = tmp_path / "many.html"
    assert run([alone, "--html", page, image_of(tmp_path, "many", text)]).status == FAULT
    data = read_page(page).data
    assert data["made"] == 18_001
    assert [call["number"] for call in data["calls"]] == [1, *range(18_001 - 4_095, 18_002)]
    assert page.stat().st_size < 2_000_000


DRAWN = """#include "tenant.h"
static char *kept[96];
int main(void)
{
    unsigned drawn = SEED;
    for (int i = 0; i < 900; i++) {
        drawn = drawn * 1103515245 + 12345;
        char **at = &kept[(drawn >> 8) % 96];
        tenant_free(*at);
        *at = drawn >> 29 ? tenant_malloc((drawn >> 13) % 6000) : 0;
    }
    return 0;
}
"""


def rows_of(call: Any) -> set[int]:
    """The rows of a heap call: that of a chunk which it freed, and the first eight of one which it
    made, with the granules in front of it and behind it."""
    found = {plain(call["ended"]) // ROW * ROW} if "ended" in call else set()
    if "made" in call:
        start, size = plain(call["made"]), max(call["size"], 1)
        first, last = start - GRANULE, start + (size + GRANULE - 1) // GRANULE * GRANULE
        found |= {row * ROW for row in range(first // ROW, last // ROW + 1)[:8]}
    return found


@pytest.mark.parametrize("seed", range(3))
def test_rows_are_those_of_the_chunks(alone: pathlib.Path, tmp_path: pathlib.Path, seed: int
                                      ) -> None:
    """Those of chunks of drawn sizes, which are made and freed in a drawn order."""
    image = image_of(tmp_path, "drawn", DRAWN.replace("SEED", str(seed)))
    page = tmp_path / "drawn.html"
    assert run([alone, "--html", page, image]).status == 0
    data = read_page(page).data
    wanted = set().union(*map(rows_of, data["calls"]))
    assert 200 < len(wanted) < 1024 and len(data["calls"]) > 1000
    assert [int(start, 16) for start, _ in data["rows"]] == sorted(wanted)


@pytest.mark.parametrize("name", [
    "</script><script>alert(1)</script>", "a\"b'c\\d`${1}", "\x01\x1b[31m\x7f\x80", "\u202eflow",
    "<!--<script>", "]]>&lt;&#0;", "größe\u2028", "new\nline\ttab",
])
def test_a_hostile_name_of_an_image(
    alone: pathlib.Path, tmp_path: pathlib.Path, name: str
) -> None:
    """The data have it as it is, and the page is the same as under another name but there."""
    path = tmp_path / f"{name.replace('/', '?')}.elf"
    path.write_bytes((IMAGES / "chunks.gcc-O0.elf").read_bytes())
    page, usual = tmp_path / "page.html", tmp_path / "usual.html"
    run([alone, "--html", page, path])
    run([alone, "--html", usual, IMAGES / "chunks.gcc-O0.elf"])
    got, other = read_page(page), read_page(usual)
    assert got.data["run"]["image"] == str(path) and got.frame == other.frame
    other.data["run"]["image"] = str(path)
    assert got.data == other.data
    assert got.text.count("<script") == 2 and got.text.count("</script>") == 2
    assert "<" not in got.text.split("id='data'>\n")[1].split("\n</script>")[0]


HOSTILE = """#include "tenant.h"
int bad(char *p) __asm__("x</script><script>alert(1)</script>&'<!--");
__attribute__((noinline)) int bad(char *p)
{
#line 7 "<b>'&amp;</script>.c"
    tenant_free(p);
    return *(volatile char *)p;
}
int main(void)
{
    return bad(tenant_malloc(24));
}
"""


def test_hostile_names_in_an_image(alone: pathlib.Path, tmp_path: pathlib.Path) -> None:
    """Of a function and of a source file."""
    page = tmp_path / "page.html"
    image = image_of(tmp_path, "hostile", HOSTILE)
    assert run([alone, "--html", page, image]).status == FAULT
    got = read_page(page)
    assert got.data["run"]["stack"][0]["function"] == "x</script><script>alert(1)</script>&'<!--"
    assert got.text.count("</script>") == 2 and got.text.count("<!--") == 0
    with Browser(page, tmp_path / "profile") as browser:
        assert browser.failures() == [] and "x</script>" in browser.text("stack")
        assert browser.value("document.querySelectorAll('script').length") == 2


def test_names_that_are_no_text(alone: pathlib.Path, tmp_path: pathlib.Path) -> None:
    """Bytes that are no UTF-8 are refused on the command line; nothing is written."""
    image = str(IMAGES / "chunks.gcc-O0.elf").encode()
    for words in ([b"--html", bytes(tmp_path / "a") + b"\xff", image],
                  [b"--html", bytes(tmp_path / "b"), image + b"\xff"]):
        ran = run([alone, *words])
        assert ran.status == 2 and ran.errors == "mte_run: an argument is not text\n"
    assert list(tmp_path.iterdir()) == []


def test_a_page_of_other_ends(alone: pathlib.Path, tmp_path: pathlib.Path) -> None:
    """A tenant that exits, one without a heap call, one that is given up before its first step,
    one that --exact ends, and one of a session."""
    chunks = IMAGES / "chunks.gcc-O0.elf"
    (tmp_path / "script").write_text(
        "admit 7 image 1 input 0 seed 0000000000000001 frames 60 out 10\nslice 7 1000\n")
    ends: list[list[Word]] = [
        [chunks], [EXAMPLES / "hi.elf"], ["--steps", "0", chunks],
        ["--exact", "--input", tmp_path / "script", chunks],
        ["--script", tmp_path / "script", "7", "--frames", "200", chunks]]
    for words in ends:
        run([alone, "--html", tmp_path / "page.html", "--json", tmp_path / "told.json", *words])
        data = read_page(tmp_path / "page.html").data
        assert data["run"] == json.loads((tmp_path / "told.json").read_text(encoding="utf-8"))
        assert data["first"] + len(data["steps"]) in (data["run"]["steps"] + 1, 0)
        found, held = heap_at_end(data).tags, tags_at_end(data)
        assert all(held[at] == tag for at, tag in found.items() if at in held)


def test_a_page_changes_nothing_else(alone: pathlib.Path, tmp_path: pathlib.Path) -> None:
    """What is said and the exit status are those without it, also of a tenant that exits."""
    (tmp_path / "f").write_text("f")
    runs: list[list[Word]] = [
        [EXAMPLES / "hi.elf"], ["--input", tmp_path / "f", IMAGES / "chunks.gcc-O0.elf"],
        ["--last", "3", "--input", tmp_path / "f", IMAGES / "chunks.clang-O0.elf"]]
    for words in runs:
        told = run([alone, *words])
        assert told == run([alone, "--html", tmp_path / "page.html", *words])


def test_a_browser_moves_by_keys(long: pathlib.Path, tmp_path: pathlib.Path) -> None:
    """Arrows, Page Up and Down, Home and End; each part can be reached by Tab; nothing is loaded,
    nothing fails, and no granule differs from what the events gave it."""
    data = read_page(long).data
    steps, calls = data["run"]["steps"], data["calls"]
    with Browser(long, tmp_path / "profile") as page:
        assert page.failures() == [] and page.requests() == [long.as_uri()]
        assert page.text("at") == f"{steps} of {steps}" and page.text("note") == ""
        assert "Use After Free" in page.text("told")
        for key, step in (("ArrowLeft", steps - 1), ("ArrowRight", steps), ("Home", 0),
                          ("PageDown", calls[0]["step"]), ("PageDown", calls[1]["step"]),
                          ("PageUp", calls[0]["step"]), ("ArrowRight", calls[0]["step"] + 1),
                          ("End", steps)):
            page.press(key)
            assert page.text("at") == f"{step} of {steps}", key
            assert page.text("now").startswith(f"Step {step} of {steps}")
        reached = []
        for _ in range(12):
            page.press("Tab")
            reached.append(page.value("document.activeElement.id"))
            assert page.value("getComputedStyle(document.activeElement).outlineStyle") != "none"
        assert reached[:2] == ["slider", "first"] and "number" in reached
        assert {"heap-area", "calls-area"} <= set(reached)
        page.press("Home")
        unlabelled = page.value("Array.from(document.querySelectorAll('input')).filter("
                                "it => it.labels.length === 0).length")
        assert unlabelled == 0 and page.failures() == []


def test_a_browser_shows_it_narrow_dark_and_printed(
    long: pathlib.Path, tmp_path: pathlib.Path
) -> None:
    """It is never wider than a narrow window; each cell has its tag as a digit; printed it has the
    cause, all calls and the heap at the end, and no controls."""
    data = read_page(long).data
    hidden = "getComputedStyle(document.querySelector('{}')).display === 'none'"
    with Browser(long, tmp_path / "profile") as page:
        for width, scheme in ((320, "dark"), (400, "light"), (1200, "dark")):
            page.show_as(width, scheme=scheme)
            assert page.value("document.documentElement.scrollWidth") <= width
            cells = page.value("Array.from(document.querySelectorAll('#heap td b')).map("
                               "it => it.textContent).join('')")
            assert set(cells) <= set("0123456789abcdef.") and len(set(cells)) > 4
        page.press("Home")
        page.show_as(800, "print")
        page.value("window.dispatchEvent(new Event('beforeprint'))")
        assert page.value(hidden.format(".steps")) and page.value(hidden.format("footer"))
        assert not page.value(hidden.format(".cause")) and not page.value(hidden.format("#heap"))
        assert page.value("document.querySelectorAll('#calls tbody tr').length") == len(
            data["calls"])
        assert page.text("now").startswith(f"Step {data['run']['steps']} of")
        page.value("window.dispatchEvent(new Event('afterprint'))")
        assert page.text("at").startswith("0 of")
        assert page.failures() == []
