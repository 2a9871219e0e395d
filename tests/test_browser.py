"""mte_run in a page: the same answers as the program in two browsers, examples, a run that is
stopped, hostile names, no network, links, contrast, and sizes."""

import gzip
import itertools
import json
import os
import pathlib
import random
import re
import time
from collections.abc import Iterator, Sequence

import pytest
import unproved
from wasm import archive, command, lowered, page as html_page, sources, table

from tests.support import host_frames, page_speed, places, playground
from tests.support.acts import EVERY_IMAGE
from tests.support.browser import Browser
from tests.support.pages import read_page
from tests.support.places import EXAMPLES, IMAGES, ROOT
from tests.support.playground import BROWSERS, AnyBrowser
from tests.support.running import Word, run, succeed
from tests.support.samples import tenant
from tests.support.tools import give_up

MOST_PACKED = 900_000
FIRST_SECONDS, STOP_SECONDS = 2.0, 1.0
# How many times as long things take where more runs than there are processors.
CROWD = max(1.0, os.getloadavg()[0] / (os.cpu_count() or 1))
# How many images the two browsers run in each form; 50 of the suite by hand.
ALL_IMAGES, LEAST_SHARE = 50, 0.4
COUNT = int(os.environ.get("TOMBOLOPAN_BROWSER_IMAGES", "4"))
DONE = "document.body.dataset.status !== undefined"
CONTRAST = 4.5
EXAMPLE_ROWS = sources.read_examples()


@pytest.fixture(scope="session", name="whole")
def fixture_made(alone: pathlib.Path, shared: pathlib.Path) -> pathlib.Path:
    """The page of the programs that are tested. It is not built by each run of the suite."""
    assert alone.exists()
    if places.BUILT is None and "TOMBOLOPAN_BROWSER" not in os.environ:
        give_up("TOMBOLOPAN_BROWSER is not set: a page takes some ten minutes of a processor")
    return playground.playground(shared)


def test_the_page_is_made(whole: pathlib.Path) -> None:
    """It takes a worker some minutes (tests/conftest.py has it begin with that)."""
    assert whole.exists()


@pytest.fixture(scope="module", name="opened", params=sorted(BROWSERS))
def fixture_opened(request: pytest.FixtureRequest, whole: pathlib.Path,
                   tmp_path_factory: pytest.TempPathFactory) -> AnyBrowser:
    """The page in each browser."""
    browser = BROWSERS[request.param](whole, tmp_path_factory.mktemp("profile"))
    request.addfinalizer(lambda: browser.__exit__(None, None, None))
    browser.wait(DONE)
    return browser


@pytest.fixture(scope="module", name="started")
def fixture_started(whole: pathlib.Path,
                    tmp_path_factory: pytest.TempPathFactory) -> Iterator[Browser]:
    """A browser whose events are seen."""
    with Browser(whole, tmp_path_factory.mktemp("profile")) as browser:
        yield browser


@pytest.fixture(name="chromium")
def fixture_chromium(started: Browser, whole: pathlib.Path) -> Browser:
    """The page in a new tab of it."""
    started.open(whole)
    started.wait(DONE)
    return started


def image_named(source: str, build: str) -> bytes:
    """An image of the suite."""
    return (IMAGES / f"{source}.{build}.elf").read_bytes()


def drawn_images(shared: pathlib.Path) -> list[bytes]:
    """Images of the suite, and as many in which drawn words are others."""
    drawn = random.Random(11)
    there = [image_named(*name) for name in EVERY_IMAGE] + [(EXAMPLES / "hi.elf").read_bytes()]
    there += [tenant(shared, path).read_bytes() for path in sorted((EXAMPLES / "c").glob("*.c"))
              if path.stem != "start"]
    found = drawn.sample(there, min(COUNT, len(there)))
    return found + [playground.altered(it, drawn) for it in found]


def test_runs_are_those_of_the_program(opened: AnyBrowser, alone: pathlib.Path,
                                       shared: pathlib.Path, tmp_path: pathlib.Path) -> None:
    """Streams, statuses and files, in each form of options."""
    wrong = playground.compare(opened, alone, drawn_images(shared), tmp_path)
    assert not wrong, "\n".join(wrong)


ENDLESS = "int main(void) { for (;;) __asm__ volatile(\"\"); }\n"


def test_examples(opened: AnyBrowser, alone: pathlib.Path, tmp_path: pathlib.Path) -> None:
    """Each says what the program says of the same image, and marks a line of its source where it
    does not exit."""
    for example in EXAMPLE_ROWS:
        run_example(opened, alone, tmp_path, example)


def run_example(opened: AnyBrowser, alone: pathlib.Path, tmp_path: pathlib.Path,
                example: sources.Example) -> None:
    """One of them."""
    opened.value(f"chooseExample({json.dumps(example.name)})")
    opened.wait(DONE)
    name = f"{example.name}.elf"
    (tmp_path / name).write_bytes(sources.compile_example(example, tmp_path))
    (tmp_path / "input").write_text(example.input, encoding="utf-8")
    words = [f"--{name}" if value is True else f"--{name}={value}"
             for name, value in example.options.items()]
    given = ["--input", "input"] if example.input else []
    ran = run([alone, *words, *given, "--json", "printed.json", name], cwd=tmp_path)
    assert opened.value("document.body.dataset.status") == str(ran.status), example.name
    assert opened.value("document.getElementById('report-text').textContent") == ran.errors
    cause = json.loads((tmp_path / "printed.json").read_text(encoding="utf-8"))["cause"]
    lost = re.search(r"^mte_run: (lost at the end: [1-9].*)$", ran.errors, re.M)
    want = cause or (lost[1] if lost else "")
    assert opened.value("document.getElementById('cause').textContent") == want
    if ran.status > 128:
        marked = opened.value("document.querySelectorAll('#source-text .mark').length")
        assert marked > 0


@pytest.mark.parametrize("options", ["", ", trace: '-'"], ids=["plain", "traced"])
def test_a_run_is_stopped(opened: AnyBrowser, tmp_path: pathlib.Path, options: str) -> None:
    """Within a second, also where it writes a line an instruction; it shows how far it is, and the
    next one runs."""
    source = tmp_path / "endless.c"
    source.write_text(ENDLESS, encoding="utf-8")
    image = playground.letters(tenant(tmp_path, source).read_bytes())
    opened.value(f"void choose({{name: 'e.elf', image: fromLetters('{image}'), files: [], "
                 f"options: {{steps: '1000000000000'{options}}}}})")
    opened.wait("/Runs for .* s, [1-9][0-9,]* steps/.test("
                "document.getElementById('state').textContent)")
    start = time.monotonic()
    opened.value("void document.getElementById('stop').click()")
    opened.wait("document.getElementById('state').textContent === 'Stopped'")
    assert time.monotonic() - start < STOP_SECONDS * CROWD
    opened.value("chooseExample('use_after_free')")
    opened.wait("document.body.dataset.status === '129'")


def test_the_first_explanation_is_there_soon(whole: pathlib.Path, tmp_path: pathlib.Path) -> None:
    """Within two seconds of the page's start, in the best of three."""
    seconds = []
    for turn in range(3):
        with Browser(whole, tmp_path / f"profile{turn}") as browser:
            browser.wait(DONE)
            seconds.append(browser.value("Number(document.body.dataset.first)") / 1000)
    assert min(seconds) < FIRST_SECONDS * CROWD, seconds


def test_steps_a_second(whole: pathlib.Path, alone: pathlib.Path, tmp_path: pathlib.Path) -> None:
    """A plain run of compiled code makes at least 0.4 times the native program's steps a second in
    one of both browsers."""
    if COUNT < ALL_IMAGES:
        give_up(f"TOMBOLOPAN_BROWSER_IMAGES is not {ALL_IMAGES}: speeds are for a quiet machine")
    shares = {}
    for name, kind in BROWSERS.items():
        with kind(whole, tmp_path / name) as browser:
            browser.wait(DONE)
            shares[name] = page_speed.share_of_native(browser, alone, tmp_path)
    print(shares)
    assert max(shares.values()) >= LEAST_SHARE, shares


HOSTILE = """#include "tenant.h"
int bad(char *p) __asm__("x</script><script>document.title='bad'</script>&'<!--");
__attribute__((noinline)) int bad(char *p)
{
    tenant_free(p);
    return *(volatile char *)p; // </script><script>document.title='bad'</script> gr\u00f6\u202e
}
int main(void)
{
    return bad(tenant_malloc(24));
}
"""
NAME = "<img src=x onerror=alert(1)>&'<!--.elf"


def test_hostile_names(chromium: Browser, tmp_path: pathlib.Path) -> None:
    """Of a file, a function, a source line: they run nothing, also in a link or a saved page."""
    source = tmp_path / "hostile.c"
    source.write_text(HOSTILE, encoding="utf-8")
    image = tenant(tmp_path, source).rename(tmp_path / NAME)
    elements = "document.querySelectorAll('script, img').length"
    count, title = chromium.value(elements), chromium.value("document.title")
    chromium.drop(image, source)
    chromium.wait("subject.files.length === 1 && document.body.dataset.status === '129' && "
                  "document.querySelectorAll('#source-text .mark').length > 0")
    assert "x</script>" in chromium.text("stacks")
    assert "'bad'</script> gr\u00f6\\u{202e}" in chromium.value(
        "document.getElementById('source-text').innerText")
    chromium.value("showTab(document.getElementById('tab-heap'))")
    chromium.wait("document.getElementById('frame').srcdoc")
    saved = tmp_path / "saved.html"
    saved.write_text(chromium.value("(async () => pageWith(await runToText(currentRun())))()"),
                     encoding="utf-8")
    for name in ("", f"#run={chromium.value('runToText(currentRun())')}"):
        assert chromium.value(elements) == count and chromium.value("document.title") == title
        with Browser(saved, tmp_path / f"profile{len(name)}") as other:
            other.wait("document.body.dataset.status === '129'")
            assert other.value("document.title") == title and other.failures() == []
    assert chromium.failures() == []


def test_files_that_are_no_program(chromium: Browser, tmp_path: pathlib.Path) -> None:
    """Of another machine, empty, a text, too large, a folder: the page says what became of each."""
    other, empty, text, large, folder = (tmp_path / it for it in ("x86", "empty", "a.txt", "large",
                                                                   "folder"))
    other.write_bytes(pathlib.Path("/bin/true").read_bytes())
    empty.touch()
    text.write_text("no program", encoding="utf-8")
    folder.mkdir()
    with large.open("wb") as file:
        file.truncate((16 << 20) + 1)
    for path, element, wanted in (
        (other, "cause", "the tenant is refused: NotAarch64: is it an ELF64 file for AArch64?"),
        (empty, "state", "empty is no ELF file: it is taken as input. Run begins the run."),
        (text, "state", "a.txt is no ELF file: it is taken as input. Run begins the run."),
        (large, "state", "large has more than 16 MiB: it is not read."),
        (folder, "state", "The files were not read: "),
    ):
        chromium.drop(path)
        chromium.wait(f"document.getElementById('{element}').textContent.startsWith("
                      f"{json.dumps(wanted)})")
    assert chromium.failures() == []


def script_of(text: str) -> str:
    """The script of a page."""
    return text.rsplit("\n<script>", 1)[1].split("</script>")[0]


def test_no_network(chromium: Browser, whole: pathlib.Path) -> None:
    """Opened from disk; nothing but the page itself and what it makes is loaded, and its policy
    names the sums of its scripts."""
    chromium.call("Network.emulateNetworkConditions", offline=True, latency=0,
                  downloadThroughput=-1, uploadThroughput=-1)
    chromium.value("void (document.body.dataset.old = 'yes', location.reload())")
    chromium.wait("document.body && !document.body.dataset.old && "
                  "document.body.dataset.status === '129'")
    chromium.value("showTab(document.getElementById('tab-heap'))")
    chromium.wait("document.getElementById('frame').srcdoc")
    others = [it for it in chromium.requests() if not it.startswith(("blob:", "about:"))]
    assert set(others) == {whole.as_uri()} and chromium.failures() == []
    text = whole.read_text(encoding="utf-8")
    policy = re.search(r'Content-Security-Policy" content="([^"]*)"', text)
    assert policy and policy[1].startswith("default-src 'none';")
    assert "unsafe-inline" not in policy[1] and "http" not in policy[1]
    assert html_page.sum_of(script_of(text)) in policy[1]


def test_links(chromium: Browser) -> None:
    """A run is the same out of a link; a damaged one is refused."""
    chromium.value("chooseExample('echo')")
    chromium.wait("document.body.dataset.status === '0'")
    text = chromium.value("runToText(currentRun())")
    printed = chromium.text("output-text")
    chromium.value("chooseExample('use_after_free')")
    chromium.value(f"void (location.hash = 'run={text}')")
    chromium.wait(f"document.getElementById('output-text').textContent === {json.dumps(printed)}")
    damaged = text[:100] + ("A" if text[100] != "A" else "B") + text[101:]
    chromium.value(f"void (location.hash = 'run={damaged}')")
    chromium.wait("!document.getElementById('missing').hidden")
    assert "damaged" in chromium.text("missing")


def native_session(host: pathlib.Path, folder: pathlib.Path, script: str, frames: str,
                   contents: Sequence[bytes]) -> str:
    """The report of the host; script and files stay in a folder, by their numbers."""
    names = [str(number) for number in range(1, len(contents) + 1)]
    for name, content in zip(names, contents):
        (folder / name).write_bytes(content)
    (folder / "script").write_text(script, encoding="utf-8")
    return succeed([host, "--frames", frames, "script", *names], cwd=folder).output


def session_files(session: sources.Session, folder: pathlib.Path) -> list[bytes]:
    """Images and input of a session of the page."""
    rows = {it.name: it for it in EXAMPLE_ROWS}
    images = [sources.compile_example(rows[image], folder) for image in session.images]
    return [*images, session.input.encode()]


def test_a_session(chromium: Browser, host: pathlib.Path, tmp_path: pathlib.Path) -> None:
    """Its report is the host's. A tenant that is changed changes no lines of the others, and one
    gets frames of another."""
    session, = sources.read_sessions()
    chromium.value("openLesson(5)")
    chromium.wait("document.body.dataset.status === 'session'")
    contents = session_files(session, tmp_path)
    printed = native_session(host, tmp_path, session.script, session.frames, contents)
    assert printed.count("tenant") == 3 and chromium.text("output-text") == printed
    alone = chromium.value("document.getElementById('tenants').textContent")
    assert alone.count("Run alone it has the same lines.") == 3
    assert "; tenant 1 had " in chromium.value("Array.from(document.querySelectorAll("
                                           "'#host-frames h4')).find(it => /tenant 3/.test("
                                           "it.textContent)).textContent")
    link = chromium.value("runToText(currentRun())")
    chromium.value(f"(async () => choose(await textToRun('{link}')))()")
    chromium.wait("document.body.dataset.status === 'session'")
    assert chromium.text("output-text") == printed
    script = "document.getElementById('script')"
    chromium.value(f"void ({script}.value = {script}.value.replace('2 1000', '2 3'))")
    chromium.value("start()")
    chromium.wait("document.body.dataset.status === 'session'")
    heads = chromium.value("Array.from(document.querySelectorAll('#tenants section h3')).map("
                           "it => it.textContent)")
    assert heads == ["Tenant 1 - the same lines as in the run before",
                     "Tenant 2 - other lines than in the run before",
                     "Tenant 3 - the same lines as in the run before"]


FRAMES = "170"
SESSION = """choose({name: 's', image: new Uint8Array(), options: {frames: '%s'}, files: [
    {name: 'script', role: 'script', bytes: encoder.encode(%s)}, ...%s.map((it, index) =>
    ({name: String(index + 1), role: 'file', bytes: fromLetters(it)}))]})"""
CELLS = """(() => {
    const slider = document.getElementById('event');
    if (!slider) return [];
    slider.value = 'EVENT';
    slider.oninput();
    return Array.from(document.querySelectorAll('#host-frames .cell'), it =>
        it.getAttribute('aria-label'));
})()"""


def drawn_script(drawn: random.Random) -> str:
    """Events of some tenants, of which some are refused. Two have room at a time."""
    lines = ["# drawn"]
    for _ in range(drawn.randint(8, 20)):
        tenant_id = drawn.randint(1, 6)
        lines.append(drawn.choice((
            f"admit {tenant_id} image {drawn.randint(1, 3)} input {drawn.choice((0, 3))} seed "
            f"{drawn.getrandbits(64):016x} frames {drawn.choice((2, 20, 40))} out "
            f"{drawn.randint(0, 20)}{drawn.choice(('', ' async'))}",
            f"slice {tenant_id} {drawn.randint(0, 400)}", f"stop {tenant_id}")))
    return "\n".join(lines) + "\n"


def pages_alone(alone: pathlib.Path, folder: pathlib.Path, tenant_id: str) -> set[int]:
    """The pages that a tenant of the session has when the script runs it alone."""
    run([alone, "--script", "script", tenant_id, "--frames", FRAMES, "--json", "run.json", "1", "2",
         "3"], cwd=folder)
    return host_frames.pages_of(json.loads((folder / "run.json").read_text(encoding="utf-8")))


def test_drawn_sessions(chromium: Browser, host: pathlib.Path, alone: pathlib.Path,
                        tmp_path: pathlib.Path) -> None:
    """Their reports are those of the host, also with refused events. Frames hold the pages that
    tenants have alone; the picture says what the moves of frames say, after any event."""
    drawn, rows = random.Random(5), {it.name: it for it in EXAMPLE_ROWS}
    images = [sources.compile_example(rows[name], tmp_path) for name in ("classes", "lost")]
    contents = [*images, b"some text"]
    letters = json.dumps([playground.letters(it) for it in contents])
    refused = moved = 0
    for _ in range(8):
        script = drawn_script(drawn)
        printed = native_session(host, tmp_path, script, FRAMES, contents)
        chromium.value(SESSION % (FRAMES, json.dumps(script), letters))
        assert chromium.text("output-text") == printed, script
        moves = chromium.value("sessionMoves")
        host_frames.only_own_move(moves, script)
        held = host_frames.holders(moves, len(script))
        for tenant_id in {tenant_id for tenant_id, _ in held.values()}:
            own = {page for other, page in held.values() if other == tenant_id}
            assert own == pages_alone(alone, tmp_path, tenant_id), (script, tenant_id)
        event = drawn.randint(0, script.count("\n") - 1)
        cells = [re.fullmatch(r"Frame (\d+): the page (\w+) .*?of tenant (\d+) since.*", it)
                 for it in chromium.value(CELLS.replace("EVENT", str(event)))]
        assert {(int(it[1]), it[3], int(it[2], 16)) for it in cells if it} == \
            host_frames.drawn_cells(host_frames.holders(moves, event)), (script, event)
        refused += printed.count("refused")
        moved += len({move["frame"] for move in moves if not move["comes"]})
    assert refused > 10 and moved > 10


def test_lessons(chromium: Browser) -> None:
    """Each runs its example and shows its tab."""
    for number in range(1, 6):
        chromium.value(f"openLesson({number})")
        chromium.wait(DONE)
        shown = chromium.value("Array.from(document.querySelectorAll('article')).map("
                               "(it, at) => it.hidden ? 0 : at + 1).filter(it => it)")
        assert shown == [number]
        tab = chromium.value("document.querySelector('#result [aria-selected=true]').id")
        assert tab == {2: "tab-heap", 5: "tab-session"}.get(number, "tab-why")
    assert chromium.failures() == []


def test_tags_are_explained(chromium: Browser, tmp_path: pathlib.Path) -> None:
    """Those of the report by their buttons, those of the heap's page under the pointer."""
    title = chromium.value("document.querySelector('#cells .hit').title")
    assert "tag 3" in title and "the pointer of the access has tag 1" in title
    chromium.value("showTab(document.getElementById('tab-heap'))")
    chromium.wait("document.getElementById('frame').srcdoc")
    page = tmp_path / "heap.html"
    page.write_text(chromium.value("document.getElementById('frame').srcdoc"), encoding="utf-8")
    with Browser(page, tmp_path / "heap-profile") as heap:
        printed = heap.value("(() => { const cell = document.querySelector('#heap td.freed'); "
                          "cell.dispatchEvent(new PointerEvent('pointerover', {bubbles: true})); "
                          "return cell.title; })()")
        assert printed == ("0x12000010: tag 3, in a chunk that was freed: a pointer opens it that "
                        "has tag 3; this step accesses it")
        assert heap.failures() == []


def test_a_page_with_a_run(whole: pathlib.Path, alone: pathlib.Path,
                           tmp_path: pathlib.Path) -> None:
    """The text of a run that the tool writes is one that the page reads."""
    image = (IMAGES / "sums.clang-O2.elf").read_bytes()
    run_text = archive.run_text("sums.elf", image, b"1 2 3\n", {"exact": "all", "leaks": True}, [])
    path = tmp_path / "with.html"
    path.write_text(html_page.with_run(whole.read_text(encoding="utf-8"), run_text),
                    encoding="utf-8")
    (tmp_path / "input").write_bytes(b"1 2 3\n")
    (tmp_path / "sums.elf").write_bytes(image)
    ran = run([alone, "--exact", "--leaks", "--input", "input", "sums.elf"], cwd=tmp_path)
    with Browser(path, tmp_path / "profile") as browser:
        browser.wait(DONE)
        assert browser.text("report-text") == ran.errors
        assert browser.value("document.body.dataset.status") == str(ran.status)
        assert browser.text("chosen") == "--exact=all --leaks"


def test_the_command(whole: pathlib.Path, tmp_path: pathlib.Path) -> None:
    """It writes that page with the run, and says which option it does not know."""
    if places.BUILT is not None:
        give_up("the page was built elsewhere: tools/wasm.sh would build it once more")
    image, source = IMAGES / "sums.clang-O2.elf", IMAGES / "sums.c"
    tool, out = ROOT / "tools" / "wasm.sh", tmp_path / "out.html"
    succeed([tool, "--source", source, "--with", image, "-", out, "--", "--exact=all"],
            seconds=playground.SECONDS)
    want = archive.run_text(image.name, image.read_bytes(), b"", {"exact": "all"},
                            [(source.name, source.read_bytes())])
    assert out.read_text(encoding="utf-8") == html_page.with_run(
        whole.read_text(encoding="utf-8"), want)
    wrong: list[list[Word]] = [
        [], ["--with", image, "-", out, "--", "more.elf"], ["--with", image],
        ["--with", tmp_path / "none.elf", "-", out]]
    for words in wrong:
        ran = run([tool, *words])
        assert ran.status in (1, 2) and "wasm.sh: " in ran.errors
        assert "Traceback" not in ran.errors


def test_an_input_of_bytes(whole: pathlib.Path, alone: pathlib.Path,
                           tmp_path: pathlib.Path) -> None:
    """It is read as it is, also where a field of text would change it."""
    given = bytes(range(256)) + b"\r\n\0"
    echo = tenant(tmp_path, EXAMPLES / "c" / "echo.c")
    text = archive.run_text("echo.elf", echo.read_bytes(), given, {}, [])
    path = tmp_path / "bytes.html"
    path.write_text(html_page.with_run(whole.read_text(encoding="utf-8"), text), encoding="utf-8")
    (tmp_path / "input").write_bytes(given)
    assert run([alone, "--input", tmp_path / "input", echo]).out == given
    with Browser(path, tmp_path / "profile") as browser:
        browser.wait(DONE)
        text = browser.value("(async () => { const end = await startRun(requestOf([]), () => {}); "
                             "return toLetters(end.texts[1].parts[0]); })()")
        assert archive.from_letters(text) == given


# As tenant-cc has it, of a program that does nothing.
NOTED = """.section .note.tombolopan, "a", %note
.word 11, 16, 1
.asciz "Tombolopan"
.zero 1
.quad 0, 0
.text
.global _start
_start: mov x0, #7
mov x8, #0
svc #0
"""


def test_arguments_and_files_of_a_tenant(chromium: Browser, tmp_path: pathlib.Path) -> None:
    """They are written into an image as tenant-args writes them, also a second time."""
    source, image = tmp_path / "noted.s", tmp_path / "noted.elf"
    source.write_text(NOTED, encoding="utf-8")
    succeed(["clang", "--target=aarch64-linux-gnu", "-fuse-ld=lld", "-nostdlib", "-static", "-o",
             image, source])
    words, names = ["--all", "a b", "\u00e9"], ["/one.txt", "/folder/deep/two", "/tmp/three"]
    contents = [b"one\n", bytes(range(256)), b""]
    given: list[Word] = []
    for number, (name, content) in enumerate(zip(names, contents)):
        (tmp_path / str(number)).write_bytes(content)
        given += ["--file", f"{name}={tmp_path / str(number)}"]
    files = [{"name": name, "bytes": list(content)} for name, content in zip(names, contents)]
    script = ("toLetters(imageWith(fromLetters('{}'), {}, {}.map(it => "
              "({{name: it.name, bytes: new Uint8Array(it.bytes)}}))))")
    start = image.read_bytes()
    for turn in (words, words[:1]):
        succeed([EXAMPLES / "libc" / "tenant-args", *given, image, "--", *turn])
        made = chromium.value(script.format(playground.letters(start), json.dumps(turn),
                                            json.dumps(files)))
        start = archive.from_letters(made)
        assert start == image.read_bytes()
    chromium.drop(image)
    chromium.wait("subject.name === 'noted.elf' && document.body.dataset.status === '7'")
    assert not chromium.value("document.getElementById('words-row').hidden")


def test_the_version(chromium: Browser) -> None:
    """It has the lines of a build, and what lies between that and the module."""
    chromium.value("void openHelp()")
    chromium.wait("document.getElementById('version').textContent")
    printed = chromium.text("version")
    assert re.search(r"^build: +(un)?proved$", printed, re.M)
    assert re.search(r"^module: +wasm64, compiled from the LLVM module of that build", printed,
                     re.M)
    held = "unproved" if "unproved" in printed else "proved"
    shown = chromium.value("Array.from(document.querySelectorAll('[data-of]')).filter("
                           "it => !it.hidden).map(it => it.dataset.of)")
    assert shown == [{"proved": "proof", "unproved": "no-proof"}[held]]


def test_options_of_a_command_line() -> None:
    """As the page keeps them."""
    words = ["--exact", "--steps", "5", "--check=frees,leaks", "--trace=1-2", "--leaks"]
    assert command.options_of(words) == {"exact": True, "steps": "5", "check": "frees,leaks",
                                         "trace": "1-2", "leaks": True}
    with pytest.raises(SystemExit, match="file.elf is no option"):
        command.options_of(["--leaks", "--exact=all", "file.elf"])


def test_a_browser_without_wide_memories(whole: pathlib.Path, tmp_path: pathlib.Path) -> None:
    """It says so in a sentence."""
    path = tmp_path / "old.html"
    text = whole.read_text(encoding="utf-8")
    old = text.replace("WebAssembly.validate(new", "!WebAssembly.validate(new")
    one, other = (html_page.sum_of(script_of(it)) for it in (text, old))
    path.write_text(old.replace(one, other), encoding="utf-8")
    with Browser(path, tmp_path / "profile") as browser:
        browser.wait("!document.getElementById('missing').hidden")
        assert "memories of 64 bits" in browser.text("missing")


LIGHT = """Array.from(document.querySelectorAll('body *')).filter(it =>
    it.getClientRects().length && ((it.placeholder && !it.value) ||
        Array.from(it.childNodes).some(node => node.nodeType === 3 && node.textContent.trim()))
    ).map(it => {
    const colours = text => {
        const made = document.createElement('canvas').getContext('2d');
        made.fillStyle = text; made.fillRect(0, 0, 1, 1);
        return Array.from(made.getImageData(0, 0, 1, 1).data);
    };
    let ground = it;
    while (ground && colours(getComputedStyle(ground).backgroundColor)[3] < 255)
        ground = ground.parentElement;
    const style = getComputedStyle(it, it.placeholder && !it.value ? '::placeholder' : null);
    return [it.tagName + '.' + it.className + '#' + it.id + ' ' + it.textContent.slice(0, 30),
            colours(style.color), ground ? colours(getComputedStyle(ground).backgroundColor)
            : null, it.disabled === true];
})"""


def luminance(colour: list[int]) -> float:
    """As WCAG 2.2 defines it."""
    parts = (it / 255 for it in colour[:3])
    bright: list[float] = [it / 12.92 if it <= 0.04045 else ((it + 0.055) / 1.055) ** 2.4
                           for it in parts]
    return sum(part * weight for part, weight in zip(bright, (0.2126, 0.7152, 0.0722)))


def contrast(one: list[int], other: list[int]) -> float:
    """Of two colours."""
    low, high = sorted((luminance(one), luminance(other)))
    return (high + 0.05) / (low + 0.05)


@pytest.mark.parametrize("scheme", ["light", "dark"])
def test_contrast(chromium: Browser, scheme: str) -> None:
    """Each text has 4.5 to 1 to its background, in each tab, in lessons and in the help; and no
    width makes the page wider than the window."""
    chromium.value("void (document.getElementById('options').open = true)")
    for lesson, tabs in ((4, ("why", "report", "output", "made")), (5, ("session",))):
        chromium.value(f"openLesson({lesson})")
        chromium.wait(DONE)
        for width, tab in itertools.product((360, 800, 1280), tabs):
            chromium.show_as(width, scheme=scheme)
            chromium.value(f"showTab(document.getElementById('tab-{tab}'))")
            assert chromium.value("document.documentElement.scrollWidth") <= width, tab
            assert_contrast(chromium)
    chromium.value("document.getElementById('help').showModal()")
    assert_contrast(chromium)


def assert_contrast(chromium: Browser) -> None:
    """Of what is shown now."""
    rows = [row for row in chromium.value(LIGHT) if not row[3]]
    wrong = [row for row in rows if row[2] is None or contrast(row[1], row[2]) < CONTRAST]
    assert len(rows) > 20 and not wrong, wrong


def test_keys(chromium: Browser) -> None:
    """Each control is reached by Tab and shows that it is; tabs change by arrows."""
    chromium.value("document.getElementById('tab-why').focus()")
    chromium.press("ArrowRight")
    assert chromium.value("document.activeElement.id") == "tab-report"
    assert not chromium.value("document.getElementById('report').hidden")
    seen = []
    for _ in range(30):
        chromium.press("Tab")
        seen.append(chromium.value("document.activeElement.id"))
        style = chromium.value("getComputedStyle(document.activeElement.id === 'pick' ? "
                               "document.querySelector('.button') : document.activeElement)"
                               ".outlineStyle")
        assert seen[-1] == "" or style != "none", seen[-1]
    assert {"show-lessons", "show-help", "theme", "example", "input", "start"} <= set(seen)
    unlabelled = chromium.value(
        "Array.from(document.querySelectorAll('input, select, textarea')).filter(it => "
        "it.labels.length === 0 && !it.getAttribute('aria-label')).map(it => it.id)")
    assert unlabelled == []


def test_options_are_those_of_the_program(alone: pathlib.Path) -> None:
    """The table of the page has each option of the help, or says that it is elsewhere."""
    named = [option["name"] for group in table.groups() for option in group["option"]]
    there = set(re.findall(r"^ +--([a-z][a-z-]*)", succeed([alone, "--help-all"]).output, re.M))
    assert {*named, *table.elsewhere()} == there - {"help", "help-all", "version"}


def test_sizes_and_sums(whole: pathlib.Path) -> None:
    """Packed it is at most 900 KB; what is inside is the same each time."""
    text = whole.read_bytes()
    assert len(gzip.compress(text, 9, mtime=0)) <= MOST_PACKED
    kept = re.search(r'id="archive">([^<]*)<', text.decode())
    assert kept
    _, parts = archive.split(gzip.decompress(archive.from_letters(kept[1])))
    module, session = (dict(parts)[name] for name in ("module.wasm", "session.wasm"))
    assert html_page.make_page(module, session, b'"no-proof" hidden' in text) == text.decode()


@pytest.mark.skipif(not (ROOT / "crates/mte_session/out/rlib/mte_session.rlib").exists(),
                    reason="the libraries are not proved here")
def test_the_program_of_sessions_fits_the_libraries(tmp_path: pathlib.Path) -> None:
    """The page's own program has the types that the proved libraries ask for. It is proved where
    a page is made."""
    kit = unproved.find_kit()
    words = lowered.words_over_libraries(ROOT, kit, lowered.SESSION, "check")
    checked = run([kit / "bin" / "rattle", *words[1:], "--only", ""],
                  cwd=lowered.folder_of(ROOT, tmp_path, lowered.SESSION))
    assert checked.status == 0, checked.output + checked.errors


def test_each_name_is_declared_once() -> None:
    """A second function of a name would take the place of the first, without a word."""
    text = "".join(html_page.text_of(f"{name}.js") for name in html_page.SCRIPTS)
    names = re.findall(r"^(?:async )?(?:function|const|let) (\w+)", text, re.M)
    assert len(names) > 100 and len(names) == len(set(names))


def test_laws_of_the_lessons() -> None:
    """The laws that lessons name are those of the README."""
    named = set(re.findall(r"<code>(\w+)</code>", html_page.text_of("lessons.html")))
    assert named and named <= set(re.findall(r"`(\w+)`", read_page("README.md")))
