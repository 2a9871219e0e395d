"""What mte_run tells of the tenants of tests/images: how each act ends, and byte for byte one
report of each kind.

Of all acts and builds test_report_lines.py compares forms, order and parts of the lines, and
test_explanations_beside_tools.py their values with other tools. WRITE_EXPECTED=1 stores the texts.
"""

import hashlib
import pathlib

import pytest

from tests.images.build import Build, make
from tests.support.acts import ACTS, BUILDS, FORGOTTEN, PRIMARY, Act, acts_of, primary
from tests.support.expected import compare
from tests.support.places import IMAGES
from tests.support.report_lines import parts_of
from tests.support.running import Ran, run
from tests.support.told import explain, input_file, read_told
from tests.support.tools import need

SOURCES = sorted(PRIMARY)
IMAGE_BUILDS = [
    (source, build) for source in SOURCES for build in BUILDS if build in primary(source).builds
]
# An act of each kind of end and of cause, with options and a build: the whole report is stored.
REPORTS = (
    ("chunks", "a", "", "clang-O0"), ("chunks", "f", "--last 3", "gcc-O2"),
    ("chunks", "s", "--last 3", "gcc-O0"), ("chunks", "M", "--last 3", "clang-O2"),
    ("chunks", "n", "--last 0", "clang-O0"), ("chunks", "t", "--last 0", "gcc-O2"),
    ("chunks", "v", "--last 0", "gcc-O0"), ("chunks", "g", "--last 3", "clang-O2"),
    ("chunks", "k", "--last 0", "gcc-O2"), ("chunks", "h", "--last 0", "clang-O2"),
    ("chunks", "y", "--exact --last 3", "gcc-O0"), ("chunks", "l", "--leaks", "clang-O2"),
    ("stack", "a", "--last 0", "gcc-O2"), ("stack", "d", "--last 3", "clang-O0"),
    ("stack", "f", "--last 0", "gcc-O0"), ("places", "c", "--last 0", "gcc-O0"),
    ("places", "p", "--last 3", "clang-O2"), ("words", "f", "", "clang-O2"),
    ("words", "A", "--last 0", "gcc-O2"), ("words", "T", "--last 3", "gcc-O0"),
    ("names", "n", "--last 0", "gcc-O2"), ("many", "k", "--last 0", "clang-O2"),
    ("services", "a", "--async --last 3", "gcc-O2"),
    ("services", "w", "--steps 2000 --last 3", "clang-O0"), ("services", "e131", "", "gcc-O0"),
    ("services", "s", "--slices 40,0,1048576 --services --last 3", "clang-O2"),
    ("services", "o", "--out 25", "gcc-O2"), ("sums", "d", "--last 0", "clang-O2"),
    ("objects", "o", "--last 3", "clang-O2"), ("pairs", "x", "", "gcc-O2"),
)
# What is told on request, in one run: a text, and below it the file of --json.
REQUESTED = (
    "--statistics", "--leaks", "--calls", "9", "--last", "3", "--services", "--trace=1-6",
    "--map", "text",
)


def shown(title: str, ran: Ran) -> str:
    """A run as it is stored."""
    output = ran.out.decode("latin-1").encode("unicode_escape").decode()
    return f"$ mte_run {title}\nstatus {ran.status}\noutput {output}\n{ran.errors}\n"


def titled(act: Act, build: str, *options: str) -> str:
    """A command as it is stored."""
    words = ["--input", f"({act.input})", *act.options, *options, f"{act.source}.{build}.elf"]
    return " ".join(words)


@pytest.mark.parametrize("source", SOURCES)
def test_a_report_of_each_kind_is_as_stored(
    alone: pathlib.Path, shared: pathlib.Path, source: str
) -> None:
    """The whole text on standard error, the output and the status."""
    told = ""
    for name, text, options, build in REPORTS:
        if name == source:
            act = Act(name, text, 0, options=tuple(options.split()))
            told += shown(titled(act, build), explain(alone, act, build, shared))
    compare(f"explanations/{source}.txt", told)


@pytest.mark.parametrize("act", [*ACTS, FORGOTTEN], ids=lambda act: f"{act.source} {act.name}")
def test_each_act_ends_as_its_source_means_it(
    alone: pathlib.Path, shared: pathlib.Path, act: Act
) -> None:
    """By each compiler at each level: how it ends, its cause, and who made and freed the chunk."""
    for build in act.builds:
        check_act(act, build, explain(alone, act, build, shared, "--last", "0"))


def check_act(act: Act, build: str, ran: Ran) -> None:
    """What is told of an act is what its source means."""
    told = read_told(ran.errors)
    title = f"{act.source} {act.name} by {build}: {ran.errors[:600]}"
    assert ran.status == act.status, title
    assert told.first.startswith(act.first), title
    assert (told.cause or "").startswith(act.cause) and bool(told.cause) == bool(act.cause), title
    by = {call.did: f"{call.number}, {call.text}" for call in reversed(told.calls)}
    assert by.get("allocated", "").startswith(act.made), title
    assert by.get("freed", "").startswith(act.freed), title
    pairs = (("allocated", act.made), ("freed", act.freed))
    assert set(by) == {did for did, call in pairs if call}, title


@pytest.mark.parametrize("source, build", IMAGE_BUILDS)
def test_sources_still_make_such_images(
    alone: pathlib.Path, tmp_path: pathlib.Path, source: str, build: str
) -> None:
    """An image that is made anew behaves as the stored one does, whatever the compiler."""
    compiler, level = build.split("-")
    need(*(("clang", "ld.lld") if compiler == "clang" else ("aarch64-linux-gnu-gcc",)))
    make(Build(source, compiler, f"-{level}"), tmp_path)
    for act in acts_of(source):
        check_act(act, build, explain(alone, act, build, tmp_path, images=tmp_path))


@pytest.mark.parametrize("source, build", [("chunks", "gcc-O2"), ("places", "clang-O0")])
def test_what_is_told_on_request_is_as_stored(
    alone: pathlib.Path, shared: pathlib.Path, tmp_path: pathlib.Path, source: str, build: str
) -> None:
    """Numbers, live chunks, calls, services, a trace, the heap as text, and JSON."""
    act, json = primary(source), tmp_path / "told.json"
    ran = explain(alone, act, build, shared, *REQUESTED, "--json", str(json))
    title = titled(act, build, *REQUESTED, "--json", "FILE")
    compare(f"explanations/requested/{source}.{build}.txt", shown(title, ran) + json.read_text())


PICTURES = (("services", "a", "gcc-O2"), ("stack", "d", "clang-O0"))


@pytest.mark.parametrize("source, text, build", PICTURES)
def test_pictures_are_as_stored(
    alone: pathlib.Path, shared: pathlib.Path, tmp_path: pathlib.Path, source: str, text: str,
    build: str,
) -> None:
    """The picture in a file, and the same after the output."""
    act, picture = Act(source, text, 0), tmp_path / "heap.svg"
    ran = explain(alone, act, build, shared, "--map", str(picture))
    drawn = picture.read_text(encoding="utf-8")
    compare(f"explanations/pictures/{source}-{text}.{build}.svg", drawn)
    assert explain(alone, act, build, shared, "--map", "-").output == ran.output + drawn


def test_a_picture_follows_the_output(alone: pathlib.Path, shared: pathlib.Path) -> None:
    """`--map -` writes after what the tenant wrote, also where it exits."""
    ran = explain(alone, Act("services", "cwords", 0), "gcc-O0", shared, "--map", "-")
    assert ran.output.startswith("words<svg ") and ran.output.endswith("</svg>\n")


@pytest.mark.parametrize("source, build", [it for it in IMAGE_BUILDS if it[1] == "gcc-O2"])
def test_cores_are_as_stored(
    alone: pathlib.Path, shared: pathlib.Path, tmp_path: pathlib.Path, source: str, build: str
) -> None:
    """The bytes of a core, by their number and their SHA-256."""
    core = tmp_path / "core"
    explain(alone, primary(source), build, shared, "--core", str(core))
    held = core.read_bytes()
    text = f"{len(held)} bytes, SHA-256 {hashlib.sha256(held).hexdigest()}\n"
    compare(f"explanations/cores/{source}.{build}.txt", text)


def test_lines_go_to_a_file(
    alone: pathlib.Path, shared: pathlib.Path, tmp_path: pathlib.Path
) -> None:
    """--trace-file has the lines that standard error has without it, and nothing else."""
    act, lines = primary("services"), tmp_path / "lines"
    told = explain(alone, act, "clang-O2", shared).errors
    for options in (("--trace",), ("--services",), ("--trace=9-30", "--services")):
        both = explain(alone, act, "clang-O2", shared, *options).errors
        apart = explain(alone, act, "clang-O2", shared, *options, "--trace-file", str(lines))
        assert apart.errors == told and both == lines.read_text() + told


def test_runs_are_the_same_again(alone: pathlib.Path, shared: pathlib.Path) -> None:
    """A second run tells the same, to the byte."""
    act = primary("chunks")
    assert explain(alone, act, "gcc-O0", shared) == explain(alone, act, "gcc-O0", shared)


# A session: a refused event of each tenant, an asynchronous one, and one that is stopped.
SCRIPT = """# Tenants of tests/images.
admit 7 image 1 input 4 seed 0000000000000001 frames 64 out 100
admit 7 image 1 input 4 seed 0000000000000001 frames 64 out 100
admit 8 image 2 input 5 seed 00000000000000ff frames 16 out 15
slice 7 60
slice 8 1048576
admit 9 image 3 input 6 seed 0000000000000001 frames 4 out 10
admit 9 image 3 input 6 seed 0000000000000001 frames 8 out 10
slice 7 1048576
admit 10 image 2 input 7 seed 0000000000000001 frames 16 out 9 async
slice 10 1048576
slice 9 40
stop 9
slice 9 40
admit 11 image 2 input 0 seed 0000000000000001 frames 5000 out 1
"""
SCRIPT_IMAGES = ("chunks.clang-O0.elf", "services.gcc-O2.elf", "stack.clang-O2.elf")
SCRIPT_INPUTS = ("s", "o", "c", "a")


@pytest.fixture
def session(tmp_path: pathlib.Path) -> list[str]:
    """The words of a session: the script, and its files in their order."""
    script = tmp_path / "session.script"
    script.write_text(SCRIPT, encoding="utf-8")
    inputs = [str(input_file(tmp_path, text)) for text in SCRIPT_INPUTS]
    return [str(script), *SCRIPT_IMAGES, *inputs]


@pytest.mark.parametrize("number", [9, 11, 12])
def test_tenants_of_a_session_are_told_as_stored(
    alone: pathlib.Path, session: list[str], number: int
) -> None:
    """--script: the lines of the report on standard output, and why on standard error."""
    script, *files = session
    words = ["--script", script, str(number), "--frames", "400", "--map", "text", "--leaks",
             "--statistics", "--last", "5", *files]
    ran = run([str(alone), *words], cwd=IMAGES)
    text = f"status {ran.status}\n{ran.output}{ran.errors}"
    compare(f"explanations/session/tenant-{number}.txt", text)


# The same tenants by the options of a run alone.
ALONE = (
    (7, "chunks.clang-O0", "s", "--pages 64 --out 100 --slices 60,1048576"),
    (8, "services.gcc-O2", "o", "--seed ff --pages 16 --out 15"),
    (9, "stack.clang-O2", "c", "--pages 8 --out 10 --slices 40"),
    (10, "services.gcc-O2", "a", "--async --pages 16 --out 9"),
)


@pytest.mark.parametrize("number, name, text, options", ALONE)
def test_tenants_of_a_session_are_told_as_alone(
    alone: pathlib.Path, session: list[str], tmp_path: pathlib.Path, number: int, name: str,
    text: str, options: str,
) -> None:
    """All lines but the title of the heap, which names the session."""
    script, *files = session
    asked = ["--map", "text", "--leaks", "--statistics", "--last", "5"]
    words = ["--script", script, str(number), "--frames", "400", *asked, *files]
    there = run([str(alone), *words], cwd=IMAGES)
    source, build = name.split(".")
    here = explain(alone, Act(source, text, 0, options=tuple(options.split())), build, tmp_path,
                   *asked)
    parts, wanted = parts_of(there.errors), parts_of(here.errors)
    titles = (parts["map"].pop(0), wanted["map"].pop(0))
    assert (there.status, parts) == (here.status, wanted)
    seed = "0" * 14 + ("ff" if number == 8 else "01")
    assert titles[0].replace(f"tenant {number} of {pathlib.Path(script).name}", f"{name}.elf") \
        + f", seed {seed}" == titles[1]


@pytest.mark.parametrize("number", [7, 8, 9, 10])
def test_tenants_of_a_session_report_as_there(
    alone: pathlib.Path, host: pathlib.Path, session: list[str], number: int
) -> None:
    """What --script writes are the tenant's lines of the whole session's report."""
    script, *files = session
    report = run([str(host), "--frames", "400", script, *files], cwd=IMAGES)
    assert report.status == 0, report.errors
    words = ["--script", script, str(number), "--frames", "400", *files]
    ran = run([str(alone), *words], cwd=IMAGES)
    assert ran.output == own_lines(report.output, number)


def own_lines(report: str, number: int) -> str:
    """The lines of a report that are of a tenant: its refused events, and its own."""
    events = [line for line in SCRIPT.splitlines() if line and not line.startswith("#")]
    refused = [
        line for line in report.splitlines() if line.startswith("refused ")
        and events[int(line.split()[1]) - 1].split()[1] == str(number)
    ]
    _, _, rest = report.partition(f"tenant {number}\n")
    lines, _, _ = rest.partition("end\n")
    return "".join(f"{line}\n" for line in refused) + f"tenant {number}\n{lines}end\n"
