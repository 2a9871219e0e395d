"""The host program where one of its allocations is refused, each in turn."""

import pathlib

import pytest

from tests.support.expected import compare
from tests.support.host_sessions import HI_REPORT, admission, make_image, with_hi
from tests.support.peak import measure
from tests.support.refused_memory import Preloaded, preload, refuse_each
from tests.support.running import Ran, Word

# mov x9, #70; mov x0, #200; mov x8, #3; svc #0; mov x8, #4; svc #0; subs x9, x9, #1; b.ne .-24;
# mov x0, #0x30000; mov x8, #3; svc #0; mov x1, #0x20000; mov x8, #6; svc #0; mov x8, #0; svc #0:
# more heap calls than are kept, and a chunk with pages of its own
HEAP_CALLS = """
    d28008c9 d2801900 d2800068 d4000001 d2800088 d4000001 f1000529 54ffff41
    d2a00060 d2800068 d4000001 d2a00041 d28000c8 d4000001 d2800008 d4000001
""".split()

# brk #7
BREAKPOINT = ["d42000e0"]


@pytest.fixture
def preloaded(host: pathlib.Path, shared: pathlib.Path, tmp_path: pathlib.Path) -> Preloaded:
    """The host with its allocations at hand, in a folder with the first example."""
    return preload(host, shared, with_hi(tmp_path))


def test_first_example(preloaded: Preloaded) -> None:
    """Each allocation of the first example is needed."""
    words = ["--frames", "11", "hi.script", "hi.elf"]
    whole, made, ended = refuse_each(preloaded, words)
    assert whole == Ran(0, HI_REPORT.encode(), b"")
    assert made >= 40 and ended == made


def write_session(folder: pathlib.Path) -> list[Word]:
    """Writes a session with heap calls, stops and refusals, and gives its command line."""
    make_image(folder / "heap.elf", HEAP_CALLS)
    make_image(folder / "break.elf", BREAKPOINT)
    lines = [
        admission(1, image=1, pages=200), admission(2, image=2, room=65536),
        admission(2, image=2), admission(3, image=3), admission(4, image=4),
        "slice 1 300", "slice 2 5", "slice 3 1", "slice 1 1000", "stop 2", "slice 2 1",
        admission(5, image=2).replace("input 0", "input 4"), "slice 5 6",
    ]
    (folder / "script").write_text("\n".join(lines) + "\n")
    return ["--frames", "500", "script", "heap.elf", "hi.elf", "break.elf", "script"]


def test_session_of_several_tenants(preloaded: Preloaded) -> None:
    """Admissions, heap calls, a stop and refusals: whatever is refused, the report is whole or
    there is none."""
    whole, made, ended = refuse_each(preloaded, write_session(preloaded.folder))
    assert (whole.status, whole.err) == (0, b"")
    compare("host/memory.txt", whole.output)
    assert made >= 100 and ended >= made - 10, f"{ended} of {made}"


@pytest.mark.parametrize("line", ["slice 7 1", "stop 7", admission(1)])
def test_refused_events_take_no_memory(preloaded: Preloaded, line: str) -> None:
    """However many events are refused, no more is allocated."""
    made = []
    for count in (10, 9999):
        (preloaded.folder / "script").write_text(f"{admission(1)}\n" + f"{line}\n" * count)
        ran = preloaded.run(["--frames", "11", "script", "hi.elf"], 0)
        assert ran.status == 0 and ran.output.count("refused ") == count
        made.append(preloaded.counted())
    assert made[0] == made[1]


@pytest.mark.parametrize(("tenants", "pages", "room", "most"), [
    (400, 4096, 16, 16), (3333, 5, 65536, 32),
])
def test_stopped_tenants_keep_their_records(host: pathlib.Path, tmp_path: pathlib.Path,
                                            tenants: int, pages: int, room: int, most: int) -> None:
    """Tenants that were admitted, run and stopped one after the other take few megabytes, since
    each keeps its record alone (docs/project/MEMORY.md)."""
    folder = with_hi(tmp_path)
    lines = [line for number in range(1, tenants + 1) for line in (
        admission(number, pages=pages, room=room), f"slice {number} 1000", f"stop {number}")]
    (folder / "script").write_text("\n".join(lines))
    measured = measure([host, "--frames", str(2 * pages + 1), "script", "hi.elf"], cwd=folder)
    assert (measured.ran.status, measured.ran.errors) == (0, "")
    assert measured.ran.output.count("status exit 0\n") == tenants
    assert measured.peak < most << 20, f"{measured.peak / (1 << 20):.1f} MiB"
