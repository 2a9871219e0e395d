"""Sessions in parts by mte_split: they make the report of mte_host, byte for byte, and a part that
is missing, there twice, damaged or of another session is refused. test_parts.py has tools/batch."""

import hashlib
import pathlib
import re
import resource
import shlex
import shutil

import pytest

from tests.support.embedding import folders
from tests.support.host_sessions import admission, with_hi
from tests.support.once import make_once
from tests.support.running import Ran, run, succeed
from tests.support.split_sessions import LEDGER, SplitSession, resealed

WRONG_WORDS = [
    "", "--list", "--list hi.script hi.elf", "--list --frames 11", "--list --frames 0 hi.script",
    "--list --frames 65537 hi.script", "--list --frames 1e3 hi.script", "--frames 11 hi.script",
    "--tenant --frames 11 hi.script", "--tenant 65536 --frames 11 hi.script",
    "--tenant -1 --frames 11 hi.script", "--list --tenant 1 --frames 11 hi.script",
    "--merge --list hi.script", "--merge --frames 11 hi.script", "--merge",
    "--lists --frames 11 hi.script",
]
# Of a script.
MOST_EVENTS = 10_000


@pytest.fixture
def odd(host: pathlib.Path, shared: pathlib.Path) -> pathlib.Path:
    """Sessions of every kind, and what mte_host writes of each."""
    return make_once(shared / "batch" / "sessions", lambda path: folders.make(host, path))


@pytest.fixture
def together(split: pathlib.Path, odd: pathlib.Path, tmp_path: pathlib.Path) -> SplitSession:
    """A session of several tenants of which some are stopped, so that events are refused."""
    return SplitSession(split, odd / "stopped", tmp_path / "parts")


def wanted(folder: pathlib.Path) -> Ran:
    """What mte_host writes of a session."""
    status = int((folder / "want.status").read_text(encoding="utf-8"))
    return Ran(status, (folder / "want.out").read_bytes(), (folder / "want.err").read_bytes())


# The same bytes as mte_host

def test_sessions_of_every_kind(split: pathlib.Path, odd: pathlib.Path,
                                tmp_path: pathlib.Path) -> None:
    """The parts of a session, in any order, make the report of mte_host; a script with a faulty
    line has no part, and the same line and status."""
    kinds = set()
    for seed, folder in enumerate(sorted(odd.iterdir())):
        session = SplitSession(split, folder, tmp_path / folder.name)
        whole = wanted(folder)
        kinds.add(whole.status)
        if whole.status == 0:
            assert session.merge(session.shuffled(session.write_parts(), seed)) == whole
            continue
        for options in (("--list",), ("--tenant", "1")):
            ran = session.make(*options)
            assert (ran.status, ran.out) == (whole.status, b"")
            assert ran.errors == whole.errors.replace("mte_host", "mte_split")
    assert kinds == {0, 3}


def test_parts(together: SplitSession) -> None:
    """A part has a head, lines of the report, and the sum of these; the sum of its session is that
    of script, files, frames and version. A tenant's lines have nothing of another."""
    words = folders.words_of(together.folder)
    total = hashlib.sha256(b"mte_split 1.0 part " + int(words[1]).to_bytes(8, "big"))
    for name in words[2:]:
        data = (together.folder / name).read_bytes()
        total.update(len(data).to_bytes(8, "big") + data)
    lines = wanted(together.folder).output.splitlines(keepends=True)
    refused = [it for it in lines if it.startswith("refused ")]
    assert refused and together.write_parts() == [LEDGER, *(f"tenant-{it}" for it in "1234")]
    for name in (LEDGER, "tenant-2"):
        text = (together.parts / name).read_bytes()
        head, *body, last = text.decode().splitlines(keepends=True)
        assert head == f"mte_split 1.0 part {total.hexdigest()} {name.replace('-', ' ')}\n"
        assert resealed(text) == text and last.startswith("sum ")
        if name == LEDGER:
            assert body == [*(f"admitted {it} {steps}\n" for it, steps in
                              (("1", 1106), ("2", 53), ("3", 1056), ("4", 3))), *refused]
        else:
            first = lines.index("tenant 2\n")
            assert "".join(body) == "".join(lines[first:lines.index("tenant 3\n")])


def test_each_kind_of_refusal(split: pathlib.Path, host: pathlib.Path,
                              tmp_path: pathlib.Path) -> None:
    """The ledger refuses what the host refuses, and gives frames back as it does: by each kind of
    refusal, of which one takes more tenants than may live."""
    with_hi(tmp_path)
    (tmp_path / "none").write_bytes(b"no image")
    lines = [admission(1), admission(1), admission(2, image=2), admission(3, pages=0),
             admission(4, pages=4), admission(5, pages=4096), "slice 9 1", "stop 1", "slice 1 1",
             "stop 1", admission(1), *(admission(number) for number in range(10, 270)), "stop 20",
             admission(300), admission(301), "stop 301", admission(302, pages=9)]
    (tmp_path / "script").write_text("".join(f"{it}\n" for it in lines))
    (tmp_path / "args").write_text("--frames\n2823\nscript\nhi.elf\nnone\n")
    whole = run([host, *folders.words_of(tmp_path)], cwd=tmp_path)
    kinds = set(re.findall(r"^refused \d+ (\w+)", whole.output, re.M))
    assert kinds == {"Duplicate", "Image", "BadReservation", "ReservationTooSmall", "NoFrames",
                     "TooManyLive", "NotLive"}
    ledger = SplitSession(split, tmp_path, tmp_path / "parts").make("--list").output
    assert re.findall("^refused .*", ledger, re.M) == re.findall("^refused .*", whole.output, re.M)
    assert re.findall(r"^admitted (\d+) ", ledger, re.M) == re.findall(
        r"^tenant (\d+)$", whole.output, re.M)


def test_most_events(split: pathlib.Path, host: pathlib.Path, tmp_path: pathlib.Path) -> None:
    """The ledger of as many events as a script may have takes a second of a processor at most: no
    instruction is run."""
    with_hi(tmp_path)
    lines = [f"{admission(number // 2, pages=500)}\nstop {number // 2}"
             for number in range(0, MOST_EVENTS // 2, 2)]
    lines += [f"slice {number % 9} 1048576" for number in range(MOST_EVENTS // 2)]
    (tmp_path / "script").write_text("".join(f"{it}\n" for it in lines))
    words = ["--frames", "65536", "script", "hi.elf"]
    taken = []
    for _ in range(3):
        before = resource.getrusage(resource.RUSAGE_CHILDREN)
        ledger = succeed([split, "--list", *words], cwd=tmp_path)
        after = resource.getrusage(resource.RUSAGE_CHILDREN)
        taken.append(after.ru_utime + after.ru_stime - before.ru_utime - before.ru_stime)
    refused = [it for it in succeed([host, *words], cwd=tmp_path).output.splitlines()
               if it.startswith("refused ")]
    assert len(refused) == MOST_EVENTS // 2
    assert [it for it in ledger.output.splitlines() if it.startswith("refused ")] == refused
    assert min(taken) < 1, taken


# The command line, and what it is given

def test_wrong_words(split: pathlib.Path, tmp_path: pathlib.Path) -> None:
    """A command line that is wrong has one line, and nothing is written; the help is the
    script's own."""
    with_hi(tmp_path)
    for words in WRONG_WORDS:
        ran = run([split, *shlex.split(words)], cwd=tmp_path)
        assert (ran.status, ran.out) == (2, b""), words
        assert re.fullmatch(r"mte_split: .+ \(--help\)\n", ran.errors), words
    told = succeed([split, "--help"], cwd=tmp_path).output
    assert {"--list", "--tenant", "--merge", "--frames"} <= set(re.findall(r"--\w+", told))


def test_what_cannot_be_read(together: SplitSession) -> None:
    """Files that are not there, and tenants that are not admitted, are named."""
    for options in (("--list",), ("--tenant", "1")):
        ran = run([together.split, *options, "--frames", "11", "absent"], cwd=together.folder)
        assert ran == Ran(5, b"", b"mte_split: cannot read absent\n")
    names = together.write_parts()
    assert together.merge([*names, "absent"]) == Ran(5, b"", b"mte_split: cannot read absent\n")
    for number in ("0", "5", "65535"):
        ran = together.make("--tenant", number)
        assert ran == Ran(11, b"", f"mte_split: tenant {number}: NotAdmitted\n".encode())


def test_no_library(together: SplitSession) -> None:
    """Where the library is not there one line says so; parts are put together without it."""
    names = together.write_parts()
    extra = {"TOMBOLOPAN": str(together.parts / "absent.so")}
    ran = run(together.words("--list"), cwd=together.folder, extra=extra)
    assert (ran.status, ran.out) == (5, b"")
    assert re.fullmatch(r"mte_split: cannot read the library for Python: .*absent\.so.*\n",
                        ran.errors)
    ran = run([together.split, "--merge", *names], cwd=together.parts, extra=extra)
    assert ran == wanted(together.folder)


@pytest.mark.parametrize("options", ["--list", "--tenant 2"])
def test_want_of_memory(together: SplitSession, tmp_path: pathlib.Path, options: str) -> None:
    """Where the library has no memory for a session there is no part."""
    (tmp_path / "tombolopan.py").write_text("""ScriptError = KeyError
def session(frames, script, files):
    raise MemoryError
""")
    ran = run(together.words(*options.split()), cwd=together.folder,
              extra={"PYTHONPATH": str(tmp_path)})
    assert ran == Ran(4, b"", b"mte_split: out of memory\n")


@pytest.mark.parametrize("options", ["--list", "--tenant 2", "--merge"])
@pytest.mark.parametrize("redirected", [">/dev/full", ">&-", ">&- 2>&-"])
def test_a_full_disk(together: SplitSession, options: str, redirected: str) -> None:
    """What cannot be written is said by the status, and by a line where that can be."""
    names = together.write_parts()
    words = (" ".join(f"'{together.parts / it}'" for it in names) if options == "--merge"
             else shlex.join(folders.words_of(together.folder)))
    ran = run(["bash", "-c", f"'{together.split}' {options} {words} {redirected}"],
              cwd=together.folder)
    said = "" if "2>&-" in redirected else "mte_split: cannot write\n"
    assert (ran.status, ran.out, ran.errors) == (6, b"", said)


# Parts that make no report

def is_refused(ran: Ran, status: int, said: str) -> None:
    """Nothing is written, and one line says why."""
    assert (ran.status, ran.out, ran.errors) == (status, b"", f"mte_split: {said}\n")


def test_a_part_is_missing(together: SplitSession) -> None:
    """Each part is missed by its name."""
    names = together.write_parts()
    for name in names:
        said = f"part of {'the ledger' if name == LEDGER else name.replace('-', ' ')}: Missing"
        is_refused(together.merge([it for it in names if it != name]), 10, said)


def test_a_part_is_there_twice(together: SplitSession) -> None:
    """Under its own name or another."""
    names = together.write_parts()
    for name in names:
        is_refused(together.merge([*names, name]), 9, f"part {name}: Twice")
    shutil.copy(together.parts / "tenant-3", together.parts / "copy")
    is_refused(together.merge(["copy", *names]), 9, "part tenant-3: Twice")


def test_a_part_is_damaged(together: SplitSession) -> None:
    """By one changed digit, wherever it is; by a part of it that is cut; by what is added."""
    names = together.write_parts()
    for name in names:
        path = together.parts / name
        sound = path.read_bytes()
        changed = [sound[:at] + bytes([sound[at] ^ 1]) + sound[at + 1:]
                   for at in range(0, len(sound), 7)]
        cut = [sound[:at] for at in (0, 1, 68, 69, 70, len(sound) - 69, len(sound) - 1)]
        lines = sound.splitlines(keepends=True)
        for damaged in (*changed, *cut, sound + b"\n", sound + sound, b"\n" + sound,
                        b"".join(lines[:-2] + lines[-1:]), b"".join(lines[1:])):
            path.write_bytes(damaged)
            is_refused(together.merge(names), 7, f"part {name}: Damaged")
        path.write_bytes(sound)
    assert together.merge(names) == wanted(together.folder)


def test_a_part_of_another_session(together: SplitSession, tmp_path: pathlib.Path) -> None:
    """Of a script, a file or frames that differ, or of another version. So is a part whose tenant
    the ledger does not admit, with right sums."""
    names = together.write_parts()
    other = tmp_path / "other"
    shutil.copytree(together.folder, other)
    script_text, words = (other / "script").read_text(), folders.words_of(other)
    for change in ("script", "text", "args", "more"):
        (other / "script").write_text(script_text + ("# more\n" if change == "script" else ""))
        (other / "text").write_bytes(b"another" if change == "text" else bytes(range(256)))
        frames = "165" if change == "args" else words[1]
        more = ["none"] if change == "more" else []
        (other / "args").write_text("\n".join(["--frames", frames, *words[2:], *more]) + "\n")
        session = SplitSession(together.split, other, tmp_path / f"by-{change}")
        session.write_parts()
        for name in names:
            (together.parts / "strange").write_bytes((session.parts / name).read_bytes())
            mixed = ["strange" if it == name else it for it in names]
            first = names[1] if name == LEDGER else "strange"
            is_refused(together.merge(mixed), 8, f"part {first}: OtherSession")
    sound = (together.parts / "tenant-3").read_bytes()
    for old, new in ((b" tenant 3\n", b" tenant 77\n"), (b"mte_split 1.0", b"mte_split 9.9"),
                     (b" tenant 3\n", b" tenant three\n"), (b" part ", b" port ")):
        (together.parts / "strange").write_bytes(resealed(sound.replace(old, new, 1)))
        kept = [it for it in names if it != "tenant-3" or new == b" tenant 77\n"]
        is_refused(together.merge([*kept, "strange"]), 8, "part strange: OtherSession")
