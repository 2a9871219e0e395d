"""Files that mte_run reads and writes: their names, what is said of them, and when."""

import json
import os
import pathlib
import re
import shutil
import subprocess
import threading
from typing import Optional

import pytest

from tests.support.expected import compare
from tests.support.places import EXAMPLES, IMAGES, ROOT
from tests.support.running import HANG, Ran, Word, run
from tests.support.samples import tenant
from tests.support.tools import need

HELLO = EXAMPLES / "hi.elf"
USAGE, MEMORY, READ, WRITE = 2, 4, 5, 6
FAULT, CUT = 129, 138
OUTPUTS = ("--json", "--sarif", "--html", "--map", "--core", "--profile", "--trace-file",
           "--progress")
SHARED = ("--json, --sarif, --html, --map, --core, --profile, --trace-file and --progress want "
          "different files, and none that is read")


def failing(alone: pathlib.Path, *words: Word) -> Ran:
    """A run that says one line and runs nothing."""
    ran = run([alone, *words])
    assert ran.out == b"" and ran.errors.count("\n") == 1, ran.errors
    return ran


def test_why_a_file_cannot_be_read(alone: pathlib.Path, tmp_path: pathlib.Path) -> None:
    """The reason follows its name."""
    long = tmp_path / "long.elf"
    long.write_bytes(bytes(16 * 1024 * 1024 + 1))
    for name, reason in ((tmp_path / "absent.elf", ": no such file or folder"),
                         (HELLO / "below.elf", ": no such file or folder"),
                         (long, ": it has more than 16 MiB"), (tmp_path, ": it is a folder")):
        lines: list[list[Word]] = [[name], ["--input", name, HELLO],
                                   ["--script", name, "1", "--frames", "9", HELLO]]
        for words in lines:
            ran = failing(alone, *words)
            assert (ran.status, ran.errors) == (READ, f"mte_run: cannot read {name}{reason}\n")


@pytest.mark.parametrize("option", OUTPUTS)
def test_why_a_file_cannot_be_written(
    alone: pathlib.Path, tmp_path: pathlib.Path, option: str
) -> None:
    """The reason follows its name."""
    for name, reason in ((tmp_path / "absent" / "file", ": no such file or folder"),
                         (tmp_path, ": it is a folder")):
        ran = run([alone, "--trace", "--steps", "1", option, name, HELLO])
        assert ran.status == WRITE
        assert ran.errors.splitlines()[-1] == f"mte_run: cannot write {name}{reason}"


@pytest.mark.parametrize("option", OUTPUTS)
def test_files_are_replaced_whole(
    alone: pathlib.Path, tmp_path: pathlib.Path, option: str
) -> None:
    """A link to the image and another name of it are replaced, and the image stays. Where a file
    cannot be written the report is the same, and nothing else is left in the folder."""
    image, act = tmp_path / "image.elf", tmp_path / "act"
    shutil.copy(IMAGES / "chunks.clang-O0.elf", image)
    act.write_text("a")
    more: list[Word] = ["--input", act, *(["--trace"] if option == "--trace-file" else [])]
    before = image.read_bytes()
    (tmp_path / "link").symlink_to("image.elf")
    (tmp_path / "same").hardlink_to(image)
    (tmp_path / "none").symlink_to("absent.elf")
    there = {it.name for it in tmp_path.iterdir()}
    wanted = run([alone, *more, option, tmp_path / "new", image])
    (tmp_path / "new").unlink()
    report = wanted.errors[:wanted.errors.rindex("mte_run: ended by")]
    assert wanted.status == FAULT and "Cause" in report
    for name in ("link", "same", "none"):
        assert run([alone, *more, option, tmp_path / name, image]) == wanted
        file = tmp_path / name
        assert not file.is_symlink() and file.is_file() and file.read_bytes() != before
        assert image.read_bytes() == before and not (tmp_path / "absent.elf").exists()
    assert {it.name for it in tmp_path.iterdir()} == there
    places: list[Word] = ["/dev/full", tmp_path / "absent" / "file"]
    for place in places:
        ran = run([alone, *more, option, place, image])
        if (option, place) == ("--progress", "/dev/full"):
            # The tenant has ended when its line cannot be written.
            assert ran == wanted
            continue
        assert (ran.status, ran.out) == (WRITE, wanted.out)
        assert option == "--progress" or ran.errors.startswith(report)
    assert {it.name for it in tmp_path.iterdir()} == there and image.read_bytes() == before


@pytest.mark.parametrize("option", OUTPUTS)
def test_files_have_names_of_all_characters(
    alone: pathlib.Path, tmp_path: pathlib.Path, option: str
) -> None:
    """But for / and NUL; of one to four bytes each. Of a folder it is said that it is one."""
    more: list[Word] = ["--trace"] if option == "--trace-file" else []
    every = "".join(map(chr, range(1, 128))).replace("/", "")
    for name in (every, "".join(map(chr, range(0x80, 0xF0))), "größe\u2028\U0001F600", "-x", " "):
        folder = tmp_path / name
        folder.mkdir()
        assert run([alone, *more, option, folder / name, HELLO]).status == 0
        assert [it.name for it in folder.iterdir()] == [name]
        ran = run([alone, *more, option, folder, HELLO])
        assert ran.status == WRITE and ran.errors.endswith(": it is a folder\n"), ran.errors


def test_a_trace_that_finds_no_room(alone: pathlib.Path) -> None:
    """The file's name is told where its lines cannot be written."""
    ran = run([alone, "--trace", "--trace-file", "/dev/full", HELLO])
    assert (ran.status, ran.errors) == (
        WRITE, "mte_run: cannot write /dev/full: no space is left\n")


def test_names_never_reach_a_terminal_raw(alone: pathlib.Path, tmp_path: pathlib.Path) -> None:
    """In a name each character but those of printable ASCII is told by its number."""
    for raw, told in (("\x1b[31mred.elf", "\\u{1b}[31mred.elf"), ("a\nb", "a\\u{a}b"),
                      ("größe", "gr\\u{f6}\\u{df}e"), ("\x7f\x80", "\\u{7f}\\u{80}")):
        ran = failing(alone, tmp_path / raw)
        assert ran.errors == f"mte_run: cannot read {tmp_path}/{told}: no such file or folder\n"
        lines: list[list[Word]] = [
            ["--json", f"absent/{raw}", HELLO], [f"--{raw}", HELLO], ["--exact=" + raw, HELLO],
            [HELLO, raw], ["--seed", raw, HELLO]]
        for words in lines:
            ran = run([alone, *words])
            held = set(ran.err.replace(b"\n", b""))
            assert ran.status in (USAGE, WRITE) and held <= set(range(32, 127)), words


FREED = """#include "tenant.h"
int main(void)
{
    char *p = tenant_malloc(24);
    tenant_free(p);
    return *(volatile char *)p;
}
"""


@pytest.mark.parametrize("name, shown", [
    ("größe", "gr\\u{f6}\\u{df}e.c"), ("日\u202e本", "\\u{65e5}\\u{202e}\\u{672c}.c"),
    ("\x1b[31m", None), ("\x7f", None), ("\x80", None), ("a b", "a b.c"),
])
def test_names_of_source_files_never_reach_a_terminal_raw(
    alone: pathlib.Path, tmp_path: pathlib.Path, name: str, shown: Optional[str]
) -> None:
    """A character beyond ASCII is told by its number, in the name of the image too. A source file
    whose name has control characters is not told."""
    need("clang", "ld.lld")
    source = tmp_path / f"{name}.c"
    source.write_text(FREED, encoding="utf-8")
    image = tmp_path / f"{name}.elf"
    image.write_bytes(tenant(tmp_path, source).read_bytes())
    for words in ((), ("--leaks", "--calls", "9"), ("--map", "text"), ("--trace", "--services"),
                  ("--exact",), ("--statistics", "--last", "99")):
        ran = run([alone, *words, image])
        assert ran.status == FAULT
        assert set(ran.err) <= {10, *range(32, 127)}, ran.err
    frame = run([alone, image]).errors.splitlines()[1]
    assert re.fullmatch(r"  #0 main\+0x[0-9a-f]+(?: at (.*):6)?", frame), frame
    assert frame.endswith(f" at {shown}:6") if shown else " at " not in frame


def test_the_command_for_names_of_inlined_functions_can_be_pasted(
    alone: pathlib.Path, tmp_path: pathlib.Path
) -> None:
    """A shell takes each name of an image for one word."""
    need("clang", "ld.lld", "llvm-symbolizer")
    image = tenant(tmp_path, EXAMPLES / "c" / "use_after_free.c")
    for name in ("plain.elf", "a b.elf", "a;exit 7;.elf", "$(exit 7).elf", "it's.elf", "-x.elf",
                 "*.elf", "\x1b[31m.elf", "größe.elf", "new\nline.elf", "back\\slash\t.elf"):
        copy = tmp_path / name
        copy.write_bytes(image.read_bytes())
        ran = run([alone, copy])
        command = ran.errors.splitlines()[-2]
        assert command.startswith("llvm-symbolizer -i --obj=")
        assert set(command) <= {chr(byte) for byte in range(32, 127)}
        lines = run(["bash", "-c", command], cwd=tmp_path)
        assert lines.status == 0 and "use_after_free.c:13" in lines.output, name


def test_a_file_is_not_both_read_and_written(alone: pathlib.Path, tmp_path: pathlib.Path) -> None:
    """Such a command line is refused, and nothing was written."""
    image, script = tmp_path / "image.elf", tmp_path / "script"
    image.write_bytes(HELLO.read_bytes())
    script.write_text("stop 1\n")
    session: list[Word] = ["--script", script, "1", "--frames", "9"]
    for option in OUTPUTS:
        other = "--core" if option != "--core" else "--json"
        lines: list[list[Word]] = [
            [option, image, image], [option, script, "--input", script, image],
            [option, script, *session, image], [option, "new", other, "new", image],
            [option, "./new", other, "new", image], [option, "./image.elf", "image.elf"]]
        for words in lines:
            ran = run([alone, *words], cwd=tmp_path)
            assert ran.status == USAGE and SHARED in ran.errors, words
            assert image.read_bytes() == HELLO.read_bytes()
            assert sorted(os.listdir(tmp_path)) == ["image.elf", "script"]
    ran = run([alone, "--map", "-", "--json", tmp_path / "-", image])
    assert ran.status == 0 and ran.output.endswith("</svg>\n")


WRITE_MUCH = """#include "tenant.h"
int main(void)
{
    static char text[70000];
    for (unsigned i = 0; i < sizeof text; i++)
        text[i] = 'a' + i % 26;
    return tenant_write(text, sizeof text) == sizeof text ? 0 : 3;
}
"""


def test_output_that_is_cut_has_a_key_and_a_status(
    alone: pathlib.Path, tmp_path: pathlib.Path
) -> None:
    """The key says it always; the status only where it is asked for, and of an exit."""
    need("clang", "ld.lld")
    source, told = tmp_path / "much.c", tmp_path / "told.json"
    source.write_text(WRITE_MUCH, encoding="utf-8")
    image = tenant(tmp_path, source)
    whole = "--whole-output"
    for words, status in (((), 3), ((whole,), CUT), ((whole, "--exact"), CUT)):
        ran = run([alone, "--json", told, *words, image])
        held = json.loads(told.read_text())
        assert (ran.status, held["exit_status"], held["output_cut"]) == (status, status, True)
        assert len(ran.out) == 65536
        last = "exited with 3" if status == 3 else "ended by output that was cut, status 138"
        assert ran.errors.splitlines()[-1] == f"mte_run: {last}"
    ran = run([alone, "--json", told, "--whole-output", HELLO])
    assert ran.status == 0 and json.loads(told.read_text())["output_cut"] is False


def test_the_output_of_a_tenant_of_a_session(alone: pathlib.Path, tmp_path: pathlib.Path) -> None:
    """It is what a run alone writes, in place of the lines of the report; nothing else differs."""
    need("clang", "ld.lld")
    source, script, told = tmp_path / "much.c", tmp_path / "script", tmp_path / "told.json"
    source.write_text(WRITE_MUCH, encoding="utf-8")
    image = tenant(tmp_path, source)
    admit = "admit 1 image {} input 0 seed 0000000000000001 frames 99 out 65536\n"
    script.write_text(f"slice 1 9\n{admit.format(2)}slice 1 1000000\n{admit.format(1)}")
    words: list[Word] = ["--script", script, "1", "--frames", "999", "--json", told, HELLO, image]
    report, lines = run([alone, *words]), json.loads(told.read_text())
    raw = run([alone, "--raw-output", *words])
    written = run([alone, image])
    assert len(raw.out) == 65536 and raw.out == written.out
    refused = "refused 1 NotLive\nrefused 4 Duplicate\n"
    assert report.output.startswith(f"{refused}tenant 1\nstatus exit 3\n")
    assert f"\noutput 65536 {raw.out.hex()}\n" in report.output
    assert (raw.status, raw.errors) == (report.status, report.errors)
    assert json.loads(told.read_text()) == lines


SPIN = """#include "tenant.h"
int main(void)
{
    tenant_write("shown", 5);
    for (volatile unsigned long i = 0;; i++)
        ;
}
"""


def test_output_is_shown_before_a_run_ends(alone: pathlib.Path, tmp_path: pathlib.Path) -> None:
    """A run that is broken off has shown what was written."""
    need("clang", "ld.lld")
    source = tmp_path / "spin.c"
    source.write_text(SPIN, encoding="utf-8")
    words = [str(alone), "--steps", str(10**15), str(tenant(tmp_path, source))]
    with subprocess.Popen(words, stdout=subprocess.PIPE) as process:
        assert process.stdout is not None
        guard = threading.Timer(HANG, process.kill)
        guard.start()
        assert process.stdout.read(5) == b"shown"
        guard.cancel()
        process.kill()


def test_why_an_admission_is_refused(alone: pathlib.Path, tmp_path: pathlib.Path) -> None:
    """The numbers that are at odds are told."""
    script = tmp_path / "script"

    def told(text: str, frames: int) -> list[str]:
        script.write_text(text)
        ran = run([alone, "--script", script, "7", "--frames", str(frames), HELLO])
        assert ran.status == 136
        return ran.errors.splitlines()

    form = "admit {} image 1 input 0 seed 0000000000000001 frames {} out {}\n"
    end = ["mte_run: the session never admits the tenant",
           "mte_run: ended by refusal, status 136"]
    first = form.format(3, 5, 16)
    for pages, room, frames, why in (
        (32, 16, 64, "NoFrames: it takes 65 frames, and 53 are left"),
        (4, 16, 99,
         "ReservationTooSmall: `frames 4` is less than the image's pages and 4 of stack"),
        (0, 16, 99, "BadReservation: `frames 0` is not 1 to 4096, or `out 16` is over 65536"),
        (9, 65537, 99, "BadReservation: `frames 9` is not 1 to 4096, or `out 65537` is over 65536"),
    ):
        lines = told(first + form.format(7, pages, room), frames)
        assert lines == [f"mte_run: event 2 is refused: {why}", *end]
    lines = told(first + "slice 3 9\n", 99)
    assert lines == ["mte_run: no event of the script admits a tenant 7", *end]


def test_a_session_as_json(alone: pathlib.Path) -> None:
    """The stored run of the gate, with what happened as JSON behind the tenant's lines: written by
    the name of standard output, which a gate that runs programs as nobody cannot open."""
    data = ROOT / "crates" / "mte_run" / "data"
    words = (data.parent / "args").read_text(encoding="utf-8").split()
    ran = run([alone, "--json", "/dev/stdout", *words], cwd=data)
    assert ran.status == 7
    compare("run/session_with_json.txt", ran.output)
