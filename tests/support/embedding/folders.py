"""Folders of sessions: the command line of mte_host in `args`, the files that it names, and what
the host writes of them."""

import pathlib
import shutil
import sys
from collections.abc import Iterator

from tests.support.instructions import call, move, program
from tests.support.places import EXAMPLES, ROOT
from tests.support.running import run, succeed

MADE = 24
HI, FREED = EXAMPLES / "hi.elf", ROOT / "crates" / "mte_host" / "data" / "use_after_free.elf"
Script = tuple[str, list[str]]


def admit(tenant: int, file: int, given: int = 0, pages: int = 20, more: str = "") -> str:
    """An admission, its seed by the tenant's number."""
    seed = tenant * 0x9E3779B97F4A7C15 % 2**64
    return (f"admit {tenant} image {file} input {given} seed {seed:016x}"
            f" frames {pages} out 64{more}")


def scripts() -> Iterator[tuple[str, int, list[str]]]:
    """The name of a session, its frames and its lines. File 1 is hi.elf, 2 a use after free, 3
    reads and writes, 4 calls the heap without end, 5 is a text, 6 no image."""
    everyone = [admit(number, file, 5) for number, file in enumerate((1, 2, 3, 4), 1)]
    slices = [f"slice {tenant} {steps}" for steps in (3, 50, 0, 1000) for tenant in (1, 2, 3, 4)]
    yield "together", 164, everyone + slices
    yield "stopped", 164, [*everyone, *slices[:6], "stop 2", "stop 4", "stop 2", *slices]
    yield "asynchronous", 41, [admit(1, 2, more=" async"), "slice 1 9", "slice 1 1000"]
    yield "again", 41, [admit(7, 3, 5), "slice 7 100", "stop 7", admit(7, 1), admit(8, 3, 1),
                        "slice 8 1048576"]
    yield "refused", 45, [admit(1, 6), admit(2, 1, pages=4), admit(3, 1, pages=0), admit(4, 1),
                          admit(4, 1), admit(5, 1), "slice 9 1", "stop 9", "slice 4 100"]
    yield "empty", 1, []
    yield "comments", 11, ["# nothing", "", "   ", admit(1, 1, pages=5)]
    for name, text in (("syntax", "slice 1"), ("number", "slice 1 1048577"), ("file", admit(2, 7)),
                       ("blanks", "slice  1 1"), ("words", "slice 1 1 1")):
        yield f"fault-{name}", 45, [admit(1, 1), "# a comment", text]


def files() -> dict[str, bytes]:
    """The files of these sessions, by their names."""
    copy = [0xD10043E0, 0xAA0003E9, *move(1, 9), *move(8, 2), 0xD4000001, 0xAA0003E1, 0xAA0903E0,
            *move(8, 1), 0xD4000001, 0x17FFFFF7]
    endless = [*call(3, 24), *call(5, 3, 8), *call(7, 64, 40), 0x17FFFFF5]
    return {"hi": HI.read_bytes(), "freed": FREED.read_bytes(), "copy": program(copy),
            "heap": program(endless), "text": bytes(range(256)), "none": b"no image"}


def write(folder: pathlib.Path) -> None:
    """Writes all folders of sessions, without what is wanted of them."""
    succeed([sys.executable, EXAMPLES / "many" / "make_sessions.py", folder, str(MADE)])
    for name, frames, lines in scripts():
        at = folder / name
        at.mkdir()
        for file, data in files().items():
            (at / file).write_bytes(data)
        (at / "script").write_text("".join(f"{it}\n" for it in lines), encoding="utf-8")
        names = "\n".join(files())
        (at / "args").write_text(f"--frames\n{frames}\nscript\n{names}\n", encoding="utf-8")


def run_host(host: pathlib.Path, folder: pathlib.Path) -> None:
    """Notes in each folder what the host writes; of made sessions it has to be what was wanted."""
    for at in sorted(folder.iterdir()):
        ran = run([host, *words_of(at)], cwd=at)
        made = {"out": ran.out, "err": ran.err, "status": f"{ran.status}\n".encode()}
        for part, data in made.items():
            wanted = at / f"want.{part}"
            assert not wanted.exists() or wanted.read_bytes() == data, f"mte_host: {at.name}"
            wanted.write_bytes(data)


def words_of(folder: pathlib.Path) -> list[str]:
    """The words of a session's command line."""
    return (folder / "args").read_text(encoding="utf-8").splitlines()


def make(host: pathlib.Path, folder: pathlib.Path) -> None:
    """Makes all folders of sessions, each with what the host writes."""
    part = folder.with_name(f"{folder.name}.part")
    shutil.rmtree(part, ignore_errors=True)
    write(part)
    run_host(host, part)
    part.rename(folder)
