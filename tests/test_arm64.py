"""tools/build.sh --arm64: under QEMU mte_host for arm64 writes of drawn sessions over the suite's
images what mte_host writes natively, byte for byte. That the step from the one to the other is
proved nobody claims: each file is marked."""

import pathlib
import random
import re

import pytest

from tests.support import places
from tests.support.notes import noted
from tests.support.once import make_once
from tests.support.places import IMAGES, ROOT
from tests.support.running import Word, run, succeed
from tests.support.tools import give_up, need

SECONDS = 3600
SESSIONS = 60
# Where Debian has the C library of arm64.
EMULATOR = ["qemu-aarch64", "-L", "/usr/aarch64-linux-gnu"]


@pytest.fixture(scope="module")
def foreign(host: pathlib.Path, shared: pathlib.Path) -> pathlib.Path:
    """The program for arm64, of the sources and the build that are tested."""
    need("rt", "qemu-aarch64", "aarch64-linux-gnu-gcc", "aarch64-linux-gnu-objcopy")
    assert host.exists()
    if places.BUILT is not None:
        path = pathlib.Path(places.BUILT).resolve() / "arm64" / "mte_host"
        if not path.exists():
            give_up("the programs were built elsewhere, without those for arm64")
        return path

    def build(done: pathlib.Path) -> None:
        words: list[Word] = [ROOT / "tools" / "build.sh", "--arm64", "--only", "mte_host"]
        done.write_text(succeed(words, seconds=SECONDS).errors, encoding="utf-8")

    make_once(shared / "arm64.built", build)
    return ROOT / "crates" / "mte_host" / "out" / "arm64" / "mte_host"


def drawn_script(drawn: random.Random, images: int) -> tuple[int, str]:
    """How many frames a session has, and its script: tenants of drawn images in drawn slices, some
    stopped, some refused."""
    frames, lines, tenants = drawn.choice([40, 400, 4000]), [], range(1, drawn.randint(2, 8))
    for tenant in tenants:
        mode = drawn.choice(["", "", " async"])
        lines.append(f"admit {tenant} image {drawn.randint(1, images)} "
                     f"input {drawn.choice([0, images + 1])} seed {drawn.getrandbits(64):016x} "
                     f"frames {drawn.choice([8, 16, 64])} out {drawn.choice([0, 7, 4096])}{mode}")
    for _ in range(drawn.randint(4, 30)):
        tenant = drawn.choice([*tenants, 200])
        act = f"stop {tenant}" if drawn.random() < 0.1 else (
            f"slice {tenant} {drawn.choice([1, 17, 900, 40_000])}")
        lines.append(act)
    return frames, "".join(f"{line}\n" for line in lines)


def test_drawn_sessions(foreign: pathlib.Path, host: pathlib.Path, tmp_path: pathlib.Path) -> None:
    """Status, output and errors are the same; most sessions have a report, some tenants fault."""
    drawn, every = random.Random(5), sorted(IMAGES.glob("*.elf"))
    (tmp_path / "input").write_bytes(b"afmu 12\n")
    reports = []
    for number in range(SESSIONS):
        images = drawn.sample(every, 4)
        frames, script = drawn_script(drawn, len(images))
        cut = drawn.randrange(len(script)) if number % 10 == 9 else len(script)
        (tmp_path / "script").write_text(script[:cut], encoding="utf-8")
        words: list[Word] = ["--frames", str(frames), "script", *images, "input"]
        native = run([host, *words], cwd=tmp_path)
        assert run([*EMULATOR, foreign, *words], cwd=tmp_path) == native, script
        reports.append(native.output)
    whole = "".join(reports)
    assert sum(map(bool, reports)) > SESSIONS * 2 // 3
    assert len(re.findall("^status ", whole, re.M)) > SESSIONS
    assert len(set(re.findall(r"^status (\w+)", whole, re.M))) >= 4


def test_words(foreign: pathlib.Path, host: pathlib.Path, tmp_path: pathlib.Path) -> None:
    """So it is with what is wrong: words, and files that cannot be read."""
    (tmp_path / "script").write_text("slice 1 1\n", encoding="utf-8")
    for text in ("", "--help", "--frames 0 script", "--frames 11 absent", "--frames 11 .",
                 "--frames 11 script absent"):
        words = text.split()
        native = run([host, *words], cwd=tmp_path)
        other = run([*EMULATOR, foreign, *words], cwd=tmp_path)
        assert (other.status, other.out) == (native.status, native.out), words
        assert other.err == native.err, words


def test_marks(foreign: pathlib.Path) -> None:
    """It says that it is built without proof, and beside it is of which build it is."""
    assert re.search(r"^build: +unproved$", noted(foreign), re.M)
    note = foreign.with_name(f"{foreign.name}.unproved")
    assert re.match(r"# For arm64, by a step without proof, of the LLVM module of (the proved "
                    r"build|a build without proof)\.\n[0-9a-f]{64}  mte_host\n$",
                    note.read_text(encoding="utf-8"))
