"""The scripts that are installed: each says how it is used, and they do what the pages say in a
prefix from which no checkout is seen."""

import os
import pathlib
import re

import pytest

from tests.support import installed, rust_tenants
from tests.support.checkout import tracked_files
from tests.support.fuzzers import PLANTED
from tests.support.host_sessions import HI_REPORT
from tests.support.pages import all_parts, is_for_users, named_code, parts_of, read_page
from tests.support.places import ROOT
from tests.support.running import Ran, Word, run
from tests.support.tools import need

SHARE = "share/tombolopan"
INSTALLER = installed.INSTALLER.read_text(encoding="utf-8")
# The folders whose files the installer copies with their names.
FOLDERS = (re.search(r"find (\w+) ", INSTALLER), re.search(r"put share/tombolopan/(tools/\w+) "
                                                           r'"\$top"/tools/\w+/\*\.py', INSTALLER))


def is_script(path: pathlib.Path) -> bool:
    """Whether a file can be run, and is not built."""
    return os.access(path, os.X_OK) and path.read_bytes()[:2] == b"#!"


SCRIPTS = sorted(name for name in tracked_files() if is_script(ROOT / name) and name.startswith(
    tuple(f"{it[1]}/" for it in FOLDERS if it)))
# What help calls a script, where that is not its name.
CALLED = {"tools/batch/__main__.py": "batch", "examples/many/run.sh": "batch"}
# Programs that pass on what they do not know; each has a word that is wrong for itself.
WRONG = {"tenant-cc": "--stack=none", "tenant-c++": "--stack=none"}

# What commands of pages name and is not installed: it builds and measures a checkout.
CHECKOUT = {"tests/quick.sh", "tests/run.sh", "tools/build.sh", "tools/speed/measure.py"}


@pytest.fixture
def moved(host: pathlib.Path, alone: pathlib.Path, shared: pathlib.Path) -> pathlib.Path:
    """A prefix in another place than it was installed into."""
    assert host.exists() and alone.exists()
    return installed.moved(shared)


def bare(place: pathlib.Path, words: list[Word], cwd: pathlib.Path, *variables: str) -> Ran:
    """Runs a command with nothing in its environment but the prefix's programs and the system's."""
    path = f"PATH={place}/bin:/usr/bin:/bin"
    return run(["env", "-i", path, f"HOME={cwd}", *variables, *words], cwd=cwd)


def test_scripts_of_the_prefix(moved: pathlib.Path) -> None:
    """What the next cases run is all that is installed and can be run."""
    found = {path.resolve() for path in moved.rglob("*") if path.is_file() and is_script(path)}
    assert found == {moved / SHARE / name for name in SCRIPTS} and len(found) > 30


@pytest.mark.parametrize("name", SCRIPTS)
def test_help(moved: pathlib.Path, tmp_path: pathlib.Path, name: str) -> None:
    """--help is written to standard output, and names what is run; nothing is built before."""
    for word in ("--help", "-h"):
        ran = bare(moved, [moved / SHARE / name, word], tmp_path)
        assert (ran.status, ran.errors) == (0, "")
        called = re.escape(CALLED.get(name, name.rpartition("/")[2]))
        assert re.search(rf"^(usage: | +){called}(?!\w)", ran.output, re.M)
    assert not any(tmp_path.iterdir())


@pytest.mark.parametrize("name", SCRIPTS)
def test_wrong_option(moved: pathlib.Path, tmp_path: pathlib.Path, name: str) -> None:
    """A wrong option is refused with status 2 and a text that names --help, on standard error."""
    word = WRONG.get(name.rpartition("/")[2], "--no-such-option")
    ran = bare(moved, [moved / SHARE / name, word], tmp_path)
    assert (ran.status, ran.out) == (2, b"") and "--help" in ran.errors, ran.errors
    assert not any(tmp_path.iterdir())


def make_folder(moved: pathlib.Path, folder: pathlib.Path) -> None:
    """Fills a folder as README.md says, so that commands of pages run in it."""
    made = re.search(r"`(cp -rs PREFIX[^`]*)`", read_page("docs/C.md"))
    assert made
    command = made[1].replace("PREFIX", f"'{moved}'")
    assert bare(moved, ["bash", "-c", command], folder) == Ran(0, b"", b"")


def run_section(moved: pathlib.Path, folder: pathlib.Path, section: str) -> list[str]:
    """Runs the commands of a section of the page on tenants, but what changes the machine, and says
    what each writes. None of them writes into the prefix."""
    before = installed.files_below(moved)
    commands = [command for part in parts_of("docs/TENANTS.md")
                if part.section == section and part.is_for_shell
                for command in part.commands() if not command.startswith("apt-get ")]
    written = []
    for command in commands:
        ran = bare(moved, ["bash", "-c", command], folder)
        assert ran.status == 0, f"{command}: {ran.output}{ran.errors}"
        written.append(ran.output)
    left = installed.files_below(moved) - before
    assert not {it for it in left if "__pycache__" not in it}
    return written


def test_tenants_in_cxx(moved: pathlib.Path, tmp_path: pathlib.Path) -> None:
    """Each command of the page is of use over what is installed; nothing is built or fetched."""
    need("clang", "ld.lld", "aarch64-linux-gnu-as")
    make_folder(moved, tmp_path)
    (tmp_path / "words.cpp").write_text(named_code("docs/TENANTS.md", "words.cpp"))
    (tmp_path / "words.txt").write_text("pear\napple\npear\n")
    written = run_section(moved, tmp_path, "C++")
    library = (moved / SHARE / "examples/libc/out/lib/libc++.a").resolve()
    assert written == [f"build.py: {library} is installed\n", "", "apple 1\npear 2\n"]


def test_tenants_in_rust(moved: pathlib.Path, tmp_path: pathlib.Path) -> None:
    """The same of Rust: core and alloc are those that are installed."""
    assert rust_tenants.compiler()
    rust_tenants.need_cargo()
    make_folder(moved, tmp_path)
    words, records = (rust_tenants.RustTenant(it) for it in ("words", "records/src/main"))
    rust = tmp_path / "examples" / "rust"
    (rust / "records" / "in.json").write_text(records.text("input"), encoding="utf-8")
    (tmp_path / "input").write_text(words.text("input"), encoding="utf-8")
    assert run_section(moved, tmp_path, "Rust") == ["", records.text("output")]
    assert not (rust / "out" / "rust").exists()
    ran = bare(moved, ["mte_run", "--input", "input", rust / "out" / "words.elf"], tmp_path)
    assert (ran.status, ran.output) == (0, words.text("output"))


def test_commands_of_pages(moved: pathlib.Path, tmp_path: pathlib.Path) -> None:
    """In the folder that README.md says how to make, each file of the repository that a command of
    a page for users names is there, or is for a checkout; and scripts find what is installed."""
    make_folder(moved, tmp_path)
    host = bare(moved, ["examples/hi.sh"], tmp_path)
    library = bare(moved, ["examples/embed/library.sh"], tmp_path)
    assert (host.status, host.output) == (0, HI_REPORT)
    assert library == Ran(0, f"{moved}/lib/libtombolopan.a\n".encode(), b"")
    words: list[Word] = ["examples/embed/shared.sh", "examples/embed/libtombolopan.so"]
    assert bare(moved, words, tmp_path) == Ran(0, b"", b"")
    parts = [it for it in all_parts() if it.is_for_shell and is_for_users(it.page)]
    text = "\n".join(command for part in parts for command in part.commands())
    named = set(re.findall(r"(?<![\w/.])(?:examples|tools|crates|tests)/[\w./+-]+", text))
    assert {it for it in named if not (tmp_path / it).exists()} == CHECKOUT


def test_programs_for_tenants(moved: pathlib.Path, tmp_path: pathlib.Path) -> None:
    """tenant-cc, tenant-args and tenant-run, by their names alone."""
    need("clang", "ld.lld")
    (tmp_path / "hello.c").write_text(installed.FREED, encoding="utf-8")
    words: list[Word] = ["tenant-cc", "-O1", "-g", "-o", "hello.elf", "hello.c"]
    assert bare(moved, words, tmp_path) == Ran(0, b"", b"")
    assert bare(moved, ["tenant-args", "hello.elf", "one"], tmp_path) == Ran(0, b"", b"")
    ran = bare(moved, ["tenant-run", "--brief", "hello.elf"], tmp_path)
    assert (ran.status, ran.output) == (139, "hello\n")
    assert ran.errors.endswith("Use After Free, 0 bytes into a 8-byte allocation at "
                               "0x0100000011000010\n")


def test_no_compiler(moved: pathlib.Path, tmp_path: pathlib.Path) -> None:
    """Where there is none, the packages of Debian that have one are named."""
    ran = run(["/usr/bin/python3", moved / "bin" / "tenant-cc", "-c", "a.c"],
              extra={"PATH": str(tmp_path)})
    wanted = "aarch64-linux-gnu-gcc is not there (Debian: clang lld or gcc-aarch64-linux-gnu)"
    assert (ran.status, ran.errors) == (2, f"tenant-cc: {wanted}\n")


def test_fuzzer(moved: pathlib.Path, tmp_path: pathlib.Path) -> None:
    """A fuzzer is built over the installed library, runs, and a crash of its tenant replays."""
    need("clang", "ld.lld")
    fuzz = moved / SHARE / "examples" / "fuzz"
    ran = bare(moved, [fuzz / "build.py", "made", "--fuzzer", "libfuzzer"], tmp_path)
    assert (ran.status, ran.errors) == (0, "")
    made = tmp_path / "made"
    words: list[Word] = [made / "libfuzzer", "-runs=0", made / "cards.corpus"]
    ran = bare(moved, words, tmp_path, f"TENANT={made}/cards.elf")
    assert ran.status == 0 and "DONE" in ran.errors, ran.errors
    card, cause = PLANTED["double free"]
    (tmp_path / "crash").write_bytes(card)
    words = [fuzz / "replay.py", "--times", "2", made / "cards.elf", "crash"]
    ran = bare(moved, words, tmp_path)
    assert (ran.status, ran.errors) == (0, "")
    assert ran.output.startswith(f"crash: 2 runs alike: {cause}")


def test_recorded_heap_calls(moved: pathlib.Path, tmp_path: pathlib.Path) -> None:
    """They are replayed by the installed library and header."""
    need("cc")
    trace = "tombolopan heap calls 1\nmalloc 24 = 0x10\nfree 0x10\n"
    (tmp_path / "calls.txt").write_text(trace, encoding="utf-8")
    words: list[Word] = [moved / SHARE / "examples" / "alloc" / "replay.py", "calls.txt"]
    ran = bare(moved, words, tmp_path)
    assert ran.status == 0 and ran.errors.startswith("calls 2, unknown 0, refused 0, runs ")
    assert ran.output.startswith("calls,live_chunks,") and "\n2,0,0,0," in ran.output


def test_embedding(moved: pathlib.Path, tmp_path: pathlib.Path) -> None:
    """The first programs in Python and C; library.sh and shared.sh give what is installed."""
    need("pkg-config", "cc")
    embed = moved / SHARE / "examples" / "embed"
    wanted = Ran(0, b"breakpoint 1, x0 is 42\n", b"")
    assert bare(moved, ["python3", "-B", embed / "first.py"], tmp_path) == wanted
    told = bare(moved, [embed / "library.sh"], tmp_path)
    assert told == Ran(0, f"{moved}/lib/libtombolopan.a\n".encode(), b"")
    assert bare(moved, [embed / "shared.sh", "libtombolopan.so.2"], tmp_path) == Ran(0, b"", b"")
    installed_bytes = (moved / "lib" / "libtombolopan.so.2").read_bytes()
    assert (tmp_path / "libtombolopan.so.2").read_bytes() == installed_bytes
    command = f"cc '{embed}/first.c' $(pkg-config --cflags --libs tombolopan) && ./a.out"
    variables = f"PKG_CONFIG_PATH={moved}/lib/pkgconfig", f"LD_LIBRARY_PATH={tmp_path}"
    assert bare(moved, ["bash", "-c", command], tmp_path, *variables) == wanted
