"""The installed tree: its files, and that each of them is of use in a copy of it elsewhere."""

import ast
import filecmp
import os
import pathlib
import re
import shutil
import stat
import sys

import pytest

from tests.support import installed
from tests.support.cache import cache_folder
from tests.support.checkout import copy_files, link_built, tracked_files
from tests.support.host_sessions import HI_REPORT, with_hi
from tests.support.notes import noted
from tests.support.places import EXAMPLES, ROOT
from tests.support.running import run, succeed
from tests.support.samples import tenant
from tests.support.tools import git, need

EXECUTABLE, READABLE = 0o755, 0o644
MODULES = [f"{package}/{name}" for package in ("tombolopan", "tombolopan_profile") for name in (
    "py.typed", *(it.name for it in (EXAMPLES / "embed" / package).glob("*.py")))]
SHARE, LIBC = "share/tombolopan", "share/tombolopan/examples/libc/out"
# Those of examples/libc, by their comments, and those with options.
TENANTS = {path.name: ast.get_docstring(ast.parse(path.read_text(encoding="utf-8"))) or ""
           for path in sorted((EXAMPLES / "libc").glob("tenant-*"))}
COMPLETED = ("mte_host", "mte_run", "mte_why", *TENANTS)
WITH_STATUSES = ("mte_host", "mte_run", "mte_why", "tenant-cc")
FILES = {
    "bin/mte_host": EXECUTABLE, "bin/mte_run": EXECUTABLE,
    "include/tombolopan.h": READABLE, "include/tombolopan_explain.h": READABLE,
    "include/tenant.h": READABLE,
    "include/tenant_check.h": READABLE,
    "lib/libtombolopan.a": READABLE, "lib/libtombolopan.so.2": EXECUTABLE,
    "lib/pkgconfig/tombolopan.pc": READABLE,
    **{f"share/man/man1/{name}.1": READABLE for name in COMPLETED},
    "share/man/man3/tombolopan.3": READABLE,
    **{f"share/bash-completion/completions/{name}": READABLE for name in COMPLETED},
    **{f"share/zsh/site-functions/_{name}": READABLE for name in COMPLETED},
    **{f"share/fish/vendor_completions.d/{name}.fish": READABLE for name in COMPLETED},
    f"{SHARE}/tombolopan.rs": READABLE,
    **{f"{SHARE}/{name}": READABLE for name in MODULES},
    f"{SHARE}/start.c": READABLE, f"{SHARE}/installed": READABLE,
    **{f"{SHARE}/tools/a64/{name}.py": READABLE for name in ("__init__", "table")},
    **{f"{SHARE}/isa/a64.{name}": READABLE for name in ("rows", "forms")},
    "share/doc/tombolopan/README.md": READABLE, "share/doc/tombolopan/CHANGELOG.md": READABLE,
}
# Files that are those of the checkout, by the folders of both.
COPIES = {f"{SHARE}/examples/": "examples/", "share/doc/tombolopan/docs/": "docs/",
          f"{SHARE}/tools/batch/": "tools/batch/"}
LINKS = {
    "lib/libtombolopan.so": "libtombolopan.so.2",
    "bin/mte_why": "../share/tombolopan/examples/why.sh",
    **{f"bin/{name}": f"../share/tombolopan/examples/libc/{name}" for name in TENANTS},
    **{f"{SHARE}/crates/{name}/out/{name}": f"../../../../../bin/{name}"
       for name in ("mte_host", "mte_run")},
}
HEADER = ROOT / "include" / "tombolopan.h"
HEADERS = (HEADER, ROOT / "include" / "tombolopan_explain.h")
FIRST = "breakpoint 1, x0 is 42\n"
WRITTEN = """\
install.sh: installed into {0}
install.sh: for Python: PYTHONPATH={0}/share/tombolopan
install.sh: where it is no usual place: PKG_CONFIG_PATH={0}/lib/pkgconfig \
LD_LIBRARY_PATH={0}/lib MANPATH={0}/share/man: PATH={0}/bin:$PATH
"""


@pytest.fixture
def prefix(host: pathlib.Path, alone: pathlib.Path, shared: pathlib.Path) -> pathlib.Path:
    """A prefix that was installed into, with programs that are there."""
    assert host.exists() and alone.exists()
    return installed.prefix(shared)


@pytest.fixture
def moved(prefix: pathlib.Path, shared: pathlib.Path) -> pathlib.Path:
    """A copy of the prefix elsewhere."""
    assert prefix.exists()
    return installed.moved(shared)


def copied() -> dict[str, str]:
    """The files that are those of the checkout, each with its name there."""
    return {target + name.removeprefix(source): name for target, source in COPIES.items()
            for name in tracked_files() if name.startswith(source)
            and (source != "docs/" or name.endswith((".md", ".svg")))}


def test_files(prefix: pathlib.Path) -> None:
    """The files are those that the script's comment names, with their modes, and links."""
    found = {str(path.relative_to(prefix)): stat.S_IMODE(path.stat().st_mode)
             for path in prefix.rglob("*") if path.is_file() and not path.is_symlink()}
    libc = {name for name in found if name.startswith(f"{LIBC}/")}
    assert {f"{LIBC}/lib/libc.a", f"{LIBC}/lib/start.o", f"{LIBC}/include/stdio.h"} <= libc
    calls = {name for name in found if name.startswith("share/man/man3/tb_")}
    assert len(calls) >= 25 and "share/man/man3/tb_run.3" in calls
    modes = {name: stat.S_IMODE((ROOT / source).stat().st_mode) & EXECUTABLE
             for name, source in copied().items()}
    rest = {name: mode for name, mode in found.items() if name not in libc | calls}
    assert rest == {**FILES, **modes}
    links = {str(path.relative_to(prefix)): os.readlink(path)
             for path in prefix.rglob("*") if path.is_symlink()}
    assert links == LINKS
    comment = installed.INSTALLER.read_text(encoding="utf-8").split("\nset -euo")[0]
    folders = {f"{'/'.join(name.split('/')[:2])}" for name in FILES if name.count("/") > 1}
    folders |= {name.split("/")[0] for name in FILES if name.count("/") == 1}
    for folder in folders:
        named = re.search(rf"(PREFIX/|, ){folder}\b", comment)
        assert named, f"the comment does not name {folder}"


def test_the_list(prefix: pathlib.Path) -> None:
    """The list of what is installed has each file and each folder."""
    names = (prefix / SHARE / "installed").read_text(encoding="utf-8").splitlines()
    found = {f"{path.relative_to(prefix)}{'/' if path.is_dir() else ''}"
             for path in prefix.rglob("*")}
    assert set(names) == found - {f"{SHARE}/installed"} and len(names) == len(set(names))


def test_no_place_of_the_build(prefix: pathlib.Path) -> None:
    """No file names the checkout, the prefix, or where the C library was built."""
    wrong = [path for path in prefix.rglob("*") if path.is_file()
             for place in (ROOT, prefix, cache_folder())
             if str(place).encode() in path.read_bytes()]
    assert not wrong


def lines_of(built: pathlib.Path) -> str:
    """The lines of what is installed. The commit is that at which tools/build.sh has built and
    marked it, and else that of the checkout."""
    held = re.search(rb"commit:    ([0-9a-f]{40})", built.read_bytes())
    commit = held[1].decode() if held else git("rev-parse", "HEAD").strip()
    return rf"commit:    {commit}\nchanges:   (none|some)\ntoolchain: [0-9a-f]{{40}}\n" \
           r"build:     (  |un)proved\n"


def test_which_build_it_is(prefix: pathlib.Path) -> None:
    """Programs and the library say the commit of the checkout that they were built in."""
    need("readelf")
    built = prefix.parent / "built"
    for name in ("mte_host", "mte_run"):
        wanted = rf"\d\.\d\n{lines_of(built / name)}"
        assert re.fullmatch(wanted, noted(prefix / "bin" / name)), name
    ran = run([prefix / "bin" / "mte_run", "--version"])
    wanted = rf"mte_run \d\.\d\n{lines_of(built / 'mte_run')}"
    assert ran.status == 0 and re.fullmatch(wanted, ran.output), ran.output
    wanted = rf"\d\.\d\n{lines_of(built / 'libtombolopan_c.a')}"
    assert re.fullmatch(wanted, noted(prefix / "lib" / "libtombolopan.so.2"))
    told = "import tombolopan; print(tombolopan.build_info())"
    ran = run([sys.executable, "-c", told], extra=installed.variables(prefix))
    assert ran.status == 0 and re.fullmatch(wanted, ran.output), ran.output
    archive = (prefix / "lib" / "libtombolopan.a").read_bytes()
    assert re.search(wanted.removesuffix(r"\n").encode(), archive)


def test_what_it_writes(prefix: pathlib.Path) -> None:
    """It says where it installed, and what finds it there."""
    written = (prefix.parent / "written").read_text()
    assert written == WRITTEN.format(prefix)


def test_sources_are_those_of_the_checkout(prefix: pathlib.Path) -> None:
    """Headers, bindings, examples and pages are installed as they are."""
    files = {"include/tombolopan.h": "include/tombolopan.h", "include/tenant.h":
             "examples/c/tenant.h", f"{SHARE}/tombolopan.rs":
             "examples/embed/tombolopan.rs", **copied(),
             **{f"{SHARE}/{name}": f"examples/embed/{name}" for name in MODULES}}
    for name, source in files.items():
        assert (prefix / name).read_bytes() == (ROOT / source).read_bytes(), name


def test_pkg_config(moved: pathlib.Path) -> None:
    """pkg-config tells the version of the header, and the flags of the place where it is."""
    need("pkg-config")
    version = re.findall(r"^#define TB_VERSION (\d+)$", HEADER.read_text(encoding="utf-8"), re.M)
    told = {option: succeed(["pkg-config", option, "tombolopan"],
                            extra=installed.variables(moved)).output.strip()
            for option in ("--modversion", "--cflags", "--libs")}
    place = f"{moved}/lib/pkgconfig/../.."
    assert told == {"--modversion": version[0], "--cflags": f"-I{place}/include",
                    "--libs": f"-L{place}/lib -ltombolopan"}


@pytest.mark.parametrize("compiler", ["cc -std=c99", "cc -std=c11", "c++ -std=c++17 -x c++"])
@pytest.mark.parametrize("library", ["shared", "static"])
def test_c_program(moved: pathlib.Path, tmp_path: pathlib.Path,
                   compiler: str, library: str) -> None:
    """A program is compiled without a warning, linked by the name or with the archive, and run."""
    need("pkg-config", "cc", "c++")
    source = EXAMPLES / "embed" / "first.c"
    flags = "$(pkg-config --cflags --libs tombolopan)"
    if library == "static":
        flags = f"$(pkg-config --cflags tombolopan) -x none {moved}/lib/libtombolopan.a"
    command = f"{compiler} -Wall -Wextra -Werror '{source}' {flags}"
    succeed(["bash", "-c", command], cwd=tmp_path, extra=installed.variables(moved))
    extra = {} if library == "static" else installed.variables(moved)
    ran = run([tmp_path / "a.out"], extra=extra)
    assert (ran.status, ran.output, ran.errors) == (0, FIRST, "")
    if library == "shared":
        needed = succeed(["readelf", "-d", tmp_path / "a.out"]).output
        assert "[libtombolopan.so.2]" in needed


def test_symbols_of_the_shared_object(moved: pathlib.Path) -> None:
    """From outside only the calls that the headers declare are seen."""
    need("nm")
    text = "".join(it.read_text(encoding="utf-8") for it in HEADERS)
    declared = set(re.findall(r"^(?:uint32_t|void) (tb_\w+)\(", text, re.M))
    ran = succeed(["nm", "-D", "--defined-only", moved / "lib" / "libtombolopan.so.2"])
    seen = {line.split()[-1] for line in ran.output.splitlines()}
    assert seen == declared and len(declared) >= 10


def test_python(moved: pathlib.Path) -> None:
    """The binding finds the library beside it, without LD_LIBRARY_PATH."""
    extra = {"PYTHONPATH": str(moved / SHARE), "LD_LIBRARY_PATH": ""}
    script = (EXAMPLES / "embed" / "first.py").read_text(encoding="utf-8")
    ran = run([sys.executable, "-c", script], cwd=moved, extra=extra)
    assert (ran.status, ran.output, ran.errors) == (0, FIRST, "")


def test_programs(moved: pathlib.Path, tmp_path: pathlib.Path) -> None:
    """The programs run from there."""
    folder = with_hi(tmp_path)
    ran = run([moved / "bin" / "mte_host", "--frames", "11", "hi.script", "hi.elf"], cwd=folder)
    assert (ran.status, ran.output, ran.errors) == (0, HI_REPORT, "")
    ran = run([moved / "bin" / "mte_run", "hi.elf"], cwd=folder)
    assert (ran.status, ran.output, ran.errors) == (0, "Hi", "")


def test_tenant_cc(moved: pathlib.Path, tmp_path: pathlib.Path) -> None:
    """A C program is built over the C library that is beside it, and explained by its lines."""
    need("clang", "ld.lld")
    (tmp_path / "hello.c").write_text(installed.FREED, encoding="utf-8")
    extra = {**installed.variables(moved), "TENANT_LIBRARY": "", "TOMBOLOPAN_BUILT": ""}
    ran = run(["tenant-cc", "-O1", "-g", "-o", "hello.elf", "hello.c"], cwd=tmp_path, extra=extra)
    assert (ran.status, ran.output, ran.errors) == (0, "", "")
    ran = run(["mte_run", "hello.elf"], cwd=tmp_path, extra=extra)
    assert (ran.status, ran.output) == (129, "hello\n")
    assert "Cause: [MTE]: Use After Free, 0 bytes into a 8-byte allocation" in ran.errors
    assert re.search(r"^  #0 main\+0x\w+ at hello\.c:8$", ran.errors, re.M)


def test_mte_why(moved: pathlib.Path, shared: pathlib.Path) -> None:
    """It is mte_run by --exact, and so is the script of the examples."""
    need("clang", "ld.lld")
    image = tenant(shared, EXAMPLES / "c" / "use_after_free.c")
    extra = {**installed.variables(moved), "TOMBOLOPAN_BUILT": ""}
    wanted = run(["mte_run", "--exact", image], extra=extra)
    assert wanted.status == 129
    for program in ("mte_why", f"{moved}/{SHARE}/examples/why.sh"):
        ran = run([program, image], extra=extra)
        assert (ran.status, ran.output, ran.errors) == (129, "", wanted.errors)
    ran = run(["mte_why", "--help"], extra=extra)
    assert ran.status == 0 and "    mte_why [OPTION..] ELF\n" in ran.output


def test_examples(moved: pathlib.Path, tmp_path: pathlib.Path) -> None:
    """The first session runs where it is, and tenants of examples/c by its Makefile."""
    need("make", "clang", "ld.lld")
    extra = {**installed.variables(moved), "TOMBOLOPAN_BUILT": ""}
    ran = run([moved / SHARE / "examples" / "hi.sh"], extra=extra)
    assert (ran.status, ran.output, ran.errors) == (0, HI_REPORT, "")
    place = tmp_path / "prefix"
    shutil.copytree(moved, place, symlinks=True)
    folder = place / SHARE / "examples" / "c"
    ran = run(["make", "-s", "hello.run"], cwd=folder, extra=extra)
    assert ran.status == 0 and "hello" in ran.output.lower()


def test_many_sessions(moved: pathlib.Path, tmp_path: pathlib.Path) -> None:
    """Sessions run by the library that is installed."""
    many = moved / SHARE / "examples" / "many"
    extra = {**installed.variables(moved), "TOMBOLOPAN": "", "PYTHONDONTWRITEBYTECODE": "1"}
    succeed([many / "make_sessions.py", tmp_path / "sessions", "9"], extra=extra)
    ran = run([many / "run.sh", tmp_path / "sessions"], extra=extra)
    wanted = "9 as wanted, 0 different\n9 run, 0 kept\n"
    assert (ran.status, ran.output, ran.errors) == (0, wanted, "")


def test_completion_of_values(moved: pathlib.Path, tmp_path: pathlib.Path) -> None:
    """Names of files behind an option that takes one, choices, and nothing for a number."""
    (tmp_path / "input.txt").touch()
    word = str(tmp_path / "inp")
    assert installed.completed(moved, "mte_run", "--input", word) == {str(tmp_path / "input.txt")}
    exact = {"--exact", "--exact=all", "--exact=writes"}
    assert installed.completed(moved, "mte_run", "--ex") == exact
    assert installed.completed(moved, "mte_run", "--pages", "") == set()


@pytest.mark.parametrize("shell", ["zsh", "fish"])
def test_completions_are_sound(moved: pathlib.Path, shell: str) -> None:
    """The other shells read their files."""
    need(shell)
    folder = {"zsh": "zsh/site-functions", "fish": "fish/vendor_completions.d"}[shell]
    files = sorted((moved / "share" / folder).iterdir())
    assert len(files) == len(COMPLETED)
    for file in files:
        ran = run([shell, "-n", file])
        assert (ran.status, ran.output, ran.errors) == (0, "", "")


SECTIONS = ("NAME", "SYNOPSIS", "DESCRIPTION", "EXAMPLES", "FILES", "SEE ALSO")


def rendered(moved: pathlib.Path, page: str) -> str:
    """A manual page as it is shown, without a warning."""
    need("man")
    ran = run(["man", "--warnings", "-l", moved / "share" / "man" / page],
              extra={"MANWIDTH": "80", "LC_ALL": "C.UTF-8", "MAN_KEEP_FORMATTING": ""})
    assert (ran.status, ran.errors) == (0, "")
    headings = re.findall(r"^([A-Z][A-Z ]+)$", re.sub(r".\x08", "", ran.output), re.M)
    assert set(SECTIONS) <= set(headings), page
    return re.sub(r".\x08", "", ran.output)


@pytest.mark.parametrize("name", ["mte_host", "mte_run"])
def test_manual_of_a_program(moved: pathlib.Path, name: str) -> None:
    """The page of a program has its usage, and each argument and option of its help."""
    shown = rendered(moved, f"man1/{name}.1")
    told = run([moved / "bin" / name, "--help"]).output
    usage = re.findall(r"^Usage: (.*)$", told, re.M)
    assert re.sub(r"\s+", " ", usage[0]) in re.sub(r"\s+", " ", shown)
    entries = re.findall(r"^ +(-.*?|[<\[].*?)  +(\S.*)$", told, re.M)
    assert len(entries) >= 4
    words = re.sub(r"\s+", " ", shown)
    for option, meaning in entries:
        assert f"{option} {meaning}" in words, option


def test_manual_of_the_library(moved: pathlib.Path) -> None:
    """The page of the library has each call, each struct and each enum of the header."""
    shown = rendered(moved, "man3/tombolopan.3")
    text = HEADER.read_text(encoding="utf-8")
    declared = re.findall(r"^(?:uint32_t|void) (tb_\w+)\(|^enum (\w+) \{|^\} (tb_\w+);$", text,
                          re.M)
    names = [name for found in declared for name in found if name]
    headings = set(re.findall(r"^   (tb_\w+)$", shown, re.M))
    assert len(names) >= 25 and set(names) <= headings, set(names) - headings


@pytest.mark.parametrize("name", WITH_STATUSES)
def test_manual_has_its_statuses(moved: pathlib.Path, name: str) -> None:
    """The page of a program says what its exit status means; of mte_run each one."""
    shown = rendered(moved, f"man1/{name}.1")
    statuses = re.findall(r"^EXIT STATUS\n((?:(?: +.*)?\n)+)", shown, re.M)[0]
    assert statuses.strip()
    usage = re.findall(r"^SYNOPSIS\n +(.+)$", shown, re.M)[0]
    assert len(re.findall(rf"^ +{re.escape(usage)}$", shown, re.I | re.M)) == 1
    if name == "mte_run":
        numbers = re.findall(r"^       (\d+)\b", statuses, re.M)
        assert [*map(int, numbers)] == [0, *range(129, 139), 2]


def test_manual_of_a_call(moved: pathlib.Path) -> None:
    """A call's name leads to the page of the library, and the page is found by its name."""
    need("man")
    extra = {"MANPATH": f"{moved}/share/man", "MANWIDTH": "80", "LC_ALL": "C.UTF-8"}
    for name in ("tb_run", "tb_text", "mte_why", "tombolopan"):
        ran = run(["man", "--warnings", name], extra=extra)
        assert (ran.status, ran.errors) == (0, "")
    shown = run(["man", "tb_run"], extra=extra).output
    assert shown == run(["man", "tombolopan"], extra=extra).output


def test_usage(tmp_path: pathlib.Path) -> None:
    """A prefix is wanted, and at most one folder follows; --help prints the script's comment."""
    usage = "usage: install.sh [--uninstall] PREFIX [FOLDER] (--help)\n"
    place = str(tmp_path)
    wrong: list[list[str]] = [[], ["--prefix"], [place, "a", "b"], ["--uninstall"],
                              ["--uninstall", place, "a"]]
    for words in wrong:
        ran = installed.install(words)
        assert (ran.status, ran.output, ran.errors) == (2, "", usage)
    ran = installed.install(["--help"])
    assert (ran.status, ran.errors) == (0, "")
    assert "    tools/install.sh PREFIX [FOLDER]\n" in ran.output


def test_missing_tools(tmp_path: pathlib.Path) -> None:
    """What is missing is named before anything is done."""
    for tool in ("bash", "dirname", "realpath"):
        (tmp_path / tool).symlink_to(succeed(["which", tool]).output.strip())
    ran = installed.install([str(tmp_path / "prefix")], path=str(tmp_path))
    assert (ran.status, ran.errors) == (2, "install.sh: missing: rt cc ar python3\n")
    assert not (tmp_path / "prefix").exists()


def test_again(prefix: pathlib.Path, tmp_path: pathlib.Path) -> None:
    """What is installed may be installed over: what was and is no more goes away."""
    place = tmp_path / "prefix"
    shutil.copytree(prefix, place, symlinks=True)
    (place / "bin" / "older").touch()
    with open(place / SHARE / "installed", "a", encoding="utf-8") as names:
        names.write("bin/older\n")
    ran = installed.install([str(place), str(prefix.parent / "built")])
    assert (ran.status, ran.output, ran.errors) == (0, WRITTEN.format(place), "")
    assert filecmp.cmpfiles(prefix, place, FILES, shallow=False) == ([*FILES], [], [])
    assert not (place / "bin" / "older").exists()


def test_uninstall(prefix: pathlib.Path, tmp_path: pathlib.Path) -> None:
    """With DESTDIR in front of a prefix that others use too: theirs alone stays."""
    built = str(prefix.parent / "built")
    root, place = tmp_path / "root", tmp_path / "root" / "usr"
    (place / "bin").mkdir(parents=True)
    (place / "bin" / "other").touch()
    ran = installed.install(["/usr", built], root=str(root))
    assert (ran.status, ran.output, ran.errors) == (0, WRITTEN.format("/usr"), "")
    run([place / "bin" / "tenant-cc", "--help"], extra={"PYTHONDONTWRITEBYTECODE": ""})
    assert (place / "bin" / "mte_run").exists() and (place / SHARE / "examples").exists()
    ran = installed.install(["--uninstall", "/usr"], root=str(root))
    assert (ran.status, ran.errors) == (0, "")
    assert ran.output == "install.sh: nothing of it is left in /usr\n"
    assert {str(it.relative_to(root)) for it in root.rglob("*")} == {"usr", "usr/bin",
                                                                     "usr/bin/other"}
    ran = installed.install(["--uninstall", "/usr"], root=str(root))
    assert (ran.status, ran.output) == (2, "")
    assert ran.errors == f"install.sh: nothing is installed there: no {place}/{SHARE}/installed\n"


def test_from_a_checkout(prefix: pathlib.Path, tmp_path: pathlib.Path) -> None:
    """What a checkout has built is installed. A program that is marked as built without proof is
    marked in the prefix too; where the C library of tenants is not built, there is no tenant-cc."""
    clone = copy_files(tmp_path / "clone", "tools/", "examples/", "docs/", "include/", "isa/",
                       "README.md", "CHANGELOG.md", "VERSION", "crates.txt")
    for file in (prefix.parent / "built").iterdir():
        if file.is_file():
            link_built(clone, file.resolve())
    out = clone / "crates" / "mte_run" / "out"
    succeed(["sh", "-c", "sha256sum mte_run >mte_run.unproved"], cwd=out)
    ran = run([clone / "tools" / "install.sh", "prefix"], cwd=tmp_path)
    place = tmp_path / "prefix"
    assert (ran.status, ran.output) == (0, WRITTEN.format(place))
    assert ran.errors == (
        "install.sh: without tenant-cc: its C library is not built (tools/build.sh)\n"
        "install.sh: built without proof: mte_run\n")
    assert not (place / "bin" / "tenant-cc").is_symlink()
    (tmp_path / "no.elf").touch()
    extra = {"TOMBOLOPAN_BUILT": ""}
    ran = run([place / "bin" / "mte_why", tmp_path / "no.elf"], extra=extra)
    assert ran.errors.startswith("mte_why: mte_run is built without proof\n")
    ran = run([place / SHARE / "examples" / "hi.sh"], extra=extra)
    assert (ran.status, ran.output, ran.errors) == (0, HI_REPORT, "")
