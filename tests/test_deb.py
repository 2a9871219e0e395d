"""tools/deb.sh: the packages have what is installed, are what Debian asks, and are of use in a root
from which they go away without a trace. tests/test_release.py has that they are the same again."""

import hashlib
import json
import pathlib
import random
import re
import shutil
import sys

import pytest

from mark import ARM64
from packing import fields
from packing.parts import PYTHON, Place, place_of
from packing.release import Release
from tests.support import debian, debugger, foreign, installed, rust_tenants
from tests.support.debian import NAMES, Root, files_of
from tests.support.host_sessions import HI_REPORT
from tests.support.notes import noted
from tests.support.pages import named_code
from tests.support.places import EXAMPLES, ROOT
from tests.support.running import Ran, Word, run, succeed
from tests.support.tools import need

PACKER = ROOT / "tools" / "deb.sh"
VERSION = (ROOT / "VERSION").read_text(encoding="utf-8").strip()
# Some files of each package, by patterns of their names.
FILES = {
    "tombolopan": ("usr/bin/(mte_host|mte_run|mte_why|tenant-cc)",
                   "usr/share/man/man1/mte_run.1.gz", "usr/include/tenant.h",
                   "usr/lib/tombolopan/libc/lib/(libc.a|start.o|large_blocks.o)",
                   "usr/share/bash-completion/completions/mte_run",
                   "usr/share/zsh/vendor-completions/_mte_run",
                   "usr/share/fish/vendor_completions.d/mte_run.fish"),
    "libtombolopan2": (r"usr/lib/[\w-]+/libtombolopan\.so\.2",),
    "libtombolopan-dev": (r"usr/lib/[\w-]+/libtombolopan\.(a|so)", "usr/include/tombolopan.h",
                          r"usr/lib/[\w-]+/pkgconfig/tombolopan\.pc",
                          "usr/share/man/man3/(tombolopan|tb_run).3.gz"),
    "python3-tombolopan": (
        r"usr/lib/python3/dist-packages/tombolopan(?:_profile)?/(\w+\.py|py\.typed)",),
    "tombolopan-doc": ("usr/share/doc/tombolopan/README.md",
                       "usr/share/doc/tombolopan/docs/HOST.md",
                       "usr/share/doc/tombolopan/THEOREMS.md",
                       "usr/share/doc/tombolopan/tombolopan.spdx.json"),
}


@pytest.fixture
def packages(to_pack: pathlib.Path, shared: pathlib.Path) -> dict[str, pathlib.Path]:
    """The packages."""
    return debian.packages(shared, to_pack)


def test_names(packages: dict[str, pathlib.Path]) -> None:
    """They are named as Debian names packages, by the version of the file VERSION; those of files
    that no machine runs are of all machines."""
    assert set(packages) == NAMES
    number = re.escape(VERSION) + r"(~\d{8}\.[0-9a-f]{10}(\.changed)?)?(~unproved)?"
    for name, path in packages.items():
        machine = "all" if name in ("python3-tombolopan", "tombolopan-doc") else r"(?!all)\w+"
        assert re.fullmatch(rf"{name}_{number}_{machine}\.deb", path.name), path.name
        version = succeed(["dpkg-deb", "--field", path, "Version"]).output.strip()
        assert re.fullmatch(number, version)


def test_files(packages: dict[str, pathlib.Path], to_pack: pathlib.Path) -> None:
    """Each installed file is in one package, but the installer's list; no file is in two; and each
    package has its licence and its changes."""
    found = {name: files_of(path) for name, path in packages.items()}
    for name, patterns in FILES.items():
        for pattern in patterns:
            assert any(re.fullmatch(pattern, it) for it in found[name]), (name, pattern)
        assert {f"usr/share/doc/{name}/copyright",
                f"usr/share/doc/{name}/changelog.gz"} <= set(found[name])
    every = [it for names in found.values() for it in names]
    assert len(every) == len(set(every))
    prefix = to_pack.parent / "prefix"
    wanted = sorted(it.name for it in prefix.rglob("*") if it.is_file() or it.is_symlink())
    more = {"copyright", "changelog.gz", "tombolopan.spdx.json", "THEOREMS.md", "unproved"}
    there = [pathlib.PurePath(it).name.removesuffix(".gz") for it in every
             if pathlib.PurePath(it).name not in more and "/lintian/" not in it]
    # The folder of the C library, and the first image, have a link where a checkout has them.
    assert sorted(there) == sorted([*(it for it in wanted if it != "installed"), "out", "hi.elf"])


@pytest.mark.parametrize("made, tool", [
    ("lib/libc.a", "clang"), ("lib/libc++.a", "aarch64-linux-gnu-as"),
    ("rust/lib/rustlib/aarch64-unknown-none-softfloat/lib/liballoc.rlib", "/usr/bin/rustc")])
def test_libraries_of_tenants(packages: dict[str, pathlib.Path], to_pack: pathlib.Path, made: str,
                              tool: str) -> None:
    """Each file that is built for tenants is installed, and in the package of the programs."""
    need(tool)
    files = installed.files_below(to_pack / "libc")
    assert made in files
    place = to_pack.parent / "prefix" / "share/tombolopan/examples/libc/out"
    top = "usr/lib/tombolopan/libc/"
    assert installed.files_below(place) == files == {
        it.removeprefix(top) for it in files_of(packages["tombolopan"]) if it.startswith(top)}


@pytest.mark.parametrize("number", range(12))
def test_module_and_library(number: int) -> None:
    """The module of Python, which all machines have, takes the library of its own version, also of
    a machine that has it without proof; and of later ones, and of none before."""
    need("dpkg")
    drawn = random.Random(number)
    parts = [drawn.randint(0, 12), drawn.randint(1, 12)]
    version = f"{parts[0]}.{parts[1]}{drawn.choice(['', '~20261111.0123456789'])}"
    module, = (it for it in fields.all_packages("libtombolopan2") if it.name == PYTHON)
    text = fields.control(module, {"version": version, "least": Release(version, 0).least,
                                   "shared": "libtombolopan2", "libraries": "",
                                   "architecture": "any"}, 1)
    least, = re.findall(r"^Depends: libtombolopan2 \(>= (\S+)\)", text, re.M)
    for other, is_met in {version: True, f"{version}~unproved": True,
                          f"{parts[0]}.{parts[1] + 1}": True,
                          f"{parts[0]}.{parts[1] - 1}": False,
                          f"{parts[0]}.{parts[1]}~20261110.0123456789": False}.items():
        ran = run(["dpkg", "--compare-versions", other, "ge", least])
        assert ran.status == (0 if is_met else 1), (other, least)


def test_headers() -> None:
    """All headers of the library are in the one package that a program is built by."""
    headers = sorted((ROOT / "include").iterdir())
    assert len(headers) > 1
    for path in headers:
        found = place_of(f"include/{path.name}", "arch", "libtombolopan2")
        assert found == Place("libtombolopan-dev", f"include/{path.name}")


def test_sums(packages: dict[str, pathlib.Path], tmp_path: pathlib.Path) -> None:
    """The list of what is inside has the sums of the programs and of the library in packages."""
    for name in ("tombolopan", "libtombolopan2", "tombolopan-doc"):
        succeed(["dpkg-deb", "--extract", packages[name], tmp_path])
    usr = tmp_path / "usr"
    text = (usr / "share/doc/tombolopan/tombolopan.spdx.json").read_text(encoding="utf-8")
    told = {it["name"]: it["checksums"] for it in json.loads(text)["packages"]
            if "checksums" in it}
    files = {"tombolopan_c": next(usr.glob("lib/*/libtombolopan.so.2")),
             **{it: usr / "bin" / it for it in ("mte_host", "mte_run")}}
    assert told == {name: [{"algorithm": "SHA256",
                            "checksumValue": hashlib.sha256(it.read_bytes()).hexdigest()}]
                    for name, it in files.items()}


def test_lintian(packages: dict[str, pathlib.Path]) -> None:
    """Debian's own checker has no error. (Its warnings differ from release to release.)"""
    need("lintian")
    ran = run(["lintian", "--fail-on", "error", *packages.values()])
    assert ran.status == 0 and "E: " not in ran.output, ran.output


@pytest.fixture
def root(packages: dict[str, pathlib.Path], tmp_path: pathlib.Path) -> Root:
    """A root in which they are installed, with what they need of the system and nothing else."""
    need("dpkg", "dpkg-architecture", "dpkg-query")
    made = Root(tmp_path / "root")
    assert made.names() == []
    made.manage("--install", *packages.values())
    return made


def test_installed(root: Root, tmp_path: pathlib.Path) -> None:
    """Programs, completions, manual pages and a tenant of the C library are of use, and removed
    with what Python left behind."""
    need("clang", "ld.lld", "man")
    (tmp_path / "hello.c").write_text(installed.FREED, encoding="utf-8")
    assert root.run(["tenant-cc", "-O1", "-g", "-o", "hello.elf", "hello.c"], tmp_path).status == 0
    ran = root.run(["mte_run", "hello.elf"], tmp_path)
    assert (ran.status, ran.output) == (129, "hello\n")
    assert "Cause: [MTE]: Use After Free, 0 bytes into a 8-byte allocation" in ran.errors
    session = root.usr / "share" / "tombolopan" / "examples"
    words = ["mte_host", "--frames", "11", f"{session}/hi.script", f"{session}/hi.elf"]
    assert root.run(words, tmp_path) == Ran(0, HI_REPORT.encode(), b"")
    version = root.run(["mte_run", "--version"], tmp_path).output
    assert re.match(rf"mte_run {VERSION}\ncommit:    [0-9a-f]{{40}}\n", version)
    assert version.partition("\n")[2] in noted(root.usr / "bin" / "mte_host")
    for name in ("mte_run", "tb_run", "tenant-cc"):
        ran = root.run(["man", "--warnings", name], tmp_path)
        assert (ran.status, ran.errors) == (0, "") and f"Tombolopan {VERSION}" in ran.output
    file = root.usr / "share" / "bash-completion" / "completions" / "mte_run"
    ran = root.run(["bash", "-c", f"source {file} && complete -p mte_run"], tmp_path)
    assert ran.status == 0 and "mte_run" in ran.output
    connect = debugger.target(root.usr / "bin" / "mte_run", ["hello.elf"])
    told = debugger.asked(["hello.elf", "-ex", connect],
                          ["break free", "continue", "info symbol $pc"], tmp_path)
    assert told[2] == "free in section .text\n"
    assert list(root.usr.rglob("__pycache__"))
    root.manage("--purge", *NAMES)
    assert root.names() == []


def test_tenants(root: Root, tmp_path: pathlib.Path) -> None:
    """Tenants in C++ and Rust are built over the libraries of the package, which get no file."""
    need("clang", "ld.lld", "aarch64-linux-gnu-as")
    assert rust_tenants.compiler()
    names, work = root.names(), tmp_path / "work"
    work.mkdir()
    (work / "words.cpp").write_text(named_code("docs/TENANTS.md", "words.cpp"), encoding="utf-8")
    (work / "words.txt").write_text("pear\napple\npear\n", encoding="utf-8")
    words = ["tenant-c++", "-std=c++17", "-O2", "-o", "words.elf", "words.cpp"]
    assert root.run(words, work) == Ran(0, b"", b"")
    ran = root.run(["mte_run", "--input", "words.txt", "words.elf"], work)
    assert (ran.status, ran.output) == (0, "apple 1\npear 2\n")
    script = root.usr / "share" / "tombolopan" / "examples" / "rust" / "build.sh"
    words = ["env", f"TENANT_OUT={work}", str(script), "atomics.rs"]
    assert root.run(words, work) == Ran(0, b"", b"")
    ran, tenant = root.run(["mte_run", "atomics.elf"], work), rust_tenants.RustTenant("atomics")
    assert (ran.status, ran.output) == (int(tenant.values("ends")[0]), tenant.text("output"))
    assert [it for it in root.names() if "__pycache__" not in it] == names


def test_library(root: Root, tmp_path: pathlib.Path) -> None:
    """A C program is built by pkg-config, and Python finds the module and the library."""
    need("pkg-config", "cc")
    source = EXAMPLES / "embed" / "first.c"
    command = f"cc '{source}' $(pkg-config --cflags --libs tombolopan) && ./a.out"
    wanted = Ran(0, b"breakpoint 1, x0 is 42\n", b"")
    assert root.run(["bash", "-c", command], tmp_path) == wanted
    script = (EXAMPLES / "embed" / "first.py").read_text(encoding="utf-8")
    told = "print(sys.modules['tombolopan'].__file__, file=sys.stderr)"
    ran = root.run(["/usr/bin/python3", "-c", f"import sys\n{script}\n{told}"], tmp_path)
    module = root.usr / "lib" / "python3" / "dist-packages" / "tombolopan" / "__init__.py"
    assert ran == Ran(0, wanted.out, f"{module}\n".encode())
    assert list(module.parent.rglob("*.pyc"))
    root.manage("--remove", "python3-tombolopan")
    assert not module.parents[1].exists()


def test_unproved(alone: pathlib.Path, tmp_path: pathlib.Path) -> None:
    """What an installation marks as built without proof, a package does too: its version sorts
    below that of what is proved, and the mark has the sum of the program in the package."""
    need("git", "dpkg-deb")
    prefix = tmp_path / "usr"
    for name in ("bin/mte_run", "lib/libtombolopan.so.2"):
        (prefix / name).parent.mkdir(parents=True)
        shutil.copy(alone, prefix / name)
    mark = "share/tombolopan/unproved"
    (prefix / mark).parent.mkdir(parents=True)
    (prefix / mark).write_text(f"{'0' * 64}  ../../bin/mte_run\n", encoding="utf-8")
    paths = succeed([ROOT / "tools" / "pack.py", prefix, tmp_path]).output.splitlines()
    root = tmp_path / "root"
    succeed(["dpkg-deb", "--extract", paths[0], root])
    succeed(["sha256sum", "--check", "unproved"], cwd=(root / "usr" / mark).parent)
    version = succeed(["dpkg-deb", "--field", paths[0], "Version"]).output.strip()
    assert version.endswith("~unproved")
    proved = version.removesuffix("~unproved")
    for lower, higher in ((version, proved), (proved, VERSION)):
        assert lower == higher or succeed(["dpkg", "--compare-versions", lower, "lt", higher])


@pytest.fixture
def built_for_both(to_pack: pathlib.Path, tmp_path: pathlib.Path) -> pathlib.Path:
    """A folder with what is packed of this machine, and files in place of those for arm64, and of
    the libraries of tenants, which take long to pack."""
    folder = tmp_path / "built"
    (folder / "libc/lib").mkdir(parents=True)
    (folder / "libc/lib/libc.a").write_bytes(b"!<arch>\n")
    for path in to_pack.iterdir():
        if path.is_file():
            (folder / path.name).symlink_to(path.resolve())
    foreign.build(folder / "arm64")
    return folder


def machine_files(package: pathlib.Path, machine: str) -> dict[str, str]:
    """The files of a package, but for the libraries of tenants and the mark of what is not proved,
    with MACHINE in place of a machine's name."""
    left_out = ("usr/lib/tombolopan/libc/", "usr/share/tombolopan/unproved")
    return {name.replace(machine, "MACHINE"): mode for name, mode in files_of(package).items()
            if not name.startswith(left_out)}


def test_for_arm64(packages: dict[str, pathlib.Path], built_for_both: pathlib.Path,
                   tmp_path: pathlib.Path) -> None:
    """With --arm64 the packages that have programs or libraries are packed, of that machine's: with
    the files that they have here, all calls of the headers, and marks that nothing is proved."""
    need("aarch64-linux-gnu-nm", "aarch64-linux-gnu-strip", "readelf", "dpkg-architecture")
    out = tmp_path / "out"
    paths = succeed([PACKER, "--arm64", out, built_for_both]).output.splitlines()
    made = {pathlib.Path(it).name.partition("_")[0]: pathlib.Path(it) for it in paths}
    assert set(made) == {"tombolopan", "libtombolopan2", "libtombolopan-dev"}
    assert sorted(made.values()) == sorted(out.iterdir())
    here = succeed(["dpkg-architecture", "-qDEB_HOST_MULTIARCH"]).output.strip()
    for name, path in made.items():
        field = succeed(["dpkg-deb", "--field", path, "Version", "Architecture"]).output
        assert re.search(r"^Version: .*~unproved\nArchitecture: arm64$", field, re.M), field
        own = machine_files(packages[name], here)
        assert machine_files(path, "aarch64-linux-gnu") == own and own
        succeed(["dpkg-deb", "--extract", path, tmp_path])
    usr = tmp_path / "usr"
    library = usr / "lib/aarch64-linux-gnu/libtombolopan.so.2"
    for path in (usr / "bin/mte_host", usr / "bin/mte_run", library):
        assert path.read_bytes()[18:20] == ARM64, path
        assert re.search(r"^commit: +[0-9a-f]{40}$.*^build: +unproved$", noted(path), re.M | re.S)
    succeed(["sha256sum", "--check", "unproved"], cwd=usr / "share/tombolopan")
    wanted = sorted(it for names in foreign.calls().values() for it in names)
    for option, path in (("-D", library), ("-g", library.with_name("libtombolopan.a"))):
        ran = succeed(["aarch64-linux-gnu-nm", option, "--defined-only", path])
        assert sorted(re.findall(r" T (tb_\w+)$", ran.output, re.M)) == wanted


def test_a_library_without_a_call(tmp_path: pathlib.Path) -> None:
    """A library for arm64 that lacks a call of the headers is not packed."""
    folder = foreign.build(tmp_path / "arm64")
    succeed(["aarch64-linux-gnu-ar", "d", "libtombolopan_c.a", "tombolopan_explain.o"], cwd=folder)
    words: list[Word] = [sys.executable, "-m", "arm64.shared", folder / "libtombolopan_c.a"]
    ran = run([*words, tmp_path / "library.so"], extra={"PYTHONPATH": str(ROOT / "tools")})
    lacking = " ".join(sorted(foreign.calls()["tombolopan_explain"]))
    said = f"arm64.shared: libtombolopan_c.a has no {lacking}\n"
    assert lacking and ran == Ran(1, b"", said.encode())


@pytest.mark.parametrize("name", ["mte_run", "libtombolopan_c.a"])
def test_not_built_for_arm64(tmp_path: pathlib.Path, name: str) -> None:
    """Where a program or the library is not built for arm64, it is named and nothing is packed."""
    need("dpkg-deb", "dpkg-shlibdeps", "strip", "git")
    (foreign.build(tmp_path / "arm64") / name).unlink()
    ran = run([PACKER, "--arm64", tmp_path / "out", tmp_path])
    said = f"deb.sh: not built for arm64: {name} (tools/build.sh --arm64)\n"
    assert ran == Ran(2, b"", said.encode())
    assert not (tmp_path / "out").exists()


def test_words(tmp_path: pathlib.Path) -> None:
    """A folder to write into is wanted; --help prints the script's comment."""
    usage = "usage: deb.sh [--arm64] OUT [FOLDER] (--help)\n"
    for words in ((), ("--out",), (str(tmp_path), "a", "b")):
        assert run([PACKER, *words]) == Ran(2, b"", usage.encode())
    ran = run([PACKER, "--help"])
    assert ran.status == 0 and "    tools/deb.sh [--arm64] OUT [FOLDER]\n" in ran.output
