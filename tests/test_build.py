"""tools/build.sh: what it builds, by which commands, and the marks of what is built without proof.

The toolchain, unproved.py, mark.py, build.py, install.sh, and what builds core and alloc of Rust
are stubs that say how they were called.
"""

import os
import pathlib
import re
import shutil
import time

import pytest

from tests.support.checkout import copy_files, make_stub
from tests.support.places import ROOT
from tests.support.running import Ran, Word, run

PROGRAMS = ("mte_host", "mte_run")
LIBRARY = "libtombolopan_c.a"
# Proves a crate: its lines, and its program or library.
TOOLCHAIN = """\
crate=$(basename "$PWD")
echo "$crate: $*" >>"$TRIED"
echo "rt: jobs 2 for a64_bits"
[[ $crate != "${REFUSED:-}" ]] || { echo 'did not prove'; exit 1; }
mkdir -p out
name=$crate
[[ $1 == run ]] || name=lib$crate.a
echo proved >"out/$name"
"""
UNPROVED = """#!/usr/bin/env bash
echo '2 of 4, takes the checks out'
echo "unproved.py $(basename "$2") $3" >>"$TRIED"
echo unproved >"$2"
"""
# Proves the library over what a gate has proved, where one has; joins what `rt lib` has built.
OVER_GATE = """#!/usr/bin/env bash
[[ $1 == --join ]] || set -- proves "$1"
echo "static_library.py $1 $(basename "$2")" >>"$TRIED"
top=$(dirname "$0")/..
mkdir -p "$(dirname "$2")"
if [[ $1 == --join ]]; then
    cat "$top"/crates/{tombolopan,explain}_c/out/lib*.a >"$2.new"
    mv "$2.new" "$2"
elif [[ -e $top/gate ]]; then
    echo "over a gate" >"$2"
else
    echo "run rt ci first"
    exit 1
fi
"""
MARK = """#!/usr/bin/env bash
[[ $1 == --unproved ]] || set -- proved "$1"
echo "mark.py $1 $(basename "$2")" >>"$TRIED"
"""
FOR_ARM64 = """import os, sys
with open(os.environ["TRIED"], "a") as file:
    words = [os.path.basename(sys.argv[-2]), sys.argv[-1], *sys.argv[1:-3]]
    file.write(f"arm64 {' '.join(words)}\\n")
open(sys.argv[-2], "w").write("arm64")
print("3 of 4, compiles\\nof the LLVM module of the proved build")
"""
LIBC = """#!/usr/bin/env bash
here=$(dirname "$0")
echo build.py >>"$TRIED"
mkdir -p "$here"/out/{include,lib,objects,sources}
echo '5 of 10, compiles C'
sleep 0.5
touch "$here/out/lib/libc.a"
[[ ! " $* " == *" --c++ "* ]] || touch "$here/out/lib/libc++.a"
"""
# A compiler whose sysroot has the source of core, and what builds tenants by it.
COMPILER = """#!/usr/bin/env bash
echo "$(dirname "$0")/sysroot"
"""
RUST = """#!/usr/bin/env bash
mkdir -p "$TENANT_OUT/rust"
[[ ! -e $TENANT_OUT/rust/version ]] || exit 0
echo "rust $*" >>"$TRIED"
echo '2 of 3, builds compiler_builtins' >&2
sleep 0.5
[[ ${REFUSED:-} != rust ]] || { echo 'does not compile' >&2; exit 1; }
echo built >"$TENANT_OUT/rust/version"
"""
INSTALL = """#!/usr/bin/env bash
echo "install.sh $*" >>"$TRIED"
"""


class Clone:
    """A checkout in which nothing was built, with stubs."""

    def __init__(self, folder: pathlib.Path) -> None:
        self.top = copy_files(folder / "clone", "crates/mte_host/",
                              "crates/mte_run/", "crates/tombolopan_c/", "crates/explain_c/",
                              "crates.txt", "tools/build.sh", "tools/sources.sh",
                              "examples/libc/", "examples/rust/")
        self.tried, self.compiler = folder / "tried", folder / "rustc"
        for path, text in ((self.top / "tools/unproved.py", UNPROVED), (self.compiler, COMPILER),
                           (self.top / "tools/mark.py", MARK),
                           (self.top / "tools/static_library.py", OVER_GATE),
                           (self.top / "tools/install.sh", INSTALL),
                           (self.top / "tools/arm64/command.py", FOR_ARM64),
                           (self.top / "examples/libc/build.py", LIBC),
                           (self.top / "examples/rust/build.sh", RUST)):
            path.parent.mkdir(exist_ok=True)
            path.write_text(text, encoding="utf-8")
            path.chmod(0o755)
        source = folder / "sysroot/lib/rustlib/src/rust/library/core/src/lib.rs"
        source.parent.mkdir(parents=True)
        source.touch()
        make_stub(folder / "stub", "aarch64-linux-gnu-gcc", "exit 1")
        self.path = make_stub(folder / "stub", "rt", TOOLCHAIN)["PATH"]

    def build(self, *words: str, refused: str = "") -> tuple[Ran, list[str]]:
        """What the script says, and the commands that it gave, in the order of their names."""
        self.tried.write_text("", encoding="utf-8")
        extra = {"PATH": self.path, "TRIED": str(self.tried), "REFUSED": refused,
                 "RUSTC": str(self.compiler)}
        ran = run([self.top / "tools" / "build.sh", *words], extra=extra)
        return ran, sorted(self.tried.read_text(encoding="utf-8").splitlines())

    def built(self, name: str) -> pathlib.Path:
        """The place of a program or of the library."""
        crate = name.removeprefix("lib").removesuffix(".a")
        return self.top / "crates" / crate / "out" / name

    def marks(self) -> set[str]:
        """What is marked as built without proof."""
        return {path.stem for path in self.top.rglob("*.unproved")}


@pytest.fixture
def clone(tmp_path: pathlib.Path) -> Clone:
    """A checkout in which nothing was built."""
    return Clone(tmp_path)


PROOFS = [*(f"mark.py proved {it}" for it in (*PROGRAMS, LIBRARY)),
          *(f"{it}: run -- --help" for it in PROGRAMS),
          *(f"{it}_c: lib --jobs 1" for it in ("tombolopan", "explain")),
          *(f"static_library.py {it} {LIBRARY}" for it in ("proves", "--join"))]


FOR_TENANTS = ["build.py", "rust "]


def crates_of(name: str) -> list[str]:
    """The crates that a program is made from, in the order of crates.txt."""
    text = (ROOT / "crates.txt").read_text(encoding="utf-8")
    lines = [line.replace(":", "").split() for line in re.findall("^[a-z].*", text, re.M)]
    below = {name}
    for crate, *uses in reversed(lines):
        below |= set(uses) if crate in below else set()
    return [crate for crate, *_ in lines if crate in below]


def without_proof(*names: str) -> list[str]:
    """The commands that build some files without proof."""
    crates = {it: it.removeprefix("lib").removesuffix(".a") for it in names}
    return sorted([*(f"unproved.py {it}.new {crate}" for it, crate in crates.items()),
                   *(f"mark.py --unproved {it}.new" for it in names)])


def test_without_proof(clone: Clone) -> None:
    """All of it is built without proof, marked, and installed; a second time nothing is built."""
    ran, tried = clone.build("--unproved", "/prefix")
    assert (ran.status, ran.output) == (0, "")
    assert tried == sorted([*FOR_TENANTS, "install.sh /prefix", *without_proof(*PROGRAMS, LIBRARY)])
    assert clone.marks() == {*PROGRAMS, LIBRARY}
    lines = set(ran.errors.splitlines())
    assert {f"build.sh: {name}: built without proof" for name in (*PROGRAMS, LIBRARY)} <= lines
    assert "build.sh: mte_run: 2 of 4, takes the checks out, 0 min " in ran.errors
    ran, tried = clone.build("--unproved")
    assert (ran.status, tried) == (0, [])
    assert f"build.sh: {LIBRARY}: was there, built without proof\n" in ran.errors


def test_by_proof(clone: Clone) -> None:
    """All of it is proved, with a line a crate, also what was built without proof; it stays."""
    clone.build("--unproved", "--only", "mte_run")
    assert clone.marks() == {"mte_run"}
    ran, tried = clone.build()
    assert (ran.status, tried) == (0, sorted([*FOR_TENANTS, *PROOFS]))
    crates = crates_of("mte_run")
    line = f"build.sh: mte_run: {crates.index('a64_bits') + 1} of {len(crates)}, a64_bits, 0 min "
    assert line in ran.errors, ran.errors
    assert "build.sh: mte_run: proved\n" in ran.errors
    assert clone.marks() == set() and clone.built("mte_run").read_text() == "proved\n"
    ran, tried = clone.build("--unproved")
    assert (ran.status, tried) == (0, [])
    assert "build.sh: mte_run: was there\n" in ran.errors


def test_the_library_of_two_crates(clone: Clone) -> None:
    """It has both crates, and is not there where one is not proved; over what a gate has proved
    nothing below it is proved once more."""
    words = ("--only", LIBRARY)
    ran, tried = clone.build(*words, refused="explain_c")
    assert ran.status == 1 and f"did not prove\nbuild.sh: {LIBRARY} failed\n" in ran.errors
    assert f"mark.py proved {LIBRARY}" not in tried
    clone.built(LIBRARY).unlink()
    ran, tried = clone.build(*words)
    assert (ran.status, clone.built(LIBRARY).read_text()) == (0, "proved\nproved\n")
    clone.built(LIBRARY).unlink()
    (clone.top / "gate").touch()
    ran, tried = clone.build(*words)
    assert (ran.status, clone.built(LIBRARY).read_text()) == (0, "over a gate\n")
    assert tried == [f"mark.py proved {LIBRARY}", f"static_library.py proves {LIBRARY}"]


@pytest.mark.parametrize("name", ["src/main.rt", "specs/main.antt", "proofs/main.antt"])
def test_another_source(clone: Clone, name: str) -> None:
    """A program is built again where a byte of a source, a definition or a proof is another,
    however old; a date alone builds nothing."""
    source = clone.top / "crates" / "mte_host" / name
    source.parent.mkdir(exist_ok=True)
    source.write_text("one")
    clone.build("--unproved", "--only", "mte_host")
    newest = time.time() + 60
    os.utime(source, (newest, newest))
    ran, tried = clone.build("--unproved", "--only", "mte_host")
    assert (ran.status, tried) == (0, [])
    source.write_text("two")
    os.utime(source, (0, 0))
    ran, tried = clone.build("--unproved", "--only", "mte_host")
    assert (ran.status, tried) == (0, without_proof("mte_host"))


def test_dates_without_sums(clone: Clone) -> None:
    """A program that another command has built has no sums: it is built again where a source is
    newer."""
    built, source = clone.built("mte_host"), clone.top / "crates" / "mte_host" / "src" / "main.rt"
    built.parent.mkdir()
    built.write_text("proved\n")
    ran, tried = clone.build("--only", "mte_host")
    assert (ran.status, tried) == (0, [])
    newest = time.time() + 60
    os.utime(source, (newest, newest))
    ran, tried = clone.build("--only", "mte_host")
    assert (ran.status, tried) == (0, ["mark.py proved mte_host", "mte_host: run -- --help"])


def test_a_proof_that_fails(clone: Clone) -> None:
    """What the prover says is shown, nothing is installed, and a mark stays."""
    clone.build("--unproved", "--only", "mte_host")
    ran, tried = clone.build("/prefix", refused="mte_host")
    assert ran.status == 1 and "did not prove\nbuild.sh: mte_host failed\n" in ran.errors
    assert "install.sh /prefix" not in tried
    assert clone.marks() == {"mte_host"}


def test_a_mark_is_of_one_file(clone: Clone) -> None:
    """A program that was put in the place of a marked one is not taken for it."""
    clone.build("--unproved", "--only", "mte_host")
    clone.built("mte_host").write_text("other\n")
    ran, tried = clone.build("--only", "mte_host")
    assert (ran.status, tried) == (0, [])
    assert ran.errors.endswith("build.sh: mte_host: was there\n")


def test_for_tenants(clone: Clone) -> None:
    """The libraries of tenants are built into one folder, with lines that say how far they are, and
    stay. One that does not build, and a compiler without the source of core, are told."""
    before = set(clone.top.rglob("*"))
    ran, tried = clone.build("--only", "tenants", refused="rust")
    assert (ran.status, tried) == (1, FOR_TENANTS)
    assert "build.sh: the C library of tenants: 5 of 10, compiles C, 0 min " in ran.errors
    assert "does not compile\nbuild.sh: core and alloc of Rust failed\n" in ran.errors
    ran, tried = clone.build("--only", "tenants")
    assert (ran.status, tried) == (0, ["rust "])
    line = "build.sh: core and alloc of Rust: 2 of 3, builds compiler_builtins, 0 min "
    assert line in ran.errors and ran.errors.endswith("core and alloc of Rust: built\n")
    out = clone.top / "examples" / "libc" / "out"
    assert all(it == out or out in it.parents for it in set(clone.top.rglob("*")) - before)
    ran, tried = clone.build("--only", "tenants")
    assert (ran.status, tried) == (0, [])
    assert ran.errors == ("build.sh: the C library of tenants: was there\n"
                          "build.sh: core and alloc of Rust: were there\n")
    (clone.compiler.parent / "sysroot").rename(clone.compiler.parent / "other")
    ran, _ = clone.build("--only", "tenants")
    assert ran.status == 0 and ran.errors.endswith(
        "without core and alloc of tenants in Rust: they need rustc and rust-src (Debian)\n")


def test_for_arm64(clone: Clone) -> None:
    """Programs and library are built in a folder of their own, marked as without proof, with of
    which build they are, and stay; what is built for this machine is not touched."""
    names = (*PROGRAMS, LIBRARY)
    crates = {it: it.removeprefix("lib").removesuffix(".a") for it in names}
    ran, tried = clone.build("--arm64")
    assert (ran.status, ran.output) == (0, "")
    assert tried == sorted([*(f"arm64 {it}.new {crate}" for it, crate in crates.items()),
                            *(f"mark.py --unproved {it}.new" for it in names)])
    for name in names:
        made = clone.built(name).parent / "arm64" / name
        assert made.read_text() == "arm64" and not clone.built(name).exists()
        first = made.with_name(f"{name}.unproved").read_text().splitlines()[0]
        assert first == ("# For arm64, by a step without proof, of the LLVM module of the proved "
                         "build.")
    for words in (["--arm64"], ["--arm64", "--unproved", "--only", "mte_host"]):
        ran, tried = clone.build(*words)
        assert (ran.status, tried) == (0, [])
    (clone.top / "crates" / "mte_host" / "src" / "main.rt").write_text("other")
    ran, tried = clone.build("--arm64", "--unproved", "--only", "mte_host")
    assert tried == ["arm64 mte_host.new mte_host --unproved", "mark.py --unproved mte_host.new"]


def test_what_is_missing(clone: Clone) -> None:
    """The toolchain, and what marks a program, are asked for before anything is built."""
    few = clone.tried.parent / "few"
    few.mkdir()
    for name in ("bash", "dirname", "env"):
        (few / name).symlink_to(shutil.which(name) or "")
    words: list[Word] = [clone.top / "tools" / "build.sh", "--unproved"]
    ran = run(words, extra={"PATH": str(few)})
    assert ran == Ran(2, b"", b"build.sh: rt, the toolchain, is not there\n")
    (few / "rt").symlink_to("/bin/true")
    ran = run(words, extra={"PATH": str(few)})
    assert ran == Ran(2, b"", b"build.sh: missing: binutils (Debian)\n")


def test_words(clone: Clone) -> None:
    """Words that mean nothing are refused, and --help prints the script's comment."""
    wrong = {("--proved",): "--proved is no option (--help)",
             ("--only", "mte_walk"): "mte_walk is nothing to build",
             ("--arm64", "/a"): "--arm64 has no PREFIX and no tenants",
             ("--jobs", "no"): "--jobs takes a number", ("/a", "/b"): "there is one PREFIX"}
    for words, said in wrong.items():
        ran, tried = clone.build(*words)
        assert (ran.status, ran.output, ran.errors, tried) == (2, "", f"build.sh: {said}\n", [])
    ran, _ = clone.build("--help")
    assert ran.status == 0 and "    tools/build.sh [--unproved] [--arm64]" in ran.output
