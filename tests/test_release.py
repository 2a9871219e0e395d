"""tools/release.sh: a trial over what is built has all files, with the sums that it says and the
same bytes in another folder. A release is made where nothing stands in its way, and else is refused
with each thing that does. The scripts of single files are stubs in the second part."""

import base64
import functools
import hashlib
import json
import pathlib
import random
import re
import shutil
import sys
import tarfile
from collections.abc import Callable
from typing import Any

import pytest

import mark
from tests.support import debian
from tests.support.cache import cache_folder
from tests.support.checkout import commit_all, copy_files
from tests.support.debian import Root, files_of
from tests.support.host_sessions import HI_REPORT
from tests.support.places import EXAMPLES, ROOT
from tests.support.running import Ran, Word, run, succeed
from tests.support.samples import tenant
from tests.support.tools import give_up, git, need

VERSION = (ROOT / "VERSION").read_text(encoding="utf-8").strip()
NUMBER = re.escape(VERSION) + r"(~\d{8}\.[0-9a-f]{10}(\.changed)?)?"
BUILT = NUMBER + "(~unproved)?"
FILES = (rf"tombolopan_{NUMBER}\.tar\.gz", rf"tombolopan_{BUILT}\.spdx\.json",
         rf"tombolopan_{BUILT}\.intoto\.json", rf"tombolopan-golden-steps_{BUILT}\.jsonl\.xz",
         rf"tombolopan-{re.escape(VERSION)}(\.dev0\+unproved)?-py3-none-\w+\.whl", "SHA256SUMS",
         *(rf"{it}_{BUILT}_(?!arm64)\w+\.deb" for it in sorted(debian.NAMES)))
# What a trial has where it is built.
PAGE, ARM64 = rf"tombolopan_{BUILT}\.html", rf"\w+(-dev)?_{BUILT}_arm64\.deb"
ROW = re.compile(r" *(\d+)  ([0-9a-f]{12})  (\S+)(  unproved)?")
DRAWN = 14


def sum_of(data: bytes) -> str:
    """SHA-256 as a text."""
    return hashlib.sha256(data).hexdigest()


def statement_of(folder: pathlib.Path) -> tuple[dict[str, Any], bytes, list[bytes]]:
    """The statement of a release, its text, and its signatures."""
    path, = folder.glob("*.intoto.json")
    held = json.loads(path.read_text(encoding="utf-8"))
    body = base64.b64decode(held["payload"], validate=True)
    assert held["payloadType"] == "application/vnd.in-toto+json"
    return json.loads(body), body, [base64.b64decode(it["sig"]) for it in held["signatures"]]


def assert_table(output: str, folder: pathlib.Path) -> None:
    """The table has each file with its bytes and the first digits of its sum."""
    rows = [found.groups() for line in output.splitlines() if (found := ROW.fullmatch(line))]
    assert [row[:3] for row in rows] == [
        (str(len(data)), sum_of(data)[:12], path.name)
        for path in sorted(folder.iterdir()) for data in [path.read_bytes()]]
    assert all(("unproved" in row[2]) == bool(row[3]) for row in rows)


def test_files(shared: pathlib.Path, to_pack: pathlib.Path) -> None:
    """All files of a release are there, and what a trial has not is said with why; sha256sum agrees
    with the sums of all of them."""
    folder, output = debian.released(shared, to_pack)
    names = {it.name for it in folder.iterdir()}
    for pattern in FILES:
        assert sum(bool(re.fullmatch(pattern, it)) for it in names) == 1, pattern
    more = [it for it in names if re.fullmatch(f"{PAGE}|{ARM64}", it)]
    assert len(names) == len(FILES) + len(more)
    assert_table(output, folder)
    missing = [line.split()[2] for line in output.splitlines() if not ROW.fullmatch(line)]
    wanted = [r"tombolopan-gate_.*\.log",
              *(form for form in (PAGE, ARM64) if not any(re.fullmatch(form, it) for it in more))]
    assert len(missing) == len(wanted)
    assert all(any(re.fullmatch(form, it) for it in missing) for form in wanted)
    succeed(["sha256sum", "--check", "--strict", "SHA256SUMS"], cwd=folder)
    listed = (folder / "SHA256SUMS").read_text(encoding="utf-8").splitlines()
    assert {line.split()[1] for line in listed} == names - {"SHA256SUMS"}


def test_sources(shared: pathlib.Path, to_pack: pathlib.Path) -> None:
    """The archive has the files of the commit, by git's own sums of them, and the commit's date."""
    folder, _ = debian.released(shared, to_pack)
    path, = folder.glob("tombolopan_*.tar.gz")
    listed = {line.split("\t")[1]: line.split()[2]
              for line in git("ls-tree", "-r", "HEAD").splitlines()}
    with tarfile.open(path) as archive:
        found = {it.name.partition("/")[2]: it for it in archive if it.isfile()}
        for name, member in found.items():
            file = archive.extractfile(member)
            assert file is not None
            data = file.read()
            blob = hashlib.sha1(b"blob %d\0%s" % (len(data), data)).hexdigest()
            assert blob == listed[name], name
        links = {it.name.partition("/")[2] for it in archive if it.issym()}
        dates = {it.mtime for it in archive}
    assert {*found, *links} == set(listed)
    assert dates == {int(git("log", "-1", "--format=%ct"))}


def test_statement(shared: pathlib.Path, to_pack: pathlib.Path) -> None:
    """It names each file with its sum, the commit, and the programs that were packed."""
    folder, _ = debian.released(shared, to_pack)
    said, _, signatures = statement_of(folder)
    assert said["_type"] == "https://in-toto.io/Statement/v1" and signatures == []
    assert said["predicateType"] == "https://slsa.dev/provenance/v1"
    assert {it["name"]: it["digest"]["sha256"] for it in said["subject"]} == {
        it.name: sum_of(it.read_bytes()) for it in folder.iterdir()
        if it.name != "SHA256SUMS" and ".intoto." not in it.name}
    made_of = said["predicate"]["buildDefinition"]["resolvedDependencies"]
    assert made_of[0]["digest"]["gitCommit"] == git("rev-parse", "HEAD").strip()
    assert {it["name"] for it in made_of[2:]} == {
        "mte_host", "mte_run", "libtombolopan_c.a"}


def test_pages(shared: pathlib.Path, to_pack: pathlib.Path, tmp_path: pathlib.Path) -> None:
    """The package of the pages has the text of all theorems, and the list of what is inside."""
    folder, _ = debian.released(shared, to_pack)
    succeed(["dpkg-deb", "--extract", next(folder.glob("tombolopan-doc_*.deb")), tmp_path])
    pages = tmp_path / "usr/share/doc/tombolopan"
    said = succeed([sys.executable, ROOT / "tools" / "believe.py", "--all"]).output
    assert (pages / "THEOREMS.md").read_text(encoding="utf-8") == said
    listed, = folder.glob("*.spdx.json")
    assert (pages / "tombolopan.spdx.json").read_bytes() == listed.read_bytes()
    believed = (ROOT / "docs" / "BELIEVE.md").read_bytes()
    assert (pages / "docs" / "BELIEVE.md").read_bytes() == believed


def test_same_bytes(shared: pathlib.Path, to_pack: pathlib.Path,
                    tmp_path: pathlib.Path) -> None:
    """Made by the same files in a deeper folder they are the same; packages name neither folder."""
    folder, _ = debian.released(shared, to_pack)
    copy = copy_files(tmp_path / "a" / "deeper" / "folder")
    again = tmp_path / "out"
    debian.release(again, to_pack, copy)
    sums = [(it / "SHA256SUMS").read_text(encoding="utf-8") for it in (folder, again)]
    assert sums[0] == sums[1]
    places = [str(it).encode() for it in (ROOT, copy, cache_folder())]
    for path in again.glob("*.deb"):
        content = tmp_path / path.name.partition("_")[0]
        succeed(["dpkg-deb", "--raw-extract", path, content])
        files = [it for it in content.rglob("*") if it.is_file() and not it.is_symlink()]
        assert not [it for it in files for place in places if place in it.read_bytes()]


def test_upgrade(shared: pathlib.Path, to_pack: pathlib.Path, tmp_path: pathlib.Path) -> None:
    """Packages go over older ones, of which nothing is left but what the new ones have; removed,
    they leave nothing."""
    need("dpkg", "dpkg-architecture", "dpkg-query")
    packages = debian.packages(shared, to_pack)
    older = [debian.older(path, tmp_path / "older") for path in packages.values()]
    root = Root(tmp_path / "root")
    root.manage("--install", *older)
    assert any(it.endswith("/gone") for it in root.names())
    root.manage("--install", *packages.values())
    left = {it for it in root.names()
            if (root.top / it).is_symlink() or not (root.top / it).is_dir()}
    assert left == {name for path in packages.values() for name in files_of(path)}
    root.manage("--purge", *packages)
    assert root.names() == []


@pytest.mark.parametrize("machine", ["amd64", "arm64"])
def test_in_a_root(machine: str, shared: pathlib.Path, to_pack: pathlib.Path,
                   tmp_path: pathlib.Path) -> None:
    """In a new root of Debian 12, that of arm64 under QEMU, programs name this commit; installed,
    over older ones too, and removed they leave nothing. A first explanation costs a minute of this
    machine's processor at most, with the installation."""
    debian.need_archive(machine)
    folder, _ = debian.released(shared, to_pack)
    found = [it for it in folder.glob("*.deb") if it.stem.endswith((f"_{machine}", "_all"))]
    if len(found) < len(debian.NAMES):
        give_up(f"the programs are not built for {machine} (tools/build.sh --arm64)")
    for path in found:
        debian.older(path, tmp_path / "older")
    image = tenant(tmp_path, EXAMPLES / "c" / "use_after_free.c")
    said = debian.try_in_root(machine, folder, image, tmp_path / "older")
    words = re.findall(r"^commit: +(\S+)$.*?^build: +(\S+)$", said, re.M | re.S)
    is_proved = "~unproved" not in found[0].name and machine == "amd64"
    assert words == [(git("rev-parse", "HEAD").strip(), "proved" if is_proved else "unproved")] * 3
    took, = re.findall(r"explanation: \d+ s, of the processor (\d+) s$", said, re.M)
    assert machine != "amd64" or int(took) <= 60
    assert f"\n{HI_REPORT}removed: nothing is left\n" in said
    assert said.endswith("installed over the older ones: nothing of those is left\n"
                         "removed: nothing is left\n")


# In place of the scripts that make single files: small files, the same each time.
DEB = """#!/usr/bin/env bash
folder=$(mktemp -d) version=$(cat "$(dirname "$0")/../VERSION")
if [[ $1 == --arm64 ]]; then
    cat "$3"/arm64/* >"$2/tombolopan_$version~unproved_arm64.deb"
    exit
fi
mkdir -p "$folder/DEBIAN" "$folder/usr/share/doc/tombolopan" "$1"
printf 'Package: tombolopan-doc\\nVersion: %s\\nArchitecture: all\\nMaintainer: n\\n%s\\n' \\
    "$version" 'Description: n' >"$folder/DEBIAN/control"
echo "{}" >"$folder/usr/share/doc/tombolopan/tombolopan.spdx.json"
chmod -R u=rwX,go=rX "$folder"
find "$folder" -exec touch --date="@$SOURCE_DATE_EPOCH" {} +
dpkg-deb --root-owner-group --build "$folder" "$1/tombolopan-doc_${version}_all.deb" >/dev/null
echo "$1/tombolopan-doc_${version}_all.deb"
"""
STUBS = {
    "deb.sh": DEB,
    "python_wheel.py": "import sys\nopen(sys.argv[1] + '/a.whl', 'w').write('wheel')\n",
    "golden_release.py": "import sys\nopen(sys.argv[-1] + '/steps.xz', 'w').write('steps')\n",
    "static_library.py": "import sys, mark\nopen(sys.argv[1], 'wb').write("
                         "b'!<arch>\\n' + mark.text_of({}) + b'library')\n",
    "wasm.sh": "#!/usr/bin/env bash\necho page >\"$1/tombolopan.html\"\n"
               "echo \"page: 5 bytes, of a proved build\"\n",
}
PROGRAMS = ("mte_host", "mte_run")
FOR_ARM64 = (*PROGRAMS, "libtombolopan_c.a")
LIBRARIES = ("lib/libc.a", "lib/libc++.a", "rust/version")
# Each thing that stands in the way of a release, and what is said of it.
OBSTACLES = {
    "untracked": r"the tree is not clean: new\.txt differs, one of 1",
    "untagged": rf"the commit has no tag v{re.escape(VERSION)}",
    "undated": r"the first heading of CHANGELOG\.md has no day of .*: .*, not released yet",
    "short": r"the log is not that of a whole gate: .*",
    "failed": r"the gate failed: 2 cases",
    "stopped": r"the gate failed, and ended there: 1 failed, 6 passed in 70\.12s \(0:01:10\)",
    "other": r"the gate tried another commit: 0{40}",
    "changed": r"the gate tried files that differ from the commit",
    "another": r"mte_host is not the program that the gate proved",
    "absent": r"mte_run is not built",
    "unproved": r"mte_run is built without proof",
    "libraries": r"the libraries of tenants are not built: no lib/libc\+\+\.a in .*",
    "arm64": r"mte_host is not built for arm64 of the proved build of these sources .*",
    "of_unproved": r"libtombolopan_c\.a is not built for arm64 of the proved build of .*",
}


@functools.cache
def toolchain() -> dict[str, str]:
    """The toolchain, as files say it of themselves."""
    return mark.toolchain()


class Checkout:
    """A checkout with stubs, of which a release can be made but for some obstacles."""

    def __init__(self, folder: pathlib.Path, obstacles: frozenset[str]) -> None:
        need("git", "rt", "dpkg-deb", "dpkg-shlibdeps")
        self.top = copy_files(folder / "top", "tools/packing/", "tools/batch/", "tools/wasm/",
                              "tools/mark.py", "tools/release.sh", "tools/unproved.py",
                              "tools/unchecked.py", "tools/sources.sh", "VERSION", ".gitignore")
        self.log, self.out, self.obstacles = self.top / "gate.log", folder / "out", obstacles
        for name, text in STUBS.items():
            path = self.top / "tools" / name
            path.write_text(text, encoding="utf-8")
            path.chmod(0o755)
        day = "not released yet" if "undated" in obstacles else "2026-11-11"
        (self.top / "CHANGELOG.md").write_text(f"# Changes\n\n## {VERSION}, {day}\n")
        self.commit = commit_all(self.top)
        if "untagged" not in obstacles:
            succeed(["git", "tag", f"v{VERSION}"], cwd=self.top)
        if "untracked" in obstacles:
            (self.top / "new.txt").touch()
        self.build()
        self.write_log()

    def build(self) -> None:
        """Puts what is built there."""
        self.programs = {it: self.top / "crates" / it / "out" / it for it in PROGRAMS}
        for name, path in self.programs.items():
            path.parent.mkdir(parents=True)
            if not (name == "mte_run" and "absent" in self.obstacles):
                path.write_bytes(mark.text_of({}) + b".note.tombolopan" + name.encode())
        if "unproved" in self.obstacles:
            text = f"{sum_of(self.programs['mte_run'].read_bytes())}  mte_run\n"
            self.programs["mte_run"].with_name("mte_run.unproved").write_text(text)
        for name in LIBRARIES[::2] if "libraries" in self.obstacles else LIBRARIES:
            path = self.top / "examples" / "libc" / "out" / name
            path.parent.mkdir(parents=True, exist_ok=True)
            path.touch()
        for name in FOR_ARM64[1:] if "arm64" in self.obstacles else FOR_ARM64:
            is_proved = name in PROGRAMS or "of_unproved" not in self.obstacles
            self.build_arm64(name, "the proved build" if is_proved else "a build without proof",
                             self.commit)

    def build_arm64(self, name: str, kind: str, commit: str) -> None:
        """Puts what is built for arm64 of some kind of build there, with the lines of a commit."""
        crate = name.removeprefix("lib").removesuffix(".a")
        path = self.top / "crates" / crate / "out" / "arm64" / name
        path.parent.mkdir(parents=True, exist_ok=True)
        path.write_bytes(mark.text_of({"commit": commit, "changes": "none", **toolchain(),
                                       "build": "unproved"}) + name.encode())
        note = f"# For arm64, of the LLVM module of {kind}.\n{sum_of(path.read_bytes())}  {name}\n"
        path.with_name(f"{name}.unproved").write_text(note, encoding="utf-8")

    def write_log(self) -> None:
        """Writes the log of a gate."""
        commit = "0" * 40 if "other" in self.obstacles else self.commit
        changes = "some" if "changed" in self.obstacles else "none"
        line = f"run.sh: commit {commit}, changes {changes}"
        sums = [f"{sum_of(path.read_bytes() if path.exists() else b'')}  crates/{name}/out/{name}"
                for name, path in self.programs.items()]
        if "another" in self.obstacles:
            sums[0] = f"{'1' * 64}  crates/mte_host/out/mte_host"
        failed = 2 if "failed" in self.obstacles else 0
        last = [] if "short" in self.obstacles else [f"7 passed, {failed} failed, 1 skipped"]
        end = [line, *sums, *last]
        if "stopped" in self.obstacles:
            end = ["1 failed, 6 passed in 70.12s (0:01:10)"]
        lines = [line, "logic=proved functions=21", "9 passed in 3 s", *end]
        self.log.write_text("\n".join([*lines, ""]), encoding="utf-8")

    def release(self, *words: str | pathlib.Path) -> Ran:
        """Makes the release."""
        return run([self.top / "tools" / "release.sh", *words, self.out], cwd=self.top)


def said(obstacles: frozenset[str]) -> list[str]:
    """What is said of obstacles: of a log with no counts, not that they have a failure; of one that
    ends where a case failed, only that."""
    hidden = {"short": {"failed"}, "stopped": {"short", "failed", "another"}}
    unsaid = {it for name in obstacles for it in hidden.get(name, ())}
    return [text for name, text in OBSTACLES.items() if name in obstacles - unsaid]


@pytest.mark.parametrize("number", range(DRAWN))
def test_refused(number: int, tmp_path: pathlib.Path) -> None:
    """For drawn obstacles each is said, and nothing else; nothing is made."""
    names = sorted(OBSTACLES)
    drawn = random.Random(number)
    obstacles = frozenset([names[number % len(names)], *drawn.sample(names, drawn.randint(0, 4))])
    if "unproved" in obstacles:
        # One program is either.
        obstacles -= {"absent"}
    checkout = Checkout(tmp_path, obstacles)
    ran = checkout.release("--gate", checkout.log)
    lines = ran.errors.splitlines()
    assert (ran.status, ran.output) == (1, "")
    assert len(lines) == len(said(obstacles)), lines
    for line, text in zip(lines, said(obstacles)):
        assert re.fullmatch(f"release.sh: refused: {text}", line), (line, text)
    assert not checkout.out.exists() and not list(tmp_path.glob(".out*"))


def test_made(tmp_path: pathlib.Path) -> None:
    """With no obstacle it is made, the same in two folders, and names the version alone; OpenSSL
    knows the signature, and the counts are those of the log."""
    need("openssl")
    if run([sys.executable, "-c", "import cryptography"]).status:
        give_up("missing: python3-cryptography (tests/packages.txt)")
    key, public = tmp_path / "key", tmp_path / "public"
    succeed(["openssl", "genpkey", "-algorithm", "ed25519", "-out", key])
    succeed(["openssl", "pkey", "-in", key, "-pubout", "-out", public])
    every = []
    for name in ("one", "two/deeper"):
        (tmp_path / name).mkdir(parents=True)
        checkout = Checkout(tmp_path / name, frozenset())
        ran = checkout.release("--gate", checkout.log, "--key", key)
        assert ran.status == 0, ran.errors
        assert_table(ran.output, checkout.out)
        every.append((checkout.out / "SHA256SUMS").read_text(encoding="utf-8"))
    assert every[0] == every[1]
    assert {it.name for it in checkout.out.iterdir()} == {
        "SHA256SUMS", "a.whl", "steps.xz", f"tombolopan-doc_{VERSION}_all.deb",
        f"tombolopan_{VERSION}~unproved_arm64.deb", f"tombolopan-gate_{VERSION}.log",
        *(f"tombolopan_{VERSION}.{it}" for it in ("html", "intoto.json", "spdx.json", "tar.gz"))}
    made, body, signatures = statement_of(checkout.out)
    (tmp_path / "body").write_bytes(b"DSSEv1 28 application/vnd.in-toto+json %d %s"
                                    % (len(body), body))
    (tmp_path / "signature").write_bytes(signatures[0])
    succeed(["openssl", "pkeyutl", "-verify", "-pubin", "-inkey", public, "-rawin", "-in",
             tmp_path / "body", "-sigfile", tmp_path / "signature"])
    assert made["predicate"]["buildDefinition"]["internalParameters"]["gate"] == {
        "passed": 7, "failed": 0, "skipped": 1, "functions": 21}


def with_other_lines(checkout: Checkout) -> None:
    """A program that says that it is of another commit, which the gate had."""
    path = checkout.programs["mte_run"]
    text = mark.text_of({"commit": "2" * 40, "changes": "none", "build": "proved"})
    path.write_bytes(text + b".note.tombolopan")
    checkout.write_log()


def with_other_lines_for_arm64(checkout: Checkout) -> None:
    """A program for arm64 that says that it is of another commit."""
    checkout.build_arm64("mte_host", "the proved build", "2" * 40)


def with_wrong_key(checkout: Checkout) -> None:
    """A key that is none."""
    (checkout.out.parent / "key").write_text("no key")


def with_files(checkout: Checkout) -> None:
    """A folder that has something."""
    checkout.out.mkdir()
    (checkout.out / "mine").write_text("mine")


@pytest.mark.parametrize("act, words, text", [
    (with_other_lines, (), r"mte_run says of itself: .*commit:    2{40}.*"),
    (with_other_lines_for_arm64, (), r"mte_host says of itself: .*commit:    2{40}.*unproved"),
    (with_wrong_key, ("--key", "../key"), r"\.\./key has no key of this kind.*"),
    (with_files, (), r".*/out is there, and is not empty")])
def test_not_made(tmp_path: pathlib.Path, act: Callable[[Checkout], None], words: tuple[str, ...],
                  text: str) -> None:
    """What comes to light later ends it too, and nothing is left of it or lost."""
    checkout = Checkout(tmp_path, frozenset())
    act(checkout)
    before = sorted(tmp_path.rglob("*"))
    ran = checkout.release("--gate", checkout.log, *words)
    assert (ran.status, ran.output) == (2, "")
    assert re.fullmatch(f"release.sh: {text}", ran.errors.splitlines()[-1]), ran.errors
    left = [it for it in sorted(tmp_path.rglob("*")) if "__pycache__" not in str(it)
            and "/.git/" not in str(it)]
    assert left == [it for it in before if "/.git/" not in str(it)]


def test_missing_tools(tmp_path: pathlib.Path) -> None:
    """What packs for arm64 and makes the page is asked for before anything is made; a trial does
    without."""
    checkout = Checkout(tmp_path, frozenset())
    folder = tmp_path / "bin"
    folder.mkdir()
    for name in ("bash", "dirname", "rt", "cc", "git", "dpkg-deb", "dpkg-shlibdeps", "strip",
                 "objcopy", "aarch64-linux-gnu-gcc", "ld.lld"):
        found = shutil.which(name)
        assert found or name == "aarch64-linux-gnu-gcc", name
        (folder / name).symlink_to(found or "/bin/true")
    (folder / "python3").write_text("#!/bin/sh\necho goes on\n")
    (folder / "python3").chmod(0o755)
    words: list[Word] = [checkout.top / "tools" / "release.sh", "--gate", checkout.log]
    words.append(checkout.out)
    ran = run(words, extra={"PATH": str(folder)})
    assert ran == Ran(2, b"", b"release.sh: missing: clang\n")
    assert run([*words, "--dry-run"], extra={"PATH": str(folder)}).output == "goes on\n"


def test_words() -> None:
    """--help prints the script's comment; an option that is none is refused."""
    ran = run([ROOT / "tools" / "release.sh", "--help"])
    assert ran.status == 0 and "    tools/release.sh --gate LOG [--key PRIVATE] OUT\n" in ran.output
    assert run([ROOT / "tools" / "release.sh", "--of", "out"]).status == 2
