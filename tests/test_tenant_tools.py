"""Arguments and files of tenants without a link (tenant-args), and one command that runs a tenant
as a program of this machine runs (tenant-run)."""

import os
import pathlib
import re
import shlex
import shutil
import stat
import subprocess
import sys
import tomllib

import pytest

from tests.support.cache import cache_folder, tenant_library
from tests.support.checkout import make_stub
from tests.support.places import EXAMPLES, ROOT, TESTS
from tests.support.programs import TENANT_CC, native, run_as_tenant, tenant_cc
from tests.support.running import HANG, Ran, run, succeed
from tests.support.tenant_tools import TENANT_RUN, built, tenant_args, tenant_run
from tests.support.tools import give_up, need

SOURCES = TESTS / "sources"


@pytest.fixture(scope="session")
def library() -> pathlib.Path:
    """The library, which is built once."""
    return tenant_library()


WORDS = """
#include <stdio.h>
extern char **environ;
int main(int count, char **words)
{
    for (int i = 0; i < count; i++)
        printf("[%s]", words[i]);
    for (char **at = environ; *at; at++)
        printf("{%s}", *at);
    words[0][0] = 'x';
    return count;
}
"""


def test_arguments_are_written_into_an_image(
    alone: pathlib.Path, library: pathlib.Path, tmp_path: pathlib.Path
) -> None:
    """Words, a name and an environment; each call drops what was written before, and the last one
    without words leaves an image that does what the first one did."""
    image = built(library, tmp_path, WORDS)
    first = image.read_bytes()
    cases: list[tuple[list[str], bytes]] = [
        (["one", "two words", ""], b"[tenant][one][two words][]"),
        (["a", "--env", "HOME=/root", "--env=A=b=c", "b"], b"[tenant][a][b]{HOME=/root}{A=b=c}"),
        (["--name", "prog", "--", "-o", "--env"], b"[prog][-o][--env]"),
        (["x" * 10000], b"[tenant][" + b"x" * 10000 + b"]"),
        ([], b"[tenant]"),
    ]
    for words, wanted in cases:
        assert tenant_args(str(image), *words).status == 0
        ran = run_as_tenant(alone, image)
        assert (ran.out, ran.status) == (wanted, wanted.count(b"[")), ran.errors
    assert len(image.read_bytes()) < len(first) + 2 * 4096
    other = tmp_path / "other.elf"
    assert tenant_args(str(image), "-o", str(other), "y").status == 0
    assert run_as_tenant(alone, other).out == b"[tenant][y]"
    assert run_as_tenant(alone, image).out == b"[tenant]"


@pytest.mark.parametrize("compiler", ["clang", "gcc"])
def test_the_words_of_a_link_give_way(
    alone: pathlib.Path, library: pathlib.Path, tmp_path: pathlib.Path, compiler: str
) -> None:
    """Those of `tenant-cc --arguments`, also in a stripped image; one that is stripped behind that
    runs, and is not written again."""
    need("llvm-strip", "aarch64-linux-gnu-gcc")
    image = built(library, tmp_path, WORDS, "--arguments=linked", f"--compiler={compiler}")
    assert run_as_tenant(alone, image).out == b"[tenant][linked]"
    succeed(["llvm-strip", image])
    assert tenant_args(str(image), "written").status == 0
    assert run_as_tenant(alone, image).out == b"[tenant][written]"
    succeed(["llvm-strip", image])
    assert run_as_tenant(alone, image).out == b"[tenant][written]"
    ran = tenant_args(str(image), "again")
    why = f"tenant-args: {image}: it was changed after its arguments were written\n"
    assert (ran.status, ran.errors) == (2, why)


def test_images_that_are_refused(tmp_path: pathlib.Path, library: pathlib.Path) -> None:
    """Status 2, a line, and the file as it was."""
    image = tmp_path / "image"
    for data, why in [
        ((EXAMPLES / "hi.elf").read_bytes(), "it has no note of the C library of tenants: "
         "link it by tenant-cc"),
        (b"no image", "it is no ELF64 file"),
        ((library / "lib/start.o").read_bytes(), "it is no executable for AArch64"),
    ]:
        image.write_bytes(data)
        ran = tenant_args(str(image), "a")
        assert (ran.status, ran.errors) == (2, f"tenant-args: {image}: {why}\n")
        assert image.read_bytes() == data
        assert [path.name for path in tmp_path.iterdir()] == ["image"]


def test_files_that_are_refused(tmp_path: pathlib.Path, library: pathlib.Path) -> None:
    """A file that is not there, one that is a folder too, and more bytes than addresses."""
    image = built(library, tmp_path, "int main(void) { return 0; }\n")
    data, large = image.read_bytes(), tmp_path / "large"
    large.write_bytes(bytes(17 << 20))
    for words, why in [
        (["--file", "a=/none"], "/none is no file"),
        (["--file", "a"], "--file needs NAME=PATH, not a"),
        (["--file", f"a={large}", "--file", f"a/b={large}"],
         f"{image}: /a is a file and a folder"),
        (["--file", f"a={large}"], f"{image}: there is no room for 17,"),
        (["--env"], "--env needs a value (--help)"),
    ]:
        ran = tenant_args(str(image), *words)
        assert ran.status == 2 and ran.errors.startswith(f"tenant-args: {why}")
        assert image.read_bytes() == data


def files_folder(folder: pathlib.Path) -> pathlib.Path:
    """The folder that files.c begins in."""
    start = folder / "start"
    (start / "data/deep").mkdir(parents=True)
    (start / "none").mkdir()
    (start / "data/words.txt").write_text("one two\nthree four\n")
    (start / "data/deep/er.txt").write_text("deeper\n")
    return start


def test_files_do_what_they_do_natively(
    alone: pathlib.Path, library: pathlib.Path, tmp_path: pathlib.Path
) -> None:
    """A program that opens, writes, lists, renames and removes files writes the same as here, over
    files that tenant-args wrote too, and touches none of this machine's."""
    image = built(library, tmp_path, (SOURCES / "files.c").read_text(), name="files")
    start, own = files_folder(tmp_path), files_folder(tmp_path / "native")
    program = native(SOURCES / "files.c", tmp_path / "native/files", "-w")
    wanted = run(["/bin/sh", "-c", f"umask 022; {program}"], cwd=own)
    assert wanted.status == 0 and wanted.out.count(b"\n") > 120
    for exact in (False, True):
        words = ["--option=--exact"] * exact
        ran = tenant_run(alone, *words, "--files", ".", str(image), cwd=start)
        assert (ran.out, ran.status, ran.errors) == (wanted.out, 0, "")
    assert sorted(path.name for path in start.rglob("*")) == [
        "data", "deep", "er.txt", "none", "words.txt"]
    files = [f"--file={name}={start / name}" for name in ("data/words.txt", "data/deep/er.txt")]
    files += [f"--file=none/x={image}"]
    assert tenant_args(str(image), "--folder", "/start", *files).status == 0
    ran = run_as_tenant(alone, image)
    assert (ran.status, b"none has 3: ./ ../ x\n" in ran.out) == (0, True), ran.errors
    assert ran.out.replace(b"none has 3: ./ ../ x", b"none has 2: ./ ../") == wanted.out


READER = """
#include <stdio.h>
int main(int count, char **words)
{
    for (int i = 1; i < count; i++) {
        char text[16] = "none";
        FILE *file = fopen(words[i], "r");
        if (file)
            fgets(text, sizeof text, file);
        printf("%s: %s\\n", words[i], text);
    }
}
"""


WRITER = """
#include <stdio.h>
#include <sys/stat.h>
static void put(const char *name, const char *mode, const char *text)
{
    FILE *file = fopen(name, mode);
    printf("%s: %d\\n", name, file && fputs(text, file) >= 0 && !fclose(file));
}
int main(int count, char **words)
{
    put("made.txt", "w", "made");
    mkdir("sub", 0755);
    put("sub/two.txt", "w", "two");
    put("in.txt", "a", "more");
    put("/tmp/scratch", "w", "lost");
    put("/other/known", "r+", "OLD");
    put("/other/unknown", "w", "refused");
    rename("old.txt", "new.txt");
    put("late.txt", "w", "late");
    mkdir("folder", 0755);
    rename("late.txt", "folder/late.txt");
    return count > 1 ? *(volatile char *)0 : 3;
}
"""


def test_written_files_come_back(
    alone: pathlib.Path, library: pathlib.Path, tmp_path: pathlib.Path
) -> None:
    """`--out-files`: those below this folder and those that were named; none without it, nor where
    the tenant does not end by itself; and the output is what it is without."""
    image, here, other = built(library, tmp_path, WRITER), tmp_path / "here", tmp_path / "other"
    here.mkdir()
    other.write_text("old file")
    (here / "in.txt").write_text("some ")
    (here / "old.txt").write_text("old")
    words = ["--files", ".", "--files", f"/other/known={other}", str(image)]
    before = {path.name: path.read_bytes() for path in here.iterdir()}
    ran = tenant_run(alone, *words, cwd=here)
    assert (ran.status, ran.errors) == (3, "") and ran.output.count(": 1\n") == 7
    assert tenant_run(alone, "--out-files", *words, "fault", cwd=here).status == 139
    assert {path.name: path.read_bytes() for path in here.iterdir()} == before
    again = tenant_run(alone, "--out-files", *words, cwd=here)
    assert (again.out, again.status) == (ran.out, 3)
    assert again.errors.startswith("tenant-run: /other/unknown is not written: ")
    assert again.errors.count("\n") == 1
    found = {str(path.relative_to(here)): path.read_text() for path in here.rglob("*.txt")}
    assert found == {"made.txt": "made", "sub/two.txt": "two", "in.txt": "some more",
                     "old.txt": "old", "new.txt": "old", "folder/late.txt": "late"}
    assert other.read_text() == "OLD file"


FORGER = """
#include <stdint.h>
#include <string.h>
#include "tenant.h"
int main(int count, char **words)
{
    struct { uint32_t mode, name; uint64_t size; } head = {0100644, strlen(words[1]), 3};
    struct { char mark[8]; uint64_t size; } end = {"TenFiles", sizeof head + head.name + 3};
    head.size += count > 2 ? 1000 : 0;
    tenant_write("out", 3);
    tenant_write(&head, sizeof head);
    tenant_write(words[1], head.name);
    tenant_write("bad", 3);
    tenant_write(&end, sizeof end);
    tenant_exit(0);
}
"""


def test_forged_files_are_refused(
    alone: pathlib.Path, library: pathlib.Path, tmp_path: pathlib.Path
) -> None:
    """A tenant may write what the library writes behind its output: of names that lead elsewhere
    nothing is written."""
    image, here = built(library, tmp_path, FORGER), tmp_path / "here"
    here.mkdir()
    for name, status, found in [
        (f"{here}/../up", 153, []), ("/other/up", 0, []), ("up", 153, []),
        (f"{here}//up", 153, []), (f"{here}/up", 0, ["up"]),
    ]:
        ran = tenant_run(alone, "--out-files", str(image), name, cwd=here)
        assert ran.status == status and bool(ran.errors) != bool(found), ran.errors
        assert ran.out.startswith(b"out") and (status == 153) == (len(ran.out) > 3)
        assert ran.errors.startswith("tenant-run: ") or found
        assert [path.name for path in here.iterdir()] == found
    ran = tenant_run(alone, "--out-files", str(image), f"{here}/more", "long", cwd=here)
    assert ran.status == 153 and not (here / "more").exists()
    assert not (tmp_path / "up").exists()


def test_links_lead_nowhere_else(
    alone: pathlib.Path, library: pathlib.Path, tmp_path: pathlib.Path
) -> None:
    """Of a name below a symbolic link, where the link leads decides."""
    image, here, other = built(library, tmp_path, FORGER), tmp_path / "here", tmp_path / "other"
    here.mkdir()
    other.mkdir()
    (here / "link").symlink_to(other)
    (here / "new").symlink_to(other / "new")
    (here / "kept").symlink_to(other / "kept")
    (other / "kept").write_text("kept")
    for name in ("link/new", "new", "kept"):
        for option in ("--brief", "--files=."):
            ran = tenant_run(alone, "--out-files", option, str(image), f"{here}/{name}", cwd=here)
            assert (ran.status, ran.out) == (0, b"out")
    assert [path.read_text() for path in other.iterdir()] == ["kept"]


@pytest.mark.parametrize("kind", ["new", "file", "mode", "linked twice", "link", "link up"])
def test_written_files_take_the_place_of_older_ones(
    alone: pathlib.Path, library: pathlib.Path, tmp_path: pathlib.Path, kind: str
) -> None:
    """A file is put in its place by a rename: what had the older one keeps it as it was, the mode
    stays, and a link within the folder leads to the new one. Nothing else is left."""
    image, here = built(library, tmp_path, FORGER), tmp_path / "here"
    (here / "below").mkdir(parents=True)
    path = here / "below" / "file"
    if kind != "new":
        path.write_text("older")
        path.chmod(0o751 if kind == "mode" else 0o644)
    name, held = path, path.open() if path.exists() else None
    if kind == "linked twice":
        (tmp_path / "kept").hardlink_to(path)
    if kind.startswith("link"):
        name = here / "link"
        name.symlink_to("below/file" if kind == "link" else "../here/below/file")
    before = {each.name for each in here.rglob("*")}
    ran = tenant_run(alone, "--out-files", str(image), str(name), cwd=here)
    assert (ran.status, ran.out, ran.errors) == (0, b"out", "")
    assert path.read_text() == "bad" and not path.is_symlink()
    assert {each.name for each in here.rglob("*")} == before | {"file"}
    assert stat.S_IMODE(path.stat().st_mode) == (0o751 if kind == "mode" else 0o644)
    if held:
        assert held.read() == "older"
        held.close()
    if kind == "linked twice":
        assert (tmp_path / "kept").read_text() == "older"


ODD = "\x1b[2J\x1b]0;name\x07\r\u202e\xe4"


@pytest.mark.parametrize("option", ["--out-files", "--files", "--env", "--steps", "program"])
def test_odd_names_are_written_by_their_numbers(
    alone: pathlib.Path, library: pathlib.Path, tmp_path: pathlib.Path, option: str
) -> None:
    """No name that a tenant, a folder or a command line has brings a control character, or one
    that is none of ASCII, to standard error."""
    image, here = built(library, tmp_path, FORGER), tmp_path / "here"
    here.mkdir()
    (here / ODD).symlink_to("../program.elf")
    words = {"--out-files": ["--out-files", str(image), f"/other/{ODD}"],
             "--files": ["--files", ".", str(image), "x"], "--env": ["--env", ODD, str(image)],
             "--steps": ["--steps", ODD, str(image), "x"], "program": [f"./{ODD}/none"]}
    ran = tenant_run(alone, *words[option], cwd=here)
    assert ran.errors and all(32 <= byte < 127 or byte == 10 for byte in ran.err), ran.err


@pytest.mark.parametrize("name", ["input", "told"])
def test_a_program_of_any_name(
    alone: pathlib.Path, library: pathlib.Path, tmp_path: pathlib.Path, name: str
) -> None:
    """Also of a name that tenant-run gives a file of its own."""
    image = built(library, tmp_path, "int main(void) { return 4; }").rename(tmp_path / name)
    ran = tenant_run(alone, str(image), stdin=b"bytes")
    assert (ran.status, ran.errors) == (4, "")


PROCESSES = """
#include <errno.h>
#include <spawn.h>
#include <stdio.h>
#include <stdlib.h>
#include <sys/wait.h>
#include <unistd.h>
#define LACKS(call) (errno = 0, (long)(call) == -1 && errno == ENOSYS)
int main(void)
{
    char *words[] = {"ls", NULL};
    return LACKS(fork()) + LACKS(vfork()) + LACKS(execv("/bin/ls", words))
        + LACKS(execvp("ls", words)) + LACKS(execve("/bin/ls", words, words)) + LACKS(wait(NULL))
        + LACKS(waitpid(-1, NULL, 0)) + LACKS(system("ls")) + (popen("ls", "r") == NULL)
        + (posix_spawn(NULL, "/bin/ls", NULL, NULL, words, words) == ENOSYS) - system(NULL);
}
"""


def test_other_processes_are_refused(
    alone: pathlib.Path, library: pathlib.Path, tmp_path: pathlib.Path
) -> None:
    """`fork` and its kin link, and end with ENOSYS; there is no shell."""
    assert run_as_tenant(alone, built(library, tmp_path, PROCESSES)).status == 10


def test_the_library_defines_what_it_refers_to(library: pathlib.Path) -> None:
    """Of the names that its objects refer to each is another one's, or the linker's."""
    need("llvm-nm")
    listed = succeed(["llvm-nm", library / "lib/libc.a", library / "lib/start.o"]).output
    names: dict[str, set[str]] = {"U": set(), "w": set(), "": set()}
    for line in listed.splitlines():
        found = re.fullmatch(r"(?:[0-9a-f]{16} |\s+)(\w) (\S+)", line)
        if found:
            names[found[1] if found[1] in "Uw" else ""].add(found[2])
    assert len(names[""]) > 2000
    # The linker gives `__ehdr_start`, where an image's headers are.
    assert names["U"] - names[""] == {"main", "__ehdr_start"}


def debian_source(package: str) -> pathlib.Path:
    """The folder of a package's source, which is fetched once."""
    need("apt-get", "tar", "bzip2", "xz")
    folder = cache_folder() / "sources"
    script = str(EXAMPLES / "debian_source.py")
    ran = run([sys.executable, script, folder, package], seconds=900)
    if ran.status:
        give_up(ran.errors.strip()[-300:])
    return folder / package


def test_the_tests_of_zlib_pass(
    alone: pathlib.Path, library: pathlib.Path, tmp_path: pathlib.Path
) -> None:
    """zlib's own `make test`, by tenant-cc and tenant-run, says what it says natively: the program
    writes and reads a gzip file among others."""
    need("make", "cc", "clang", "ld.lld", "llvm-ar")
    source = debian_source("zlib")
    told: dict[str, str] = {}
    # A compiler of make has no blank in its path.
    stub = tmp_path / "stub"
    make_stub(stub, "tenant-cc", f"exec '{TENANT_CC}' --library='{library}' \"$@\"\n")
    make_stub(stub, "tenant-run", f"exec '{TENANT_RUN}' --alone '{alone}' \"$@\"\n")
    for name in ("here", "tenant"):
        words = [f"QEMU_RUN={stub}/tenant-run"] * (name == "tenant")
        folder = tmp_path / name
        shutil.copytree(source, folder)
        extra = {"CHOST": "aarch64-linux", "AR": "llvm-ar", "RANLIB": "true",
                 "CC": f"{stub}/tenant-cc"} if words else {}
        succeed(["./configure", "--static"], cwd=folder, extra={"CFLAGS": "-O1", **extra})
        succeed(["make", "-j2", "static"], cwd=folder)
        made = succeed(["make", *words, "teststatic"], cwd=folder)
        told[name] = made.output[made.output.index("hello world\n"):]
    assert "zlib test OK" in told["here"]
    assert re.sub("compile flags.*", "", told["tenant"]) == re.sub(
        "compile flags.*", "", told["here"])


ENDS = r"""
#include <assert.h>
#include <signal.h>
#include <stdio.h>
#include <stdlib.h>
#include <string.h>
int main(int count, char **words)
{
    char *chunk = malloc(32), line[100];
    printf("%s\n", words[1]);
    switch (words[1][0]) {
    case 'e': return atoi(words[2]);
    case 'f': free(chunk); return *(volatile char *)chunk;
    case 'n': return *(volatile char *)NULL;
    case 'd': free(chunk); free(chunk); return 0;
    case 'a': abort();
    case 's': assert(count == 0);
    case 'r': raise(SIGTERM);
    case 't': __builtin_trap();
    case 'i': __asm__ volatile(".word 0");
    case 'l': for (;;) ;
    case 'o': for (int i = 0; i < 70000; i++) putchar('x'); return 0;
    case 'c': while (fgets(line, sizeof line, stdin)) fputs(line, stdout); return 0;
    }
    return 0;
}
"""


@pytest.mark.parametrize("word, status, said", [
    ("exit 0", 0, ""),
    ("exit 139", 139, ""),
    ("free", 139, "Use After Free, 0 bytes into a 32-byte allocation at "),
    ("null", 139, "Null Pointer"),
    ("double", 134, "Double Free of a 32-byte allocation at "),
    ("abort", 134, ""),
    ("said", 134, ""),
    ("raised", 133, ""),
    ("trap", 133, ""),
    ("illegal", 132, "00000000"),
    ("loop", 152, ""),
    ("output", 153, ""),
])
def test_a_tenant_ends_as_a_program_of_a_shell(
    alone: pathlib.Path, ends: pathlib.Path, word: str, status: int, said: str
) -> None:
    """The exit status is the tenant's own, or that of a signal; standard error has the report of
    such an end, or one line of it that begins with a place of the source."""
    need("llvm-symbolizer")
    words = [str(ends), *word.split()]
    ran = tenant_run(alone, "--steps", "2000000", *words)
    assert ran.status == status and ran.output.startswith(word.split()[0])
    short = tenant_run(alone, "--steps=2000000", "--brief", *words)
    assert (short.status, short.out) == (ran.status, ran.out)
    if word.startswith("exit"):
        assert (ran.errors, short.errors) == ("", "")
        return
    assert ran.errors.startswith("mte_run: ") and said in ran.errors
    lines = short.errors.splitlines()
    assert len(lines) == 1 and said in lines[0]
    if status == 153:
        assert lines[0].startswith(f"{ends}: error: output was cut")
        return
    place = re.match(r"(\S+):(\d+): error: ", lines[0])
    assert place and place[1] == str(ends.with_suffix(".c")), lines
    if status != 132:
        assert f"case '{word[0]}'" in ENDS.splitlines()[int(place[2]) - 1], lines


def test_each_end_has_a_status() -> None:
    """tenant-run knows each kind of end that mte_run's JSON names, and what finds."""
    documents = (ROOT / "crates/report_documents/src/json.rt").read_text(encoding="utf-8")
    kinds = set(re.findall(r'\\"kind\\":\\"(\w+)\\"', documents))
    causes = tomllib.loads((ROOT / "tools/causes.toml").read_text(encoding="utf-8"))
    kinds |= {each["finder"] for each in causes["violation"]}
    known = re.search(r"STATUSES = ({.*?})", TENANT_RUN.read_text(encoding="utf-8"), re.DOTALL)
    assert known and set(re.findall(r'"(\w+)":', known[1])) | {"exit"} == kinds


def test_a_finding_ends_as_a_fault_does(alone: pathlib.Path, ends: pathlib.Path) -> None:
    """A second free that --check finds before the heap does."""
    ran = tenant_run(alone, "--option=--check", str(ends), "double")
    assert ran.status == 139 and "Double Free of a 32-byte allocation at " in ran.errors


def test_links_out_of_a_folder_are_left_out(
    alone: pathlib.Path, library: pathlib.Path, tmp_path: pathlib.Path
) -> None:
    """A link within the folder of --files is a file, one that leads out of it is none."""
    image = built(library, tmp_path, READER, name="reader")
    here = tmp_path / "here"
    here.mkdir()
    (tmp_path / "secret").write_text("secret")
    (here / "a").write_text("a")
    (here / "within").symlink_to("a")
    (here / "out").symlink_to("../secret")
    ran = tenant_run(alone, "--files", ".", str(image), "within", "out", cwd=here)
    assert (ran.out, ran.status) == (b"within: a\nout: none\n", 0)
    assert ran.errors == f"tenant-run: {here}/out is left out: it is a link out of its folder\n"


@pytest.fixture(scope="session")
def ends(library: pathlib.Path, tmp_path_factory: pytest.TempPathFactory) -> pathlib.Path:
    """An image that ends as its first argument says."""
    return built(library, tmp_path_factory.mktemp("ends"), ENDS)


def test_input_and_name_are_those_of_the_command(
    alone: pathlib.Path, ends: pathlib.Path, library: pathlib.Path, tmp_path: pathlib.Path
) -> None:
    """Standard input to its end; argv[0] is PROGRAM; what begins with `-` behind it is argv's, and
    the image is as it was."""
    data = ends.read_bytes()
    ran = tenant_run(alone, str(ends), "copy", "--brief", stdin=b"one\ntwo\n")
    assert (ran.out, ran.status, ran.errors) == (b"copy\none\ntwo\n", 0, "")
    assert ends.read_bytes() == data
    built(library, tmp_path, WORDS)
    ran = tenant_run(alone, "--env", "A=b", "./program.elf", "-o", "--env", cwd=tmp_path)
    assert ran.out == b"[./program.elf][-o][--env]{A=b}"


def test_closed_input_and_output(alone: pathlib.Path, ends: pathlib.Path) -> None:
    """No input is none; where nobody reads the output, the status is that of SIGPIPE."""
    words = shlex.join(map(str, [sys.executable, TENANT_RUN, "--alone", alone, ends]))
    assert run(["bash", "-c", f"{words} copy <&-"]).out == b"copy\n"
    unread, output = os.pipe()
    os.close(unread)
    ran = subprocess.run([sys.executable, TENANT_RUN, "--alone", alone, ends, "output"],
                         stdin=subprocess.DEVNULL, stdout=output, stderr=subprocess.PIPE,
                         timeout=HANG, check=False)
    os.close(output)
    assert (ran.returncode, ran.stderr) == (141, b"")


@pytest.mark.parametrize("words, status, said", [
    ([], 2, "it needs a PROGRAM (--help)"),
    (["--files", "none=there", "a"], 2,
     "--files needs a folder or NAME=PATH, not none=there (--help)"),
    (["--steps"], 2, "--steps needs a value (--help)"),
    (["none.elf"], 127, "none.elf: No such file or directory"),
    (["."], 126, ".: Is a directory"),
    (["image"], 126, "image: it is no ELF64 file"),
])
def test_commands_that_are_refused(
    alone: pathlib.Path, tmp_path: pathlib.Path, words: list[str], status: int, said: str
) -> None:
    """A line, and 2, or the status of a shell for a program that it cannot run."""
    (tmp_path / "image").write_bytes(b"no image")
    ran = tenant_run(alone, *words, cwd=tmp_path)
    assert (ran.status, ran.errors) == (status, f"tenant-run: {said}\n")


@pytest.mark.parametrize("kind", ["json", "sarif", "html", "map", "core"])
def test_files_of_mte_run(
    alone: pathlib.Path, ends: pathlib.Path, tmp_path: pathlib.Path, kind: str
) -> None:
    """Each is written, and where it cannot be, a line says so and no exit status hides it."""
    words = [str(ends), "exit", "6"]
    ran = tenant_run(alone, f"--option=--{kind}", f"--option={tmp_path}/told", *words)
    assert (ran.status, ran.errors) == (6, "") and (tmp_path / "told").stat().st_size > 100
    ran = tenant_run(alone, f"--option=--{kind}={tmp_path}/none/told", *words[:2], "5")
    assert ran.status == 126 and re.fullmatch(r"(tenant|mte)[-_]run: .*told.*\n", ran.errors)


def with_options(alone: pathlib.Path, options: str, *words: str) -> Ran:
    """Runs tenant-run where the variable TENANT_OPTIONS has options."""
    extra = {"TENANT_OPTIONS": options, "TENANT_ALONE": str(alone)}
    return run([sys.executable, TENANT_RUN, *words], extra=extra)


@pytest.mark.parametrize("options", [
    ["--brief"], ["--option=--check"], ["--steps", "9"], ["--env=A=two words", "--brief"], [],
])
def test_options_of_the_environment(
    alone: pathlib.Path, ends: pathlib.Path, options: list[str]
) -> None:
    """Those of TENANT_OPTIONS are read as if they were in front of those of the command line."""
    for word in ("double", "free", "exit"):
        words = ["--steps=200000", str(ends), word, "1"]
        ran = with_options(alone, shlex.join(options), *words)
        assert ran == tenant_run(alone, *options, *words)
        last = with_options(alone, "--steps=9", *options, *words)
        assert last == ran


@pytest.mark.parametrize("options, said", [
    ("--brief other.elf", "TENANT_OPTIONS has other.elf, which is no option"),
    ("--", "TENANT_OPTIONS has --, which is no option"),
    ("--quick", "there is no option --quick"),
    ("--steps", "--steps needs a value"),
    ("--env 'A=b", "TENANT_OPTIONS is not split into words: No closing quotation"),
])
def test_options_of_the_environment_that_are_refused(
    alone: pathlib.Path, options: str, said: str
) -> None:
    """A line and status 2, whatever the command line has."""
    ran = with_options(alone, options, "program.elf")
    assert (ran.status, ran.out, ran.errors) == (2, b"", f"tenant-run: {said} (--help)\n")


def test_ctest_runs_tenants(
    alone: pathlib.Path, library: pathlib.Path, tmp_path: pathlib.Path
) -> None:
    """libyaml's own tests, built by CMake with tenant-cc and run by ctest with tenant-run."""
    need("make", "cmake", "ctest", "clang", "ld.lld")
    source = debian_source("libyaml")
    extra = {"TENANT_ALONE": str(alone), "TENANT_LIBRARY": str(library)}
    settings = {
        "CMAKE_SYSTEM_NAME": "Linux", "CMAKE_SYSTEM_PROCESSOR": "aarch64",
        "CMAKE_C_COMPILER": TENANT_CC, "CMAKE_CROSSCOMPILING_EMULATOR": TENANT_RUN,
        "BUILD_SHARED_LIBS": "OFF",
    }
    words = [f"-D{name}={value}" for name, value in settings.items()]
    succeed(["cmake", *words, source], cwd=tmp_path, extra=extra)
    succeed(["make", "test-version", "test-reader"], cwd=tmp_path, extra=extra)
    for options in ("", "--option=--check"):
        ran = succeed(["ctest"], cwd=tmp_path, extra={**extra, "TENANT_OPTIONS": options})
        assert "100% tests passed, 0 tests failed out of 2" in ran.output
    ran = run(["ctest"], cwd=tmp_path, extra={**extra, "TENANT_OPTIONS": "--steps=9"})
    assert "0% tests passed, 2 tests failed out of 2" in ran.output
    assert b"Tombolopan" in next(tmp_path.rglob("test-reader")).read_bytes()


SCHEME = """
(define (fact n) (if (= n 0) 1 (* n (fact (- n 1)))))
(write (map fact '(1 2 3 4 5 10))) (newline)
(call-with-output-file "out.txt" (lambda (port) (write '(a "b" 2.5) port)))
(write (call-with-input-file "out.txt" read)) (newline)
"""


def test_a_program_of_others_finds_its_files(
    alone: pathlib.Path, library: pathlib.Path, tmp_path: pathlib.Path
) -> None:
    """TinyScheme reads its own library and a script that argv names, and writes and reads a file;
    what it writes comes back."""
    need("cc", "clang", "ld.lld")
    source = debian_source("tinyscheme")
    words = ["-O1", "-w", "-DUSE_DL=0", "-DSTANDALONE=1", "-DUSE_INTERFACE=1"]
    program, image = tmp_path / "here/scheme", tmp_path / "there/scheme"
    for path in (program, image):
        path.parent.mkdir()
        shutil.copy(source / "init.scm", path.parent)
        (path.parent / "script.scm").write_text(SCHEME)
    succeed(["cc", *words, "-o", program, source / "scheme.c", "-lm"])
    made = tenant_cc(library, *words, "-o", str(image), str(source / "scheme.c"), "-lm")
    assert (made.status, made.errors) == (0, "")
    wanted = run(["./scheme", "script.scm"], cwd=program.parent)
    names = [f"--files={name}={name}" for name in ("init.scm", "script.scm")]
    ran = tenant_run(alone, *names, "--out-files", "./scheme", "script.scm", cwd=image.parent)
    assert (ran.out, ran.status, ran.errors) == (wanted.out, wanted.status, "")
    assert wanted.out.startswith(b"(1 2 6 24 120 3628800)\n")
    texts = [(path.parent / "out.txt").read_bytes() for path in (program, image)]
    assert texts[0] == texts[1] == b'(a "b" 2.5)'
