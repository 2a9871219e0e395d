"""The C library of tenants and its compiler driver: ordinary programs write and return as tenants
what they write and return on this machine, by clang and gcc."""

import errno
import pathlib
import re
import shutil
from collections.abc import Sequence
from dataclasses import dataclass

import pytest

from tests.support import c_tenants, drawn_maps
from tests.support.cache import tenant_library
from tests.support.c_tenants import Tenant
from tests.support.drawn_options import DRIVER, Tables, results
from tests.support.places import EXAMPLES
from tests.support.programs import (
    LEVELS, WARNINGS, comment_value, compiled, is_for_clang, is_refused, native, run_as_tenant,
    tenant_cc,
)
from tests.support.running import Ran, run
from tests.support.told import REFUSED_REQUEST, UNSEEN
from tests.support.tools import need

PROGRAMS = sorted((EXAMPLES / "libc" / "tests" / "programs").glob("*.c"))
TESTS = sorted((EXAMPLES / "libc" / "tests").glob("*.c*"))
# By both compilers at all levels; each other one by clang at -O2 and by gcc at -O0.
THOROUGH = {"json_pretty", "word_count", "runtime"}
FEW = (("clang", "-O2"), ("gcc", "-O0"))
ALL = tuple((compiler, level) for compiler in ("clang", "gcc") for level in LEVELS)


@dataclass(frozen=True)
class Case:
    """A source, and the compiler and level that it is tried by."""

    source: pathlib.Path
    compiler: str
    level: str

    def __str__(self) -> str:
        """Its title."""
        return f"{self.source.name}-{self.compiler}-{self.level}"

    def compiled(
        self, library: pathlib.Path, folder: pathlib.Path, flags: Sequence[str] = WARNINGS
    ) -> pathlib.Path:
        """The tenant, in a folder."""
        need_compilers(self.compiler, self.source)
        image = folder / "image.elf"
        return compiled(library, self.source, self.compiler, self.level, image, flags)


def cases(sources: list[pathlib.Path]) -> list[Case]:
    """Each source with the compilers and levels that it is tried by."""
    return [
        Case(source, compiler, level) for source in sources
        for compiler, level in (ALL if source.stem in THOROUGH else FEW)
        if compiler == "clang" or not is_for_clang(source)
    ]


def need_compilers(compiler: str, source: pathlib.Path) -> None:
    """The compilers of a case: for tenants, and for this machine."""
    cross = "aarch64-linux-gnu-g++" if source.suffix == ".cpp" else "aarch64-linux-gnu-gcc"
    for tool in ["clang", "ld.lld"] if compiler == "clang" else [cross]:
        need(tool)
    need("c++" if source.suffix == ".cpp" else "cc")


@pytest.fixture(scope="session")
def library() -> pathlib.Path:
    """The library, which is built once."""
    return tenant_library()


@pytest.mark.parametrize("case", cases(PROGRAMS), ids=str)
def test_a_program_does_what_it_does_natively(
    alone: pathlib.Path, library: pathlib.Path, tmp_path: pathlib.Path, case: Case
) -> None:
    """Output and exit status of the programs of examples/libc/tests/programs over their inputs."""
    image = case.compiled(library, tmp_path)
    data = case.source.with_suffix(".txt")
    program = native(case.source, tmp_path / "native", "-O2", "-Wall", "-Wextra")
    wanted = run([program], stdin=data.read_bytes())
    for words in ((), ("--exact",)):
        ran = run_as_tenant(alone, image, "--input", str(data), *words)
        assert (ran.out, ran.status) == (wanted.out, wanted.status), ran.errors
        assert ran.errors in (("", UNSEEN + "\n") if not words else ("",))


@pytest.mark.parametrize("case", cases(TESTS), ids=str)
def test_the_library_does_what_its_tests_expect(
    alone: pathlib.Path, library: pathlib.Path, tmp_path: pathlib.Path, case: Case
) -> None:
    """A test of examples/libc/tests ends as its comment says, or else as it does natively."""
    image = case.compiled(library, tmp_path, ["-w"])
    ran = run_as_tenant(alone, image)
    ends = comment_value(case.source, "ends")
    if ends is not None:
        assert ran.status == int(ends), ran.errors
        assert (comment_value(case.source, "tells") or "") in ran.errors
        return
    program = native(case.source, tmp_path / "native", "-O1", "-w", "-ffp-contract=off")
    wanted = run([program])
    assert (ran.out, ran.status) == (wanted.out, wanted.status), ran.errors
    refused = REFUSED_REQUEST.findall(ran.errors)
    assert ran.errors in ("".join(refused), "".join(refused) + UNSEEN + "\n")
    exact = run_as_tenant(alone, image, "--exact")
    said = "".join(refused)
    assert (exact.out, exact.status, exact.errors) == (wanted.out, wanted.status, said)


SHORT = [tenant.name for tenant in c_tenants.tenants() if not tenant.is_long]


@pytest.mark.parametrize("compiler, level", FEW)
@pytest.mark.parametrize("name", SHORT)
def test_tenants_in_c_are_told_the_same_over_the_library(
    host: pathlib.Path, alone: pathlib.Path, library: pathlib.Path, tmp_path: pathlib.Path,
    name: str, compiler: str, level: str,
) -> None:
    """Those of examples/c, whose comments expect the same of them when tenant-cc builds them."""
    tenant = Tenant(c_tenants.FOLDER / f"{name}.c")
    need_compilers(compiler, tenant.source)
    image = compiled(library, tenant.source, compiler, level, tmp_path / "image.elf")
    report = c_tenants.report_of(host, tenant, image)
    ran = c_tenants.run_alone(alone, tenant, image)
    assert all(text in report for text in tenant.values("expect")), report
    assert all(text in ran.errors for text in tenant.values("cause")), ran.errors
    assert ran.status == tenant.ends
    if tenant.ends < 128:
        exact = c_tenants.run_alone(alone, tenant, image, "--exact")
        assert (exact.status, exact.out) == (ran.status, ran.out)
        assert exact.errors == ran.errors.replace(UNSEEN + "\n", "")


def linked(
    library: pathlib.Path, folder: pathlib.Path, text: str, *words: str
) -> tuple[pathlib.Path, str]:
    """The image of a source by tenant-cc with its own options, and what it says."""
    need("clang", "ld.lld")
    source, image = folder / "source.c", folder / "image.elf"
    source.write_text(text, encoding="utf-8")
    ran = tenant_cc(library, "--compiler=clang", *words, "-O1", "-o", str(image), str(source))
    assert ran.status == 0, ran.errors
    return image, ran.errors


def test_drawn_options_are_parsed_as_they_are_natively(
    alone: pathlib.Path, library: pathlib.Path, tmp_path: pathlib.Path
) -> None:
    """Tables of argp and command lines that were drawn: calls of parsers, texts, exit statuses."""
    need("clang", "ld.lld", "cc")
    tables = Tables(4)
    (tmp_path / "tables.h").write_text(tables.draw(12))
    commands = [tables.command() for _ in range(120)]
    flags = [f"-I{tmp_path}", "-w"]
    image = compiled(library, DRIVER, "clang", "-O1", tmp_path / "image.elf", flags)
    program = native(DRIVER, tmp_path / "native", *flags)

    def as_tenant(data: bytes) -> Ran:
        (tmp_path / "input").write_bytes(data)
        return run_as_tenant(alone, image, "--input", str(tmp_path / "input"))

    wanted = results(lambda data: run([program], stdin=data), commands)
    assert results(as_tenant, commands) == wanted


def test_drawn_maps_are_as_natively(
    alone: pathlib.Path, library: pathlib.Path, tmp_path: pathlib.Path
) -> None:
    """Files that are written, cut, locked and mapped, shared and privately: results and bytes; but
    a file that is mapped to be read grows no further than its map."""
    need("clang", "ld.lld", "cc")
    image = compiled(library, drawn_maps.DRIVER, "clang", "-O1", tmp_path / "image.elf")
    program = native(drawn_maps.DRIVER, tmp_path / "native", *WARNINGS)
    given = tmp_path / "input"
    for seed in range(4):
        given.write_bytes(drawn_maps.lines(seed, 1200))
        folder = tmp_path / str(seed)
        folder.mkdir()
        wanted = run([program], stdin=given.read_bytes(), cwd=folder)
        for words in ((), ("--check",)):
            ran = run_as_tenant(alone, image, "--input", str(given), *words)
            assert (ran.out, ran.status) == (wanted.out, 0), ran.errors
    given.write_text("o 0 0 66 0 0 0\no 1 0 0 0 0 0\nm 0 1 1 1 4096 0\nw 0 4095 1 7 0 0\n"
                     "w 0 4096 1 7 0 0\n")
    ran = run_as_tenant(alone, image, "--input", str(given))
    assert ran.output.splitlines() == ["o 0", "o 0", "m 0", "w 1", f"w {-errno.ENOSPC - 10}"]


ARGUMENTS = """
#include <stdio.h>
int main(int count, char **words)
{
    for (int i = 0; i < count; i++)
        printf("[%s]", words[i]);
    return count;
}
"""


@pytest.mark.parametrize("given, wanted", [
    ([], b"[tenant]"),
    (["--arguments=one 'two words' \"\" \\\\"], b"[tenant][one][two words][][\\]"),
])
def test_arguments_are_those_of_the_driver(
    alone: pathlib.Path, library: pathlib.Path, tmp_path: pathlib.Path, given: list[str],
    wanted: bytes,
) -> None:
    """`--arguments`, split as a shell does; without it there is the first word alone."""
    image, said = linked(library, tmp_path, ARGUMENTS, *given)
    ran = run_as_tenant(alone, image)
    assert (ran.out, ran.status, said) == (wanted, wanted.count(b"["), "")


DRAWN = """
#include <stdio.h>
#include <stdlib.h>
int main(void)
{
    for (int i = 0; i < 4; i++)
        printf("%u %u\\n", (unsigned)arc4random(), (unsigned)arc4random_uniform(1000));
    return 0;
}
"""


def test_random_numbers_are_those_of_each_run(
    alone: pathlib.Path, library: pathlib.Path, tmp_path: pathlib.Path
) -> None:
    """Whatever the seed of the tags, since a run is a function of its bytes."""
    image, _ = linked(library, tmp_path, DRAWN)
    ran = [run_as_tenant(alone, image, "--seed", str(seed)) for seed in (1, 2, 77)]
    assert {it.status for it in ran} == {0} and len({it.out for it in ran}) == 1
    assert len(set(ran[0].out.split())) == 8


DEEP = """
#include <string.h>
static int depth(int left)
{
    char room[4000];
    memset(room, left, sizeof room);
    __asm__ volatile("" : : "r"(room) : "memory");
    return left ? depth(left - 1) + room[0] - (char)left : 0;
}
int main(void) { return depth(20); }
"""


def test_a_stack_is_as_large_as_it_is_wanted(
    alone: pathlib.Path, library: pathlib.Path, tmp_path: pathlib.Path
) -> None:
    """80 KB do not fit into the host's stack, and do into one of the heap; what does not fit
    overflows into a page that is not mapped."""
    for own, depth, fits in [
        ((), 20, True), ((), 55, True), ((), 70, False), (("--stack=host",), 2, True),
        (("--stack=host",), 20, False), (("--stack=100000",), 20, True),
        (("--stack=100000",), 60, False), (("--stack=1000000",), 200, True),
    ]:
        image, _ = linked(library, tmp_path, DEEP.replace("20", str(depth)), *own)
        ran = run_as_tenant(alone, image)
        assert ran.status == (0 if fits else 129)
        assert fits or "\nCause: Stack Overflow, " in ran.errors
        assert fits or len(re.findall(r"^  #\d+ depth", ran.errors, re.MULTILINE)) > 2, ran.errors


def test_the_usual_stack_is_the_hosts_where_pages_are_few(
    alone: pathlib.Path, library: pathlib.Path, tmp_path: pathlib.Path
) -> None:
    """With fewer than 256 pages left the tenant has no heap call of its own; a stack that was asked
    for is needed."""
    image, _ = linked(library, tmp_path, DEEP.replace("20", "1"))
    for pages, calls in ((20, 0), (250, 0), (300, 1)):
        ran = run_as_tenant(alone, image, "--pages", str(pages), "--services")
        assert ran.status == 0 and ran.errors.count(" malloc(262144) = ") == calls
    ran = run_as_tenant(alone, linked(library, tmp_path, DEEP)[0], "--pages", "20")
    assert ran.status == 129 and "\nCause: Stack Overflow, " in ran.errors
    image, _ = linked(library, tmp_path, DEEP, "--stack=200000")
    assert run_as_tenant(alone, image, "--pages", "20").status == 133


def test_objects_are_compiled_and_linked_apart(
    alone: pathlib.Path, library: pathlib.Path, tmp_path: pathlib.Path
) -> None:
    """-c by each compiler, and one image of both objects."""
    need("clang", "ld.lld", "aarch64-linux-gnu-gcc")
    (tmp_path / "one.c").write_text("int two(int); int main(void) { return two(20); }\n")
    (tmp_path / "two.c").write_text("int two(int number) { return 2 * number; }\n")
    for name, compiler in (("one", "clang"), ("two", "gcc")):
        words = ("-c", "-o", f"{tmp_path}/{name}.o", f"{tmp_path}/{name}.c")
        assert tenant_cc(library, f"--compiler={compiler}", *words).status == 0
    image = tmp_path / "image.elf"
    ran = tenant_cc(library, "-o", str(image), f"{tmp_path}/one.o", f"{tmp_path}/two.o")
    assert ran.status == 0 and run_as_tenant(alone, image).status == 40


def test_words_that_the_host_lacks_are_named(
    alone: pathlib.Path, library: pathlib.Path, tmp_path: pathlib.Path
) -> None:
    """The function that has them, behind a link; and running it ends so."""
    text = 'int main(void) { __asm__ volatile(".inst 0x1e622820"); return 0; }\n'
    image, said = linked(library, tmp_path, text)
    assert said.startswith(f"tenant-cc: {image}: the host has no such instruction: ")
    assert "main" in said and len(said.splitlines()) == 1
    assert run_as_tenant(alone, image).status == 132


@pytest.mark.parametrize("words, said", [
    (["--compiler=icc", "a.c"], "--compiler is clang or gcc, not icc (--help)"),
    (["--stack=1048577", "a.c"], "--stack is at most 1048576, not 1048577 (--help)"),
    (["--stack=big", "a.c"], "--stack is at most 1048576, not big (--help)"),
])
def test_options_of_the_driver_that_are_refused(
    library: pathlib.Path, words: list[str], said: str
) -> None:
    """A line and status 2."""
    need("clang")
    is_refused(tenant_cc(library, *words), said)


def test_a_library_that_is_not_there(tmp_path: pathlib.Path) -> None:
    """The driver says what builds it."""
    need("clang")
    ran = tenant_cc(tmp_path, "a.c")
    script = EXAMPLES / "libc" / "build.py"
    line = f"tenant-cc: {tmp_path.resolve()}/lib/libc.a is not there: build it by {script}\n"
    assert (ran.status, ran.errors) == (2, line)


@pytest.mark.parametrize("compiler", ["clang", "gcc"])
def test_the_driver_is_asked_as_a_compiler_is(
    library: pathlib.Path, tmp_path: pathlib.Path, compiler: str
) -> None:
    """What configure scripts, CMake and meson ask; nothing is linked then."""
    need("clang", "ld.lld", "aarch64-linux-gnu-gcc")
    (tmp_path / "a.c").write_text("#include <stddef.h>\nint one(void) { return 1; }\n")
    for words, wanted in [
        (["-dumpmachine"], "^aarch64-"), (["-print-search-dirs"], "libraries: ="),
        (["-print-file-name=libgcc.a"], "libgcc.a"), (["--version"], compiler),
        (["-print-multi-os-directory"] if compiler == "gcc" else ["-print-multiarch"], "."),
        (["-E", "-dM", "-x", "c", "/dev/null"], "#define __aarch64__ 1"),
        (["-E", "-P", "a.c"], "int one"), (["-S", "-o", "-", "a.c"], "one:"),
        (["-M", "a.c"], "stddef.h"), (["-###", "a.c"], ""), (["-v"], ""),
        (["-fsyntax-only", "a.c"], ""), (["-Wl,--version"], "LLD|GNU ld"),
    ]:
        ran = tenant_cc(library, f"--compiler={compiler}", *words, cwd=tmp_path)
        assert ran.status == 0 and re.search(wanted, ran.output), (words, ran.output + ran.errors)
        assert [path.name for path in tmp_path.iterdir()] == ["a.c"]


@pytest.mark.parametrize("compiler", ["clang", "gcc"])
def test_the_driver_links_as_a_compiler_does(
    alone: pathlib.Path, library: pathlib.Path, tmp_path: pathlib.Path, compiler: str
) -> None:
    """The last -o counts; response files, -x, -v, -lm, -pie and dependency files; an output that is
    no image; and what goes wrong is told without a traceback."""
    need("clang", "ld.lld", "aarch64-linux-gnu-gcc")
    (tmp_path / "a.c").write_text("int main(void) { return N; }\n")
    (tmp_path / "a.text").write_text("int main(void) { return N; }\n")
    (tmp_path / "words").write_text('-DN="(2 + 3)" -o made.elf\n"a.c"')
    (tmp_path / "more").write_text("--stack=host @words")
    for line, status in [
        ("-DN=1 -o other.elf a.c -o made.elf", 1), ("-DN=2 -omade.elf a.c", 2),
        ("@words", 5), ("-O2 @more", 5), ("-DN=4 -o made.elf -x c a.text", 4),
        ("-v -DN=6 -o made.elf a.c", 6), ("-DN=7 -fPIE -pie a.c -lm -lpthread -o made.elf", 7),
        ("-DN=8 -MMD -MF deps -MT made -o made.elf a.c", 8),
    ]:
        ran = tenant_cc(library, f"--compiler={compiler}", *line.split(), cwd=tmp_path)
        assert ran.status == 0, (line, ran.errors)
        assert run_as_tenant(alone, tmp_path / "made.elf").status == status, line
        (tmp_path / "made.elf").unlink()
    assert not (tmp_path / "other.elf").exists()
    assert (tmp_path / "deps").read_text().startswith("made: a.c")
    for line, status in [
        ("-DN=1 -r -o part.o a.c", 0), ("-DN=1 -o /dev/null a.c", 0),
        ("-DN=1 -nostartfiles -o b.elf a.c -Wl,--defsym=_start=main", 0),
        ("-O2", 1), ("-o", 1), ("none.c", 1), ("-DN=1 -shared -o a.so a.c", 2), ("@none", 1),
    ]:
        ran = tenant_cc(library, f"--compiler={compiler}", *line.split(), cwd=tmp_path)
        assert (ran.status, "Traceback" in ran.errors) == (status, False), (line, ran.errors)
        assert bool(ran.errors) == bool(status), (line, ran.errors)


def test_the_driver_has_a_help(library: pathlib.Path) -> None:
    """Where it is asked for."""
    for word in ("--help", "-h"):
        ran = tenant_cc(library, word)
        assert ran.status == 0 and b"    tenant-cc [OPTION...] FILE...\n" in ran.out


def test_a_copy_of_the_library_serves_as_well(
    alone: pathlib.Path, library: pathlib.Path, tmp_path: pathlib.Path
) -> None:
    """TENANT_LIBRARY names it, as --library does."""
    need("clang", "ld.lld")
    folder = tmp_path / "library"
    for part in ("include", "lib"):
        shutil.copytree(library / part, folder / part)
    (tmp_path / "a.c").write_text('#include <stdio.h>\nint main(void) { puts("hi"); return 3; }\n')
    words = [str(EXAMPLES / "libc" / "tenant-cc"), "-O2", "-o", str(tmp_path / "a.elf"),
             str(tmp_path / "a.c")]
    assert run(words, extra={"TENANT_LIBRARY": str(folder)}).status == 0
    ran = run_as_tenant(alone, tmp_path / "a.elf")
    assert (ran.out, ran.status) == (b"hi\n", 3)
