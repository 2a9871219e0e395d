"""The C++ library of tenants and its compiler driver: programs with exceptions, run-time types,
streams and containers write and return as tenants what they write and return on this machine."""

import pathlib
import re
import shlex

import pytest

from tests.support.cache import package_source, tenant_cxx_library
from tests.support.pages import parts_of
from tests.support.places import EXAMPLES
from tests.support.programs import (
    comment_value, is_refused, native, run_as_tenant, tenant_cxx,
)
from tests.support.running import Ran, run, succeed
from tests.support.told import REFUSED_REQUEST, UNSEEN
from tests.support.tools import need

FOLDER = EXAMPLES / "libc" / "tests" / "cxx"
SOURCES = sorted(FOLDER.glob("*.cpp"))
# At both levels; each other one at -O2.
AT_BOTH = {"exceptions", "types", "one_thread", "uncaught", "kept_iterator"}
CASES = [(source, level) for source in SOURCES
         for level in (("-O0", "-O2") if source.stem in AT_BOTH else ("-O2",))]
STANDARD = "-std=c++17"


@pytest.fixture(scope="session")
def library() -> pathlib.Path:
    """The libraries, which are built once."""
    need("clang", "ld.lld", "c++")
    return tenant_cxx_library()


def titled(value: object) -> str:
    """The title of a case."""
    return value.stem if isinstance(value, pathlib.Path) else str(value)


def flags_of(source: pathlib.Path) -> list[str]:
    """The standard of a source."""
    return shlex.split(comment_value(source, "flags") or STANDARD)


def compiled(
    library: pathlib.Path, source: pathlib.Path, level: str, image: pathlib.Path, *flags: str
) -> pathlib.Path:
    """The tenant of a source. Nothing may be said of it."""
    words = [level, "-g", "-Wall", "-Wextra", *flags_of(source), *flags]
    ran = tenant_cxx(library, *words, "-o", str(image), str(source))
    assert (ran.status, ran.output, ran.errors) == (0, "", "")
    return image


def expect_as_told(source: pathlib.Path, ran: Ran) -> None:
    """A tenant ended as the comment of its source says."""
    assert ran.status == int(comment_value(source, "ends") or 0), ran.errors
    assert (comment_value(source, "tells") or "") in ran.errors


@pytest.mark.parametrize("source, level", CASES, ids=titled)
def test_a_program_does_what_its_comment_says_or_what_it_does_natively(
    alone: pathlib.Path, library: pathlib.Path, tmp_path: pathlib.Path, source: pathlib.Path,
    level: str,
) -> None:
    """Output and exit status of the programs of examples/libc/tests/cxx."""
    image = compiled(library, source, level, tmp_path / "image.elf")
    data = source.with_suffix(".txt")
    given = ("--input", str(data)) if data.exists() else ()
    ran = run_as_tenant(alone, image, *given)
    if comment_value(source, "ends") is not None:
        expect_as_told(source, ran)
        return
    program = native(source, tmp_path / "native", "-O1", "-w", *flags_of(source))
    wanted = run([program], stdin=data.read_bytes() if given else b"")
    assert (ran.out, ran.status) == (wanted.out, wanted.status), ran.errors
    said = ran.errors.replace(UNSEEN + "\n", "")
    last = REFUSED_REQUEST.sub("", said)
    assert last in ("", f"mte_run: exited with {wanted.status}\n")
    exact = run_as_tenant(alone, image, "--exact", *given)
    assert (exact.out, exact.status, exact.errors) == (wanted.out, wanted.status, said)


def told_calls(text: str, title: str) -> list[str]:
    """The calls of a report behind a line that begins so, without those that were inlined."""
    lines = text[text.index(f"\n  {title} "):].splitlines()[2:]
    calls = []
    for line in lines:
        found = re.match(r"    #\d+ (.*)", line)
        if found is None:
            break
        if "(inlined)" not in line:
            calls.append(found[1])
    return calls


def test_the_page_shows_who_grew_a_vector(
    alone: pathlib.Path, library: pathlib.Path, tmp_path: pathlib.Path
) -> None:
    """The lines that docs/TENANTS.md has of a report are lines of it, in that order."""
    shown = [part.lines for part in parts_of("docs/TENANTS.md") if "kept_iterator" in part.text]
    assert len(shown) == 1 and len(shown[0]) == 4
    image = compiled(library, FOLDER / "kept_iterator.cpp", "-O1", tmp_path / "image.elf")
    ran = run_as_tenant(alone, image)
    freed = ran.errors[ran.errors.index("\n  freed by"):]
    assert "\n".join(f"    {line.strip()}" for line in shown[0]) in freed


@pytest.mark.parametrize("level", ["-O0", "-O2"])
def test_who_grew_a_vector_is_told_by_name_and_line(
    alone: pathlib.Path, library: pathlib.Path, tmp_path: pathlib.Path, level: str
) -> None:
    """The read through an iterator that was kept, and who freed what it points to."""
    source = FOLDER / "kept_iterator.cpp"
    ran = run_as_tenant(alone, compiled(library, source, level, tmp_path / "image.elf"))
    lines = source.read_text(encoding="utf-8").splitlines()
    grown, read = (1 + next(at for at, line in enumerate(lines) if text in line)
                   for text in ("listed.push_back(event)", "sum += *at"))
    assert "Cause: [MTE]: Use After Free, 0 bytes into a 32-byte allocation" in ran.errors
    assert re.search(rf"^  #\d+ sum\(.* at kept_iterator.cpp:{read}$", ran.errors, re.M)
    freed = told_calls(ran.errors, "freed by")
    adds = [call for call in freed if call.startswith("Events::add(int)+")]
    assert len(adds) == 1 and adds[0].endswith(f" at kept_iterator.cpp:{grown}"), freed
    assert re.search(r"^main\+\S+ at kept_iterator.cpp:\d+$", "\n".join(freed), re.M)


def test_an_exception_that_nobody_catches_says_which_and_where(
    alone: pathlib.Path, library: pathlib.Path, tmp_path: pathlib.Path
) -> None:
    """Its type and text are written, and the calls of the breakpoint have who threw it."""
    source = FOLDER / "uncaught.cpp"
    ran = run_as_tenant(alone, compiled(library, source, "-O1", tmp_path / "image.elf"))
    assert ran.status == 133 and ran.errors.startswith("mte_run: breakpoint 6 at ")
    assert ran.output == ("libc++abi: terminating with uncaught exception of type "
                          "std::runtime_error: nobody catches: tenant\n")
    assert re.search(r"^  #\d+ __cxa_throw\+.*\n  #\d+ lower\(.* at uncaught.cpp:9\n"
                     r"  #\d+ main\S+ at uncaught.cpp:15$", ran.errors, re.M), ran.errors


def linked(library: pathlib.Path, folder: pathlib.Path, text: str, *words: str) -> pathlib.Path:
    """The image of a source of C++."""
    source, image = folder / "source.cpp", folder / "image.elf"
    source.write_text(text, encoding="utf-8")
    ran = tenant_cxx(library, *words, "-O1", "-o", str(image), str(source))
    assert (ran.status, ran.errors) == (0, "")
    return image


THREAD = """
#include <future>
#include <iostream>
#include <system_error>
#include <thread>
int main()
{
    try {
        std::thread([] {}).join();
    } catch (const std::system_error &error) {
        std::cout << (error.code() == std::errc::resource_unavailable_try_again);
    }
    std::cout << std::async([] { return 2; }).get() << std::endl;
}
"""


def test_a_thread_that_is_wanted_is_refused(
    alone: pathlib.Path, library: pathlib.Path, tmp_path: pathlib.Path
) -> None:
    """std::thread throws, and std::async calls its function when its result is asked for."""
    ran = run_as_tenant(alone, linked(library, tmp_path, THREAD))
    assert (ran.out, ran.status) == (b"12\n", 0)


LARGE = """
#include <new>
#include <vector>
int main(int count, char **)
{
    try {
        std::vector<char> room(1048575 + count);
        std::vector<char> more(1048576 + count);
        return more[count];
    } catch (const std::bad_alloc &) {
        return 5;
    }
}
"""


def test_a_chunk_that_is_too_large_is_a_bad_alloc(
    alone: pathlib.Path, library: pathlib.Path, tmp_path: pathlib.Path
) -> None:
    """A chunk has at most 1,048,576 bytes, and `new` says so in its way."""
    assert run_as_tenant(alone, linked(library, tmp_path, LARGE)).status == 5


LIMITS = """
#include <chrono>
#include <filesystem>
#include <fstream>
#include <iostream>
#include <random>
int main()
{
    std::ifstream in("/etc/passwd");
    std::cout << in.is_open() << std::filesystem::exists("/etc/passwd")
              << std::chrono::steady_clock::now().time_since_epoch().count();
    try {
        std::cout << std::random_device()();
    } catch (const std::exception &) {
        std::cout << " none\\n";
    }
}
"""


def test_what_a_tenant_has_not_is_told_as_the_library_does(
    alone: pathlib.Path, library: pathlib.Path, tmp_path: pathlib.Path
) -> None:
    """Files, clocks and devices."""
    ran = run_as_tenant(alone, linked(library, tmp_path, LIMITS, STANDARD))
    assert (ran.out, ran.status) == (b"000 none\n", 0)


THROWN_THROUGH_C = """
#include <cstdlib>
static int compare(const void *, const void *) { throw 5; }
int main()
{
    int numbers[] = {2, 1};
    try {
        std::qsort(numbers, 2, sizeof *numbers, compare);
    } catch (int) {
    }
}
"""


def test_an_exception_does_not_leave_a_function_of_c(
    alone: pathlib.Path, library: pathlib.Path, tmp_path: pathlib.Path
) -> None:
    """It ends as one that nobody catches."""
    ran = run_as_tenant(alone, linked(library, tmp_path, THROWN_THROUGH_C))
    text = "libc++abi: terminating with uncaught exception of type int\n"
    assert (ran.output, ran.status) == (text, 133)


def test_c_and_cxx_are_linked_together(
    alone: pathlib.Path, library: pathlib.Path, tmp_path: pathlib.Path
) -> None:
    """A file of C is C for tenant-c++, in one command with one of C++."""
    (tmp_path / "part.c").write_text("int part(int class) { return class + 1; }\n")
    text = 'extern "C" int part(int); int main() { return part(20); }\n'
    image = linked(library, tmp_path, text, str(tmp_path / "part.c"))
    assert run_as_tenant(alone, image).status == 21


def test_the_other_compiler_and_too_large_a_stack_are_refused(library: pathlib.Path) -> None:
    """A line and status 2."""
    need("aarch64-linux-gnu-gcc")
    is_refused(tenant_cxx(library, "--compiler=gcc", "a.cpp"),
               "the C++ library is clang's alone (--help)")
    is_refused(tenant_cxx(library, "--stack=1048577", "a.cpp"),
               "--stack is at most 1048576, not 1048577 (--help)")


def test_a_library_that_is_not_there(library: pathlib.Path, tmp_path: pathlib.Path) -> None:
    """The driver says what builds it, where the C library is there alone."""
    (tmp_path / "lib").mkdir()
    (tmp_path / "lib" / "libc.a").symlink_to(library / "lib" / "libc.a")
    ran = tenant_cxx(tmp_path, "a.cpp")
    script = EXAMPLES / "libc" / "build.py"
    line = f"{tmp_path.resolve()}/lib/libc++.a is not there: build it by {script} --c++\n"
    assert (ran.status, ran.errors) == (2, f"tenant-cc: {line}")


# Tests of double-conversion, which its own program runs: those that take a second as a tenant.
CONVERSIONS = ("test-conversions", "test-ieee", "test-diy-fp", "test-bignum", "test-strtod")


def test_the_tests_of_a_package_pass_as_they_do_natively(
    alone: pathlib.Path, library: pathlib.Path, tmp_path: pathlib.Path
) -> None:
    """double-conversion, unchanged: each of its checks that failed would end it by abort."""
    package = package_source("double-conversion")
    own = [package / "test" / "cctest" / f"{name}.cc" for name in ("cctest", *CONVERSIONS)]
    files = [str(file) for file in (*sorted((package / "double-conversion").glob("*.cc")), *own)]
    words = ["-std=c++17", "-w", "-O1", f"-I{package}"]
    image, program = tmp_path / "image.elf", tmp_path / "native"
    given = f"--arguments={' '.join(CONVERSIONS)}"
    ran = tenant_cxx(library, given, *words, "-o", str(image), *files)
    assert (ran.status, ran.errors) == (0, "")
    succeed(["c++", *words, "-o", program, *files])
    wanted = run([program, *CONVERSIONS])
    assert wanted.status == 0 and re.fullmatch(r"Ran [1-9][0-9] tests\.\n", wanted.output)
    ran = run_as_tenant(alone, image)
    assert (ran.out, ran.status) == (wanted.out, wanted.status), ran.errors
