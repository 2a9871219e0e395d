"""The user's frame: where SARIF, the page and JSON say that something happened is a line of the
program, whatever library functions it happened in."""

import json
import pathlib
import random
import re
import shutil
import string
from collections.abc import Sequence
from typing import Any

import pytest

from tests.support import sarif
from tests.support.cache import tenant_cxx_library, tenant_library
from tests.support.heap_pages import read_page
from tests.support.places import EXAMPLES
from tests.support.programs import compiled
from tests.support.running import run, succeed
from tests.support.rust_tenants import build_tenants
from tests.support.samples import FLAGS
from tests.support.tools import need
from tests.test_checks import ARITHMETIC, BUGS, BUILDS, PLACES, UNDEFINED, image

BUGS_OF: dict[str, list[int]] = {
    "pointer_bugs.c": sorted(BUGS), "undefined_bugs.c": sorted(UNDEFINED),
    "place_bugs.c": sorted(PLACES), "arithmetic_bugs.c": sorted(ARITHMETIC),
}

# Statements that misuse a chunk `p` of 24 bytes within a function of the library, or one that was
# freed: a chunk's own bytes are 24, so each goes beyond them.
IN_C = (
    "memset(p, 1, 60);", "memcpy(p, text, 60);", "memmove(p, text, 60);", "strcpy(p, text);",
    "strcat(p, text);", "sprintf(p, \"%s\", text);", "snprintf(p, 60, \"%s\", text);",
    "found = memchr(p, 1, 60) != 0;", "found = memcmp(p, zeros, 60);",
    "found = sscanf(text, \"%s\", p);", "fwrite(p, 1, 60, stdout);",
    "found = strlen(memset(p, 1, 24));", "strncpy(p, text, 60);",
    "found = atoi(memset(p, 49, 24));",
)
IN_CXX = (
    "std::string(p, 60).swap(kept);", "std::copy(text, text + 60, p);", "std::fill(p, p + 60, 1);",
    "std::sort(p, p + 60);", "std::reverse(p, p + 60);", "kept.assign(p, 60);",
    "found = int(std::count(p, p + 60, 1));", "std::memset(p, 1, 60);",
)
HEAD = {
    ".c": "#include <stdio.h>\n#include <stdlib.h>\n#include <string.h>\n",
    ".cpp": "#include <algorithm>\n#include <cstdio>\n#include <cstdlib>\n#include <cstring>\n"
            "#include <string>\n",
}
MORE = {".c": "", ".cpp": "static std::string kept;\n"}


def written(suffix: str, statements: Sequence[str]) -> str:
    """A program that does the statement whose number it reads, in a function of its own."""
    lines = [*(HEAD[suffix] + MORE[suffix]).splitlines(), "static int found;",
             f'static char zeros[80], text[] = "{"t" * 70}";']
    for number, statement in enumerate(statements):
        lines += [f"static void wrong{number}(char *p)", "{", f"    {statement} // {number}", "}"]
    calls = ", ".join(f"wrong{number}" for number in range(len(statements)))
    lines += [f"static void (*const wrong[])(char *) = {{ {calls} }};",
              "static char *chunk(void)", "{", "    return (char *)calloc(1, 24); // made", "}",
              "int main(void)", "{", "    char *p = chunk();", "    wrong[getchar() - '0'](p);",
              "    return found + zeros[0] + text[0];", "}"]
    return "\n".join(lines) + "\n"


def line_of(source: pathlib.Path, mark: str) -> str:
    """The file and the line that end with a mark."""
    lines = source.read_text(encoding="utf-8").splitlines()
    number = next(at for at, line in enumerate(lines, 1) if line.endswith(f"// {mark}"))
    return f"{source.name}:{number}"


def place_of(location: Any) -> str:
    """The source line of a location in SARIF."""
    physical = location["physicalLocation"]
    name = pathlib.PurePath(physical["artifactLocation"]["uri"]).name
    return f"{name}:{physical['region']['startLine']}"


def frame_of(led: Any) -> str:
    """The source line of the user's frame in JSON."""
    frame = led["stack"][led["user"]]
    return f"{frame['file']}:{frame['line']}"


def told(alone: pathlib.Path, path: pathlib.Path, *words: str) -> tuple[Any, Any]:
    """The result of SARIF, and the data of the page, which have those of JSON."""
    log, page = path.parent / "told.sarif", path.parent / "told.html"
    ran = run([alone, "--sarif", log, "--html", page, *words, path])
    (result,) = sarif.read(log.read_text(encoding="ascii"))["results"]
    assert ran.status >= 128, ran.errors
    return result, read_page(page).data


def places_of(result: Any) -> list[str]:
    """The lines that SARIF names: those of the result, then those of the flow."""
    (flow,) = result["codeFlows"][0]["threadFlows"]
    steps = [place_of(step["location"]) for step in flow["locations"]]
    assert [place_of(one) for one in result["locations"]] == steps[-1:]
    return steps


@pytest.mark.parametrize("suffix, level", [
    (".c", "-O0"), (".c", "-O2"), (".cpp", "-O0"), (".cpp", "-O2")])
def test_what_happens_in_a_library_is_at_the_programs_line(
    alone: pathlib.Path, tmp_path: pathlib.Path, suffix: str, level: str
) -> None:
    """Drawn statements, each of which goes beyond its chunk within a function of a library."""
    need("clang", "ld.lld")
    drawn = random.Random(f"user {suffix} {level}")
    statements = drawn.sample(IN_C if suffix == ".c" else IN_CXX, 6)
    source, path = tmp_path / f"drawn{suffix}", tmp_path / "drawn.elf"
    source.write_text(written(suffix, statements), encoding="utf-8")
    library = tenant_library() if suffix == ".c" else tenant_cxx_library()
    words = ("-w", "-fno-optimize-sibling-calls", *(["--c++"] if suffix == ".cpp" else []))
    compiled(library, source, "clang", level, path, words)
    for number, statement in enumerate(statements):
        given = tmp_path / f"input{number}"
        given.write_text(str(number), encoding="utf-8")
        result, data = told(alone, path, "--check", "--input", str(given))
        at, made = line_of(source, str(number)), line_of(source, "made")
        assert places_of(result) == [made, at], statement
        assert frame_of(data["run"]) == at, statement
        assert [frame_of(it["allocated"]) for it in data["run"]["chunks"]] == [made], statement
        chunk = data["run"]["chunks"][0]["allocated"]["number"]
        (where,) = [it["where"] for it in data["calls"] if it["number"] == chunk]
        assert f" at {made}" in where, (statement, where)


@pytest.mark.parametrize("build", ["clang-O0", "gcc-O2"])
def test_planted_bugs_are_at_lines_of_their_sources(
    alone: pathlib.Path, tmp_path: pathlib.Path, build: str
) -> None:
    """Drawn bugs of each source: the end and the heap calls of the cause, also those of functions
    of tenant.h that were inlined."""
    bugs = [(source, bug) for source, numbers in BUGS_OF.items() for bug in numbers]
    for source, bug in random.Random(f"user {build}").sample(bugs, 12):
        path, log = image(tmp_path, build, source, f"BUG={bug}"), tmp_path / "told.sarif"
        given = tmp_path / "input"
        given.write_bytes(b"y" * 100)
        kinds = "--check=all,places,arithmetic"
        ran = run([alone, kinds, "--input", given, "--sarif", log, path])
        results = sarif.read(log.read_text(encoding="ascii"))["results"]
        if build == "clang-O0":
            assert ran.status == 137 and len(results) == 1, (source, bug, ran.errors)
        for place in (place for result in results for place in places_of(result)):
            assert place.partition(":")[0] == source, (source, bug, place)


def test_a_tenant_in_rust_is_told_at_its_own_lines(
    alone: pathlib.Path, tmp_path: pathlib.Path
) -> None:
    """Allocated, grown and used by Rust's library, which is inlined around it."""
    path = build_tenants(tmp_path)["use_after_free"]
    result, data = told(alone, path)
    assert {place.partition(":")[0] for place in places_of(result)} == {"use_after_free.rs"}
    assert frame_of(data["run"]).startswith("use_after_free.rs:")


def test_a_picture_names_the_programs_line(alone: pathlib.Path, tmp_path: pathlib.Path) -> None:
    """Who made a chunk that the C library returned."""
    need("clang", "ld.lld")
    source, path = tmp_path / "made.c", tmp_path / "made.elf"
    source.write_text(written(".c", IN_C[:1]), encoding="utf-8")
    given, map_ = tmp_path / "input", tmp_path / "map.svg"
    given.write_text("0", encoding="utf-8")
    compiled(tenant_library(), source, "clang", "-O0", path, ["-w"])
    run([alone, "--check", "--map", map_, "--input", given, path])
    titles = re.findall(r"<title>([^<]*, call \d+, calloc[^<]*)</title>", map_.read_text())
    assert titles and all(f" at {line_of(source, 'made')}" in title for title in titles), titles


# What paths of a library's sources begin with, and directories and files that they have anywhere.
BEGINNINGS = ("musl", "compiler-rt", "llvm", "tenant/src", "tenant/src_cxx", "tenant/arch",
              "tenant/include", "tenant/out", "/rustc")
PARTS = ("include_cxx", "include/c++", "include/bits", "ctype.h", "library/core/src",
         "library/alloc/src", "library/std/src", "tenant.h", "tenant.rs")


def paths_near_a_library() -> list[tuple[str, bool]]:
    """Paths of sources, and whether they are a library's: with its name, and with a name of which
    one letter is another one, or missing, or added."""
    source, found = random.Random("paths"), list[tuple[str, bool]]()
    for name in (*BEGINNINGS, *PARTS):
        form = "{}/a.c" if name in BEGINNINGS else "own/{}" if "." in name else "own/{}/a.c"
        letters = [source.choice(string.ascii_letters.replace(it, "")) for it in name]
        near = [name[:at] + letter + name[at + 1:] for at, letter in enumerate(letters)]
        near += [name[:-1], f"{name}s", f"s{name}"]
        found += [(form.format(name), True), *((form.format(it), False) for it in near)]
    return found


def image_of_paths(folder: pathlib.Path, paths: list[str]) -> pathlib.Path:
    """A program that reads a number, and writes past a chunk in the source of that number."""
    lines = ['#include "tenant.h"']
    for at, path in enumerate(paths):
        lines += [f'#line 1 "{path}"', f"static void use{at}(volatile char *p) {{ *p = 1; }}"]
    uses = ", ".join(f"use{at}" for at in range(len(paths)))
    lines += ['#line 1 "main.c"', f"static void (*const uses[])(volatile char *) = {{ {uses} }};",
              "int main(void) { unsigned char given[2]; tenant_read(given, 2);"
              " uses[given[0] | given[1] << 8]((char *)tenant_malloc(16) + 16); return 0; }"]
    (folder / "paths.c").write_text("\n".join(lines) + "\n", encoding="utf-8")
    for name in ("start.c", "tenant.h"):
        shutil.copy(EXAMPLES / "c" / name, folder)
    succeed([*BUILDS["clang-O0"], *FLAGS, "-fdebug-compilation-dir=.", "-o", "paths.elf",
             "./start.c", "./paths.c"], cwd=folder)
    return folder / "paths.elf"


def test_paths_near_those_of_a_library_are_the_programs(
    alone: pathlib.Path, tmp_path: pathlib.Path
) -> None:
    """The user's frame is the innermost one, but where its path is a library's."""
    need("clang", "ld.lld")
    paths = paths_near_a_library()
    image_of_paths(tmp_path, [path for path, _ in paths])
    for at, (path, is_of_library) in enumerate(paths):
        (tmp_path / "input").write_bytes(at.to_bytes(2, "little"))
        run([alone, "--json", "told.json", "--input", "input", "paths.elf"], cwd=tmp_path)
        told = json.loads((tmp_path / "told.json").read_text(encoding="utf-8"))
        frame = told["stack"][told["user"]]
        assert frame["function"] == ("main" if is_of_library else f"use{at}"), (path, frame)
