"""The pages: their commands are run, their samples are what programs print, their links lead
somewhere."""

import json
import os
import pathlib
import re
import shlex
import shutil
import sys
from collections.abc import Callable, Iterator
from dataclasses import dataclass

import pytest

from tests.support import installed, page_links
from tests.support.cache import tenant_cxx_library, tenant_library
from tests.support.checkout import copy_files, link_built
from tests.support.host_sessions import HI_REPORT, admission
from tests.support.page_commands import (
    CHANGED, NOT_RUN, Copy, Result, copy_with_programs, is_form, why_not,
)
from tests.support.page_links import prose
from tests.support.pages import (
    Part, all_parts, folder_of, is_for_users, named_code, pages, parts_of, read_page, sample_of,
)
from tests.support.library import rust_program, static_library
from tests.support.places import EXAMPLES, ROOT, TESTS
from tests.support.running import Word, run, succeed
from tests.support.samples import (
    assert_in_order, assert_lines_in_order, assert_sample, tenant,
)
from tests.support.tools import need

COPIED = ("crates/mte_host/", "crates/mte_run/", "crates/tombolopan_c/", "crates.txt", "examples/",
          "include/", "isa/", "tools/", "VERSION")
WORDS = "pear\napple\nplum\n"


def name_of(value: object) -> str:
    """The name of a case: where it stands, or what it is."""
    return str(getattr(value, "place", value))


@dataclass(frozen=True)
class Built:
    """The built programs, and a folder that the workers share."""

    host: pathlib.Path
    alone: pathlib.Path
    shared: pathlib.Path
    folder: pathlib.Path

    def tenant(self, name: str, compiler: str = "clang") -> pathlib.Path:
        """The image of a tenant of the examples."""
        need(*{"clang": ("clang", "ld.lld"), "gcc": ("aarch64-linux-gnu-gcc",)}[compiler])
        return tenant(self.shared, ROOT / name, compiler)

    def told(self, *words: str) -> str:
        """What mte_run writes on standard error of a tenant that does not end by itself."""
        ran = run([self.alone, *words], cwd=self.folder)
        assert ran.status >= 129 or ran.status == 3, ran.errors
        return ran.errors


@pytest.fixture
def built(host: pathlib.Path, alone: pathlib.Path, shared: pathlib.Path,
          tmp_path: pathlib.Path) -> Built:
    """What samples and commands need."""
    return Built(host, alone, shared, tmp_path)


# Samples. Each has a page, the line with which it begins, who prints it, and the beginning of the
# line behind it; without one it is all to the end.

FREED = "examples/c/use_after_free.c"
OVERFLOW = "examples/c/heap_overflow.c"
IN_BLOCK, INSTRUCTION, LAST = "0x0000000012000010 is in", "instruction at", "mte_run: ended by"


def reported_of_freed(built: Built) -> str:
    """The host's report on a tenant that uses a freed chunk."""
    (built.folder / "script").write_text(f"{admission(1, pages=8)}\nslice 1 1000\n")
    words: list[Word] = [built.host, "--frames", "17", "script", built.tenant(FREED)]
    return succeed(words, cwd=built.folder).output


def told_of_faulty_line(built: Built) -> str:
    """What is said of a script whose third line has a seed of one digit."""
    (built.folder / "script").write_text("# a comment\n\nadmit 1 image 1 input 0 seed 1 frames 5\n")
    return built.told("--script", "script", "1", "--frames", "11", str(EXAMPLES / "hi.elf"))


def told_of_freed_lines(built: Built) -> str:
    """What is said of the first program over the C library, which frees its lines too soon."""
    source = named_code("docs/TENANTS.md", "lines.c")
    last_loop = source.rindex("    for (")
    source = f"{source[:last_loop]}    free(lines);\n{source[last_loop:]}"
    (built.folder / "lines.c").write_text(source)
    (built.folder / "words.txt").write_text(WORDS)
    library = tenant_library()
    succeed([EXAMPLES / "libc" / "tenant-cc", f"--library={library}", "-O2", "-g", "-o",
             "lines.elf", "lines.c"], cwd=built.folder)
    return built.told("--input", "words.txt", "lines.elf")


@dataclass(frozen=True)
class Sample:
    """A sample of a page, and who prints it."""

    page: str
    beginning: str
    printed: Callable[[Built], str]
    until: str = ""

    @property
    def place(self) -> str:
        """Where it stands, by how it begins."""
        return f"{self.page}: {self.beginning.strip()}"


SAMPLES = [
    Sample("README.md", "tenant 1\n",
           lambda it: succeed([it.host, "--frames", "11", EXAMPLES / "hi.script",
                               EXAMPLES / "hi.elf"]).output),
    Sample("README.md", "mte_run: fault TagCheck",
           lambda it: it.told(str(it.tenant(FREED))), IN_BLOCK),
    Sample("docs/REPORT.md", "tenant 1\n", reported_of_freed),
    Sample("docs/MTE_RUN.md", "mte_run: statistics",
           lambda it: it.told("--statistics", str(it.tenant(FREED))), LAST),
    Sample("docs/MTE_RUN.md", "mte_run: script line 3: Syntax", told_of_faulty_line),
    Sample("docs/REPORT.md", "mte_run: fault TagCheck: a write",
           lambda it: it.told(str(it.tenant(OVERFLOW))), INSTRUCTION),
    Sample("docs/REPORT.md", "0x12000000  class",
           lambda it: it.told("--map", "text", str(it.tenant(OVERFLOW))), LAST),
    Sample("docs/TENANTS.md", "mte_run: fault TagCheck: a read", told_of_freed_lines, IN_BLOCK),
]


@pytest.mark.parametrize("sample", SAMPLES, ids=name_of)
def test_samples(built: Built, sample: Sample) -> None:
    """What a page shows of a program's text is that text, from its first line to its last."""
    part = sample_of(sample.page, sample.beginning)
    assert_sample(part, sample.printed(built), sample.until)


def test_all_samples() -> None:
    """No page has a sample that is not compared."""
    compared = {sample_of(sample.page, sample.beginning).place for sample in SAMPLES}
    assert {part.place for part in all_parts() if part.is_sample} == compared


@pytest.mark.parametrize("source", [FREED, OVERFLOW])
def test_pictures(built: Built, source: str) -> None:
    """The pictures of docs/REPORT.md are what the program draws."""
    picture = ROOT / "docs" / "pictures" / f"{pathlib.Path(source).stem}.svg"
    image = built.tenant(source)
    ran = run([built.alone, "--map", "-", image.name], cwd=image.parent)
    if os.environ.get("WRITE_EXPECTED") == "1":
        picture.write_text(ran.output, encoding="utf-8")
    assert ran.output == picture.read_text(encoding="utf-8")


def test_seeds_of_the_page() -> None:
    """The seeds that docs/MTE_RUN.md lists are those of the program, in their order."""
    shown = [word for part in parts_of("docs/MTE_RUN.md") for word in part.text.split()
             if part.section == "Seeds"]
    source = (ROOT / "crates" / "tenant_run" / "src" / "seeds.rt").read_text(encoding="utf-8")
    found = re.findall(r"0x([0-9a-f_]{19})", source)
    assert len(shown) == 16 and shown == [word.replace("_", "") for word in found][:16]


# What programs read.

def test_script_of_the_page(built: Built) -> None:
    """The script that docs/HOST.md shows is one that the host takes."""
    found = [part for part in parts_of("docs/HOST.md")
             if all(re.match("#|admit |slice |stop ", line) for line in part.lines)]
    assert len(found) == 1 and len(found[0].lines) == 4
    (built.folder / "script").write_text(found[0].text)
    ran = run([built.host, "--frames", "11", "script", EXAMPLES / "hi.elf"], cwd=built.folder)
    assert (ran.status, ran.output, ran.errors) == (0, HI_REPORT, "")


def test_settings_of_the_page() -> None:
    """The settings that docs/DEBUGGING.md shows are JSON."""
    found = [part for part in parts_of("docs/DEBUGGING.md") if part.lines[0] == "{"]
    assert len(found) == 1
    assert json.loads(found[0].text)["MIMode"] == "gdb"


# Dialogs with GDB.

GDB = ("gdb-multiarch", "-nx", "-batch", "-iex", "set sysroot", "-iex", "set pagination off")
DIALOGS = [part for part in all_parts() if part.is_dialog]


def source_of(part: Part) -> str:
    """The tenant of a dialog: the first one that its section names."""
    section = read_page(part.page).split(f"# {part.section}\n")[1]
    found = re.search(r"examples/\w+/\w+\.c\b", section)
    assert found, f"{part.place} has no tenant"
    return found[0]


@pytest.mark.parametrize("part", DIALOGS, ids=name_of)
def test_dialogs(built: Built, part: Part) -> None:
    """GDB prints what a page has between its commands, in that order; it may print more."""
    need("gdb-multiarch")
    image = built.tenant(source_of(part), "gcc")
    commands = [line[6:] for line in part.lines if line.startswith("(gdb) ")]
    wanted = [line.strip() for line in part.lines if not line.startswith("(gdb) ")]
    words = [*GDB, "-iex", f"file {image.name}",
             "-ex", f"target remote | {shlex.quote(str(built.alone))} --gdb {image.name}"]
    for command in commands:
        words += ["-ex", command]
    ran = run(["bash", "-c", 'exec "$@" 2>&1', "bash", *words], cwd=image.parent)
    assert_in_order(part.place, [line for line in wanted if line != "..."], ran.output)


# Commands.

BEFORE_PROGRAM = r"^(?:\w+=[\w./-]+ )*(?:\w+=\$\()?"
TOOLS_OF_COMMANDS = ("clang", "gdb-multiarch", "make", "parallel", "pkg-config", "python3", "cc")
COMMAND_PARTS = [part for part in all_parts() if part.has_commands]
RUN_PARTS = [part for part in COMMAND_PARTS
             if any(not why_not(it) and not is_form(it) for it in part.commands())]


def test_tables_are_used() -> None:
    """Each entry of what is not run, and of what is changed, is for a command that is there."""
    commands = [command for part in COMMAND_PARTS for command in part.commands()]
    for pattern in [*NOT_RUN, *CHANGED]:
        assert any(re.search(pattern, it) for it in commands), f"no page has {pattern}"


@pytest.mark.parametrize("part", COMMAND_PARTS, ids=name_of)
def test_scripts_of_commands(part: Part) -> None:
    """A script that a page runs is there, also where the command is not run here."""
    for command in part.commands():
        program = re.split(r"[ ;)]", re.sub(BEFORE_PROGRAM, "", command))[0]
        if "/" in program and not re.search(r"(^|/)out/", program):
            assert (ROOT / folder_of(part.page) / program).is_file(), f"{part.place}: {command}"


# Tools that Debian has by other names, each with its packages; and what is always there, or ours.
PACKAGES = {"cc": "gcc g++ clang", "c++": "g++ clang", "pip": "python3-pip python3-venv",
            "aarch64-linux-gnu-gcc": "gcc-aarch64-linux-gnu", "afl-fuzz": "afl++",
            "afl-tmin": "afl++"}
ALWAYS = {"apt-get", "cd", "dirname", "done", "env", "for", "head", "ln", "mte_run", "perl",
          "python3", "rt"}


def tools_of(command: str) -> Iterator[str]:
    """What a command starts by a name that is looked for on PATH."""
    lexer = shlex.shlex(command, posix=True, punctuation_chars=True)
    lexer.whitespace_split = is_first = True
    for word in lexer:
        if word.startswith("$("):
            yield from tools_of(word[2:].rstrip(")"))
        if set(word) <= set("();|&") or word == "do":
            is_first = True
        elif is_first and "=" not in word:
            yield from [word] * ("/" not in word)
            is_first = False


@pytest.mark.parametrize("page", [it for it in pages() if is_for_users(it)])
def test_tools_of_commands(page: str) -> None:
    """A tool that a page's command starts is in a Debian package that the suite needs, and whose
    name is the tool's or on the page."""
    needed = (TESTS / "packages.txt").read_text(encoding="utf-8")
    commands = [command for part in parts_of(page) if part.is_for_shell
                for command in part.commands() if not command.startswith("(gdb) ")]
    for tool in {it for command in commands for it in tools_of(command)} - ALWAYS:
        names = PACKAGES.get(tool, tool).split()
        forms = [rf"(?<![\w+-]){re.escape(it)}(?![\w+-])" for it in names]
        assert any(re.search(f"^{form}", needed, re.M) for form in forms), tool
        assert tool in names or any(re.search(it, read_page(page)) for it in forms), tool


def test_tools_are_found() -> None:
    """Behind what a shell reads in front of them, and within its substitutions."""
    command = 'A=1 B=$(c "$(d | e)"); for i in 1 2; do F=$i g -x "h; i" | j; done && k/l && ./m < n'
    assert [*tools_of(command)] == ["c", "d", "e", "for", "g", "j", "done"]


def prepare(copy: Copy, part: Part, built: Built) -> None:
    """Puts what the reader of a page has into the folder where its commands are run."""
    at = copy.folder / folder_of(part.page)
    lines = named_code("docs/TENANTS.md", "lines.c")
    texts = {"mine": named_code("examples/c/README.md", "mine.c"), "lines.c": lines,
             "prog.c": lines, "words.txt": WORDS}
    words = named_code("docs/TENANTS.md", "words.cpp")
    texts |= {"words.cpp": words, "prog.cpp": words}
    for name, text in texts.items():
        if name in part.text:
            (at / name.replace("mine", "mine.c")).write_text(text)
    if "T.elf" in part.text:
        shutil.copy(built.tenant(FREED, "gcc"), at / "T.elf")
    if "tenant-c" in part.text:
        library = tenant_cxx_library() if "tenant-c++" in part.text else tenant_library()
        (copy.folder / "examples" / "libc" / "out").symlink_to(library)
    if re.search(r"tombolopan|library\.sh|examples/many/run\.sh", part.text):
        link_built(copy.folder, static_library(built.shared))
        for name in ("first.c", "first.rs", "first.py", "tombolopan.rs"):
            shutil.copy(EXAMPLES / "embed" / name, at)


def is_explained(result: Result, status: int) -> bool:
    """Whether a status is that of a tenant that did not exit, and standard error says why."""
    return status >= 129 and f"status {status}\n" in result.ran.errors


@pytest.mark.parametrize("part", RUN_PARTS, ids=name_of)
def test_commands(built: Built, part: Part) -> None:
    """Each command of a page does what it should, in a copy of the checkout."""
    need(*(tool for tool in TOOLS_OF_COMMANDS if re.search(rf"(^|\s){tool}\s", part.text)))
    if re.search(r"^rustc ", part.text, re.M):
        rust_program("rustc", 85)
    folder = copy_files(built.folder / "copy", *COPIED)
    is_installed = re.search(r"PREFIX|pkg-config", part.text)
    prefix = installed.prefix(built.shared) if is_installed else built.folder / "nowhere"
    copy = copy_with_programs(folder, str(prefix), built.host, built.alone)
    prepare(copy, part, built)
    result = copy.run(part)
    for command, status in result.statuses.items():
        assert status == 0 or is_explained(result, status), (
            f"{part.place}: {command}: status {status}\n{result.ran.output}{result.ran.errors}")
    written = re.findall(r"write `(breakpoint [^`]*)`", part.before)
    lines = result.ran.output.splitlines()
    assert not written or set(lines) == set(written), lines


# Forms of commands, and options.

FORMS = [(part, command) for part in COMMAND_PARTS for command in part.commands()
         if is_form(command)]
OPTION = re.compile(r"(?<![\w-])--[a-z][a-z-]*")
PROGRAMS = ("mte_host", "mte_run")


def help_of(built: Built, program: str) -> str:
    """The help of a built program, or of a script of the repository."""
    if program in PROGRAMS:
        if program == "mte_host":
            return succeed([built.host, "--help"]).output
        return succeed([built.alone, "--help-all"]).output
    words: list[Word] = [] if program.endswith(".sh") else [sys.executable]
    return succeed([*words, ROOT / program, "--help"]).output


def options_of(text: str) -> set[str]:
    """The options that a text names."""
    return set(OPTION.findall(text))


@pytest.mark.parametrize(("part", "command"), FORMS, ids=name_of)
def test_forms(built: Built, part: Part, command: str) -> None:
    """The form of a command names a program that is there, and options that it has."""
    program = command.split()[0]
    missing = options_of(command) - options_of(help_of(built, program))
    assert not missing, f"{part.place}: {program} has no {missing}"


def test_options_of_the_report_page(built: Built) -> None:
    """The table of docs/MTE_RUN.md has the options of mte_run's help, and no other."""
    table = re.findall(r"^\| `(--[^|]*?)` \|", prose("docs/MTE_RUN.md").replace("`, `", " "), re.M)
    named = options_of(" ".join(table))
    assert named == options_of(help_of(built, "mte_run")) - {"--help", "--help-all", "--version"}


def test_options_of_the_host_page(built: Built) -> None:
    """What docs/HOST.md names of mte_host are its options, all of them."""
    named = options_of(" ".join(re.findall(r"`(?:mte_host )?(--[^`]*)`", prose("docs/HOST.md"))))
    shown = options_of(" ".join(re.findall(r"`mte_host ([^`]*)`", prose("docs/HOST.md"))))
    assert shown == options_of(help_of(built, "mte_host")) - {"--help"}
    assert shown <= named


@pytest.mark.parametrize("page", pages())
def test_options_in_words(built: Built, page: str) -> None:
    """A command of one of the programs that stands in a sentence has options of that program."""
    if page == page_links.HISTORY:
        return
    for program, words in re.findall(rf"`(?:[\w./-]*/)?({'|'.join(PROGRAMS)}) ([^`]*)`",
                                     prose(page)):
        missing = options_of(words) - options_of(help_of(built, program))
        assert not missing, f"{page}: `{program} {words}`: {missing}"


# What pages name.

@pytest.mark.parametrize("page", pages())
def test_links(page: str) -> None:
    """Links, headings that are named, and paths of files lead somewhere."""
    wrong = [*page_links.wrong_links(page), *page_links.wrong_headings(page)]
    if page != page_links.HISTORY:
        wrong += page_links.wrong_paths(page)
    assert not wrong, "\n".join(wrong)


def test_files_of_others_are_named() -> None:
    """Each file that is no file of the repository is named by some page."""
    named = {name for page in pages() for name in page_links.named_files(page)}
    assert set(page_links.FOREIGN) <= named


SHOWN_CODE = [(part, path) for part in all_parts() if part.language
              for path in re.findall(r"`((?:crates|examples)/[\w./-]+)`", part.before)]


@pytest.mark.parametrize(("part", "path"), SHOWN_CODE, ids=name_of)
def test_code_of_pages(part: Part, path: str) -> None:
    """Code that a page shows of a file is in that file, line by line, in that order. Heads of
    functions and lines with `use` may differ where the page names a crate."""
    place = ROOT / path
    sources = [place] if place.is_file() else sorted((place / "src").glob("*.rt"))
    text = "\n".join(source.read_text(encoding="utf-8") for source in sources)
    kept = part.lines if place.is_file() else [
        line for line in part.lines if not re.match(r"\s*(use|fn) ", line)]
    shown = [line.strip() for line in kept if line.strip()]
    assert_lines_in_order(part.place, shown, [line.strip() for line in text.splitlines()])
