#!/usr/bin/env python3
"""Writes a manual page, by the text that the program or the header has of its own, and by docs/.

    manual.py program NAME < HELP      NAME(1), of what NAME --help prints
    manual.py header < tombolopan.h    tombolopan(3), of the header's comments and declarations
    manual.py comment SCRIPT           what a script of Python says of itself
    manual.py calls < tombolopan.h     the names of the calls, each of which leads to tombolopan(3)
"""
import ast
import pathlib
import re
import sys
from dataclasses import dataclass

import roff
from packing.release import read_version
from roff import escaped

DOCS = pathlib.Path(__file__).resolve().parent.parent / "docs"
PAGE = (f'.TH {{title}} {{section}} "" "Tombolopan {read_version()}" "Tombolopan"\n'
        '.nh\n.ad l\n')
COMMENT = r"/\*(.*?)\*/\n"
KINDS = r"enum|typedef struct|(?:static inline )?(?:uint32_t|uint64_t|size_t|void|const char \*)"
DECLARATION = COMMENT + rf"((?:{KINDS})\b.*?(?:;|\n}}))\n(?=\n|/\*|#)"
LIBRARY = """.B #include <tombolopan.h>
.PP
.B cc program.c $(pkg\\-config \\-\\-cflags \\-\\-libs tombolopan)"""
PLACES = "Names are relative to the folder in which Tombolopan is installed, which has bin.\n"
EXAMPLES = "share/tombolopan/examples"


@dataclass(frozen=True)
class Manual:
    """What the page of a program has besides its help: a page of docs/, whose parts become
    sections, the part with its exit statuses, or a text of them, commands with what they do, files
    and other manual pages."""

    page: str
    parts: dict[str, str]
    statuses: str
    examples: dict[str, str]
    files: dict[str, str]
    also: str


MANUALS = {
    "mte_host": Manual(
        page="HOST.md",
        parts={"The script": "DESCRIPTION", "A tenant": "TENANTS", "The report": "REPORT"},
        statuses="The report",
        examples={f"mte_host --frames 11 {EXAMPLES}/hi.script {EXAMPLES}/hi.elf":
                  "prints the report of a tenant that writes Hi and exits"},
        files={f"{EXAMPLES}/hi.script, {EXAMPLES}/hi.elf": "a first session",
               "share/doc/tombolopan/docs/HOST.md": "more on sessions"},
        also="mte_run(1), tenant-cc(1), tombolopan(3)"),
    "mte_run": Manual(
        page="MTE_RUN.md",
        parts={"": "DESCRIPTION", "Seeds": "SEEDS", "Check": "CHECK", "Statistics": "STATISTICS",
               "JSON": "JSON", "SARIF": "SARIF",
               "Faulty lines of a script": "FAULTY LINES OF A SCRIPT"},
        statuses="Exit statuses",
        examples={"mte_run --input words.txt lines.elf": "runs a tenant with an input",
                  "mte_run --exact --leaks --seeds 4 lines.elf":
                  "compares accesses with chunks to the byte under four seeds",
                  "mte_run --map heap.svg lines.elf": "draws the heap at the end",
                  "mte_run --script session.script 2 --frames 300 a.elf b.elf":
                  "replays tenant 2 of a session"},
        files={"share/doc/tombolopan/docs/REPORT.md": "how a report is read",
               "share/doc/tombolopan/docs/DEBUGGING.md": "GDB over --gdb",
               f"{EXAMPLES}/gdb/tenant.gdb": "what each session of GDB wants"},
        also="mte_why(1), mte_host(1), tenant-cc(1), tombolopan(3)"),
    "mte_why": Manual(
        page="", parts={}, statuses="Those of mte_run(1); 2 without a word.\n",
        examples={"mte_why lines.elf": "says why the tenant ended"},
        files={f"{EXAMPLES}/why.sh": "this program"},
        also="mte_run(1), tenant-cc(1)"),
    "tenant-cc": Manual(
        page="TENANTS.md",
        parts={"What the library has, and what differs from a system": "LIBRARY",
               "Numbers with a fraction": "NUMBERS WITH A FRACTION", "C++": "C++"},
        statuses="The compiler's; 2 where a word, the compiler or the library is missing.\n",
        examples={"tenant-cc -O2 -g -o lines.elf lines.c && mte_run --input words.txt lines.elf":
                  "builds a tenant and runs it alone"},
        files={f"{EXAMPLES}/libc/out": "the C library of tenants",
               f"{EXAMPLES}/programs": "ordinary programs that are tenants too",
               "share/doc/tombolopan/docs/TENANTS.md": "more on writing tenants"},
        also="mte_run(1), mte_why(1), mte_host(1)"),
}


# A program beside tenant-cc that the table does not have.
OTHER = Manual(page="", parts={}, statuses="", examples={}, also="tenant-cc(1), mte_run(1)",
               files={"share/doc/tombolopan/docs/TENANTS.md": "more on writing tenants"})


def section_of(title: str, text: str) -> str:
    return f".SH {title}\n{text}\n"


def rows_of(text: str) -> str:
    """Arguments or options, each with what it is for."""
    text = re.sub(r"\n {12,}(?=\S)", " ", text)
    rows = [re.split(r"\s{2,}", line.strip(), maxsplit=1) for line in text.splitlines()]
    return "\n".join(f".TP\n.B {escaped(row[0])}\n{escaped(row[-1])}" for row in rows)


def listed(entries: dict[str, str]) -> str:
    """Names or commands, each with what it is."""
    return "".join(f".TP\n.B {escaped(name)}\n{escaped(about)}\n"
                   for name, about in entries.items())


def from_pages(manual: Manual) -> dict[str, str]:
    """The sections that a page of docs/ gives."""
    made: dict[str, str] = {}
    page = (DOCS / manual.page).read_text(encoding="utf-8") if manual.page else ""
    for heading, title in manual.parts.items():
        text = roff.part_of(page, heading)
        is_own = heading == manual.statuses or title == "DESCRIPTION"
        blocks = [block for block in roff.blocks_of(text)
                  if not (is_own and roff.is_table(block))]
        made[title] = "".join(roff.block_of(block) for block in blocks)
    if manual.statuses.endswith("\n"):
        made["EXIT STATUS"] = escaped(manual.statuses)
    elif manual.statuses:
        tables = filter(roff.is_table, roff.blocks_of(roff.part_of(page, manual.statuses)))
        made["EXIT STATUS"] = "".join(map(roff.block_of, tables))
    return made


def of_help(text: str) -> dict[str, str]:
    """The sections that a help text gives: its first line, its usage, arguments and options."""
    first, _, rest = text.partition("\n")
    made = {"NAME": first[:1].lower() + first[1:].rstrip(".")}
    found = re.search(r"^Usage: (.*)$", rest, re.M)
    if found:
        made["SYNOPSIS"] = f".B {escaped(found[1])}"
        about = rest[:found.start()].strip()
        made |= {"DESCRIPTION": roff.roff_of(about)} if about else {}
    groups = dict(re.findall(r"^(\S.*):\n((?:[ ]+.*\n?)+)", rest, re.M))
    if arguments := groups.pop("Arguments", ""):
        made["ARGUMENTS"] = rows_of(arguments)
    if general := groups.pop("Options", ""):
        parts = [f".SS {escaped(title)}\n{rows_of(part)}" for title, part in groups.items()]
        made["OPTIONS"] = "\n".join([rows_of(general), *parts])
    return made


def of_comment(name: str, text: str) -> dict[str, str]:
    """The sections of a script's own comment: a sentence, its usage behind four blanks, options
    of four blanks and two dashes, and what else it says."""
    first, rest = re.split(r"[:.]\s", text, maxsplit=1)
    usage = re.findall(rf"^ {{4}}({re.escape(name)} .*)$", text, re.M)
    options = re.search(r"^( {4}--\S.*\n(?: {4}.*\n|\n(?= {4}))*)", text, re.M)
    rest = re.sub(r"^ {4}.*\n", "", rest, flags=re.M)
    made = {"NAME": first[:1].lower() + first[1:].rstrip("."),
            "SYNOPSIS": "\n.br\n".join(f".B {escaped(line)}" for line in usage),
            "DESCRIPTION": roff.roff_of(rest[:1].upper() + rest[1:])}
    if options:
        made["OPTIONS"] = rows_of(options[1])
    return made


def of_program(name: str, text: str) -> str:
    """The page of a program."""
    manual = MANUALS.get(name, OTHER)
    made = of_help(text) if "\nUsage: " in text else of_comment(name, text)
    made = {**made, **from_pages(manual)}
    made["NAME"] = f"{escaped(name)} \\- {escaped(made['NAME'])}"
    if manual.examples:
        made["EXAMPLES"] = listed(manual.examples)
    made["FILES"] = PLACES + listed(manual.files)
    made["SEE ALSO"] = escaped(manual.also)
    first = ["NAME", "SYNOPSIS", "DESCRIPTION", "ARGUMENTS", "OPTIONS"]
    last = ["EXIT STATUS", "EXAMPLES", "FILES", "SEE ALSO"]
    order = [*first, *(title for title in made if title not in (*first, *last)), *last]
    return PAGE.format(title=name.upper(), section=1) + "".join(
        section_of(title, made[title]) for title in order if title in made)


def comment_of(text: str) -> str:
    lines = [re.sub(r"^\s*\*? ?", "", line).rstrip() for line in text.strip().splitlines()]
    return "\n".join(lines).strip()


def entry_of(comment: str, declared: str) -> str:
    """A declaration under its name, and its comment."""
    return (f".SS {escaped(title_of(declared))}\n.nf\n{escaped(declared)}\n.fi\n.PP\n"
            f"{paragraphs(comment_of(comment))}")


def of_header(text: str) -> str:
    """The page of the library: the header's first comment, then each declaration under its own."""
    head = re.match(COMMENT, text, re.S)
    if head is None:
        sys.exit("manual.py: the header does not begin with a comment")
    about = comment_of(head[1]).replace("libtombolopan_c.a", "libtombolopan.a")
    _, _, said = " ".join(about.split()).partition(": ")
    page = PAGE.format(title="TOMBOLOPAN", section=3)
    page += section_of("NAME", f"tombolopan \\- {escaped(said.split('.')[0])}")
    page += section_of("SYNOPSIS", LIBRARY)
    page += section_of("DESCRIPTION", paragraphs(about))
    calls: list[str] = []
    types: list[str] = []
    for comment, declared in re.findall(DECLARATION, text[head.end():], re.S):
        # Of a function of the header the declaration alone.
        declared = re.sub(r"^(static inline .*?\)) \{.*", r"\1;", declared, flags=re.S)
        entries = types if declared.startswith(("enum", "typedef")) else calls
        entries.append(entry_of(comment, declared))
    page += section_of("CALLS", "\n".join(calls))
    page += section_of("TYPES AND CODES", "\n".join(types))
    page += section_of("RETURN VALUE", roff.spans(
        "Each call but `tb_version`, `tb_build_info` and `tb_memory_init` answers a `tb_code`; 0 "
        "is `TB_OK`."))
    first = (DOCS.parent / "examples/embed/first.c").read_text(encoding="utf-8")
    page += section_of("EXAMPLES", roff.code_of(first.splitlines()))
    page += section_of("FILES", PLACES + listed({
        "include/tombolopan.h": "all declarations", "lib/libtombolopan.a": "the library",
        "lib/libtombolopan.so.2": "the library as a shared object",
        "share/tombolopan/tombolopan, share/tombolopan/tombolopan.rs": "for Python and Rust",
        "share/doc/tombolopan/docs/C.md": "more on all of them"}))
    page += section_of("SEE ALSO", escaped("mte_host(1), mte_run(1)"))
    return page


def calls_of(text: str) -> list[str]:
    """The names of the calls of the header."""
    declared = (it[1] for it in re.findall(DECLARATION, text, re.S))
    return sorted({title_of(it) for it in declared if not it.startswith(("enum", "typedef"))})


def title_of(declared: str) -> str:
    found = re.match(r"enum (\w+)|typedef struct (\w+)|[^(]*?(\w+)\(", declared)
    return next(name for name in found.groups() if name) if found else declared


def paragraphs(text: str) -> str:
    text = re.sub(r"\n\n+", "\n.PP\n", text).replace("\n- ", "\n.br\n- ")
    return escaped(text).replace("\\&.PP", ".PP").replace("\\&.br", ".br")


def main() -> None:
    if sys.argv[1:2] == ["program"] and len(sys.argv) == 3:
        sys.stdout.write(of_program(sys.argv[2], sys.stdin.read()))
    elif sys.argv[1:] == ["header"]:
        sys.stdout.write(of_header(sys.stdin.read()))
    elif sys.argv[1:2] == ["comment"] and len(sys.argv) == 3:
        print(ast.get_docstring(ast.parse(pathlib.Path(sys.argv[2]).read_text(encoding="utf-8"))))
    elif sys.argv[1:] == ["calls"]:
        print("\n".join(calls_of(sys.stdin.read())))
    else:
        sys.exit(__doc__)


if __name__ == "__main__":
    main()
