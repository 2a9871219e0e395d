"""Why a tenant ended, as the library tells it: what `mte_run` writes, byte for byte, from Python, C
and Rust, also of mutated images and where an allocation is refused. TOMBOLOPAN_DRAWN is how many
images are mutated."""

import json
import os
import pathlib
import random
import re
import sys

import mutate
import pytest

from tests.support.embedding.built import COMPILERS, EMBED, Program, in_c, in_python, in_rust
from tests.support.places import ROOT
from tests.support.refused_memory import preload
from tests.support.running import Ran, Word, run
from tests.test_checks import BUGS, UNDEFINED, image

DRAWN = int(os.environ.get("TOMBOLOPAN_DRAWN", "160")) // 4
FORMS = ("report", "output", "json", "sarif", "html", "map", "profile")
REPORT, OUTPUT = 0, 1
OPTIONS: list[list[str]] = [
    [], ["--check"], ["--exact"], ["--leaks", "--statistics"], ["--async", "--seed", "abc"],
    ["--calls", "4", "--last", "40"], ["--seeds", "5"], ["--check=all,places", "--whole-output"],
    ["--steps", "700"], ["--slices", "1,7,1000"], ["--pages", "40", "--out", "8"],
    ["--check=leaks", "--lost-status", "9"], ["--exact", "--statistics", "--last", "0"],
]
LIMIT = ["--steps", "200000"]
# Answers cases on standard input, each a line of JSON.
DRIVER = """
import json, pathlib, sys
from tombolopan import AnswerForm, explain
for line in sys.stdin:
    path, data, options, form = json.loads(line)
    it = explain(pathlib.Path(path).read_bytes(), bytes.fromhex(data), options, AnswerForm(form),
                 path)
    print(json.dumps([it.text.hex(), it.status]))
"""


def with_limit(options: list[str]) -> list[str]:
    """Options under which a run ends soon."""
    return options if {"--steps", "--slices"} & {*options} else [*options, *LIMIT]


def told(alone: pathlib.Path, folder: pathlib.Path, path: str, given: pathlib.Path,
         options: list[str], form: int) -> tuple[bytes, int]:
    """What mte_run writes, and its exit status; of an image that is refused its lines."""
    file = folder / "answer"
    file.unlink(missing_ok=True)
    more: list[Word] = [] if form <= OUTPUT else [f"--{FORMS[form]}", file]
    words: list[Word] = [alone, *more, *options, "--input", given, path]
    ran = run(words, cwd=folder)
    text = ran.errors.encode("utf-8") if form == REPORT else ran.out
    if form > OUTPUT:
        text = file.read_bytes() if file.exists() else b""
    if ran.status == 136:
        text = ran.errors.encode("utf-8")
    return text, ran.status


def answers(shared: pathlib.Path, folder: pathlib.Path,
            cases: list[tuple[str, bytes, list[str], int]]) -> list[tuple[bytes, int]]:
    """What the library tells, from Python."""
    extra = in_python(shared, EMBED / "tombolopan").extra
    lines = "".join(json.dumps([path, data.hex(), options, form]) + "\n"
                    for path, data, options, form in cases)
    ran = run([sys.executable, "-B", "-c", DRIVER], stdin=lines.encode(), extra=extra, cwd=folder,
              seconds=900)
    assert (ran.status, ran.errors) == (0, ""), ran.errors[-2000:]
    rows = [json.loads(line) for line in ran.output.splitlines()]
    return [(bytes.fromhex(text), status) for text, status in rows]


def differing(alone: pathlib.Path, shared: pathlib.Path, folder: pathlib.Path,
              cases: list[tuple[str, bytes, list[str], int]]) -> list[str]:
    """The cases of which the library tells something else than mte_run."""
    found = []
    given = folder / "given"
    for case, answer in zip(cases, answers(shared, folder, cases)):
        path, data, options, form = case
        given.write_bytes(data)
        wanted = told(alone, folder, path, given, options, form)
        if answer != wanted:
            found.append(f"{path} {options} {FORMS[form]}: {answer!r:.300} for {wanted!r:.300}")
    return found


def images(shared: pathlib.Path) -> list[pathlib.Path]:
    """Images of the suite: correct ones, and those with a bug each."""
    bugs = [image(shared, "clang-O0", "pointer_bugs.c", f"BUG={bug}") for bug in sorted(BUGS)[::3]]
    undefined = [image(shared, "gcc-O0", "undefined_bugs.c", f"BUG={bug}")
                 for bug in sorted(UNDEFINED)[::5]]
    return [*sorted((ROOT / "tests" / "images").glob("*.elf")), *bugs, *undefined]


def test_answers_are_what_mte_run_writes(alone: pathlib.Path, shared: pathlib.Path,
                                         tmp_path: pathlib.Path) -> None:
    """Of each image, in each form, with options in turn."""
    cases = []
    for number, path in enumerate(images(shared)):
        for form in range(len(FORMS)):
            options = OPTIONS[(number + 5 * form) % len(OPTIONS)]
            cases.append((str(path), b"y" * 100, with_limit(options), form))
    assert differing(alone, shared, tmp_path, cases) == []


def test_answers_of_mutated_images(alone: pathlib.Path, shared: pathlib.Path,
                                   tmp_path: pathlib.Path) -> None:
    """Images with changed bytes, headers and tables."""
    source = random.Random(7)
    whole = images(shared)
    cases = []
    for number in range(DRAWN):
        content = source.choice(whole).read_bytes()
        kind = source.choice(sorted(mutate.SECTIONS))
        places = mutate.sections(content, mutate.SECTIONS[kind])
        is_within = places and source.random() < 0.5
        path = tmp_path / f"{number}.elf"
        path.write_bytes(mutate.mutated_within(content, places, source) if is_within
                         else mutate.mutated(content, source))
        options, form = source.choice(OPTIONS), source.randrange(len(FORMS))
        cases.append((path.name, source.randbytes(30), with_limit(options), form))
    assert differing(alone, shared, tmp_path, cases) == []


RUST = """
mod tombolopan;
use std::io::{Read, Write};
use tombolopan::{AnswerForm, Question, explain};

fn main() {
    let words: Vec<String> = std::env::args().collect();
    let image = std::fs::read(&words[1]).unwrap();
    let mut input = Vec::new();
    std::io::stdin().read_to_end(&mut input).unwrap();
    let options: Vec<&str> = words[2..].iter().map(|it| it.as_str()).collect();
    let question = Question {
        image: &image, input: &input, name: &words[1], options: &options, form: AnswerForm::Report,
    };
    let told = explain(&question);
    std::io::stdout().write_all(&told.text).unwrap();
    std::process::exit(told.status as i32);
}
"""


def program_of(shared: pathlib.Path, folder: pathlib.Path, variant: str) -> Program:
    """A program that tells why a tenant ended."""
    if variant != "rust":
        return in_c(shared, variant, EMBED / "why.c")
    source = folder / "why.rs"
    source.write_text(RUST, encoding="utf-8")
    return in_rust(shared, source)


@pytest.mark.parametrize("variant", [
    *(it for it in COMPILERS if "++" not in it and "c99" not in it or "sanitized" in it), "rust"])
def test_from_c_and_rust(alone: pathlib.Path, shared: pathlib.Path, tmp_path: pathlib.Path,
                         variant: str) -> None:
    """The report of some images, under sanitizers too."""
    asked = program_of(shared, tmp_path, variant)
    (tmp_path / "given").write_bytes(b"y" * 100)
    for number, path in enumerate(images(shared)[::9]):
        options = with_limit(OPTIONS[number % len(OPTIONS)])
        ran = run([*asked.words, path, *options], stdin=b"y" * 100, extra=asked.extra)
        wanted = told(alone, tmp_path, str(path), tmp_path / "given", options, REPORT)
        assert (ran.out, ran.status) == wanted


def test_refused_allocations(shared: pathlib.Path, tmp_path: pathlib.Path) -> None:
    """Where an allocation is refused, the answer is the whole one or none."""
    program = in_c(shared, "gcc-c11", EMBED / "why.c")
    asked = preload(pathlib.Path(program.words[0]), shared, tmp_path)
    path = image(shared, "clang-O0", "pointer_bugs.c", "BUG=1")
    words: list[Word] = [path, "--check", "--last", "4"]
    whole = asked.run(words, 0)
    assert b"Buffer Overflow" in whole.out
    made = asked.counted()
    step = max(made // 150, 1)
    ended = 0
    for number in range(1, made + 1, step):
        ran = asked.run(words, number)
        ended += ran.status == 4
        is_unread = number < 3 and ran.status == 2  # the program's own, to read the image
        assert is_unread or ran in (whole, Ran(4, b"", b"")), f"allocation {number} of {made}"
    assert ended > 50


@pytest.mark.parametrize("options, said", [
    (["--json", "x"], "name files"), (["--input", "x"], "name files"),
    (["--trace"], "--trace"), (["--services"], "--services"), (["--gdb"], "--gdb"),
    (["--wrong"], "--wrong"), (["--check=nothing"], "--check takes"),
    (["--seed", "z"], "hexadecimal"),
    (["another.elf"], "one file"),
])
def test_options_that_are_refused(shared: pathlib.Path, tmp_path: pathlib.Path,
                                  options: list[str], said: str) -> None:
    """The answer says what is wrong."""
    program = in_c(shared, "gcc-c11", EMBED / "why.c")
    path = sorted((ROOT / "tests" / "images").glob("*.elf"))[0]
    ran = run([*program.words, path, *options], cwd=tmp_path, extra=program.extra)
    assert ran.status == 2 and re.search(said, ran.output), ran.output


def test_values_of_an_explanation(shared: pathlib.Path, tmp_path: pathlib.Path) -> None:
    """Causes, stacks, chunks and the page as values of Python."""
    path = image(shared, "clang-O0", "pointer_bugs.c", "BUG=15")
    text = f"""
import pathlib
from tombolopan import why
it = why(pathlib.Path({str(path)!r}).read_bytes(), check="all")
assert "Use After Free" in it.cause and it.cause in str(it), it
assert it.stack[0].file.endswith("pointer_bugs.c") and it.stack[0].line > 0
chunk = it.chunks[0]
assert chunk.size == 24 and chunk.allocated and chunk.freed, chunk
assert "<html" in it.page.lower() and it._repr_html_().startswith("<iframe")
print(it.status)
"""
    extra = in_python(shared, EMBED / "tombolopan").extra
    ran = run([sys.executable, "-B", "-c", text], extra=extra, cwd=tmp_path)
    assert (ran.output, ran.errors) == ("137\n", "")
