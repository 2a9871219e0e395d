"""Names of C++ and Rust as `mte_run` tells them, drawn by the grammars of the Itanium ABI and of
Rust's legacy form, compared with `c++filt -i`. Where that differs from the ABI, they are compared
with `llvm-cxxfilt`. TOMBOLOPAN_DRAWN is how many names of each kind are drawn."""

import os
import pathlib
import random
import re
from collections.abc import Sequence

import pytest

from tests.support.drawn_names import Names, rust_name, told_names
from tests.support.running import succeed
from tests.support.tools import need

DRAWN = int(os.environ.get("TOMBOLOPAN_DRAWN", "2000"))
LONGEST = 1_023
# Expressions and types that are not understood: the whole name is shown as the linker has it.
NOT_UNDERSTOOD = (
    "step", "alignment", "rare_cast", "made_of", "selected", "creation", "index", "vendor",
    "choice",
)
# Names that c++filt does not read as the ABI has them, and llvm-cxxfilt does. It counts a type
# without a name twice for `S_`, gives a constructor of a lambda the name around it, writes a comma
# for a pack of no arguments, `&` behind `noexcept`, and knows no `noexcept` and no
# `alignof` in expressions.
AS_THE_ABI = (
    "unnamed", "member_of_none", "empty_pack", "noexcept_reference", "no_exception",
    "alignment_of_type",
)
LAMBDA = re.compile(r"'lambda(\d*)'(\([^()]*(?:\([^()]*\)[^()]*)*\))")
# A number of one digit after a local name, and a digit: c++filt reads them as one number.
LOCAL_NUMBER = re.compile(r"_[03]\d")
UNNAMED = re.compile(r"'unnamed(\d*)'")
CLONES = re.compile(r" \(((?:\.[a-z]+(?:\.\d+)*)+)\)$")


def drawn(seed: int, without: tuple[str, ...]) -> list[str]:
    """Different names."""
    names, source = set[str](), Names(seed, frozenset(without))
    while len(names) < DRAWN:
        name = source.whole()
        if len(name) <= LONGEST:
            names.add(name)
    return sorted(names)


def filtered(tool: str, names: list[str]) -> list[str]:
    """The names as a tool writes them."""
    words = [tool, "-i"] if tool == "c++filt" else [tool]
    return succeed(words, stdin="\n".join([*names, ""]).encode("ascii")).output.splitlines()


def told(alone: pathlib.Path, folder: pathlib.Path, names: list[str]) -> list[str]:
    """The names as mte_run writes them."""
    found = told_names(alone, folder, [name.encode("ascii") for name in names])
    assert len(found) == len(names)
    return found


def numbered(found: "re.Match[str]") -> int:
    """The number from 1 on, which LLVM leaves out, and then counts from 0 on."""
    return int(found[1]) + 2 if found[1] else 1


def in_words_of_gnu(text: str) -> str:
    """What LLVM writes, by c++filt's forms, without blanks."""
    before = ""
    while before != text:
        before = text
        text = LAMBDA.sub(lambda it: f"{{lambda{it[2]}#{numbered(it)}}}", text)
    text = UNNAMED.sub(lambda it: f"{{unnamed type#{numbered(it)}}}", text)
    text = CLONES.sub(lambda it: re.sub(r"(\.[a-z]+(?:\.\d+)*)", r" [clone \1]", it[1]), text)
    text = re.sub(r"(\{[^{}]*\})::(~?)\1(?=\()", r"\1::\2", text)
    for llvm, gnu in (("std::nullptr_t", "decltype(nullptr)"),
                      ("thread-local initialization routine for", "TLS init function for"),
                      ("thread-local wrapper routine for", "TLS wrapper function for")):
        text = text.replace(llvm, gnu)
    return text.replace(" ", "")


def shown(rows: Sequence[tuple[str, ...]]) -> str:
    """The shortest of names that differ."""
    return f"{len(rows)}: " + "\n".join(map(str, sorted(rows, key=lambda it: len(it[0]))[:5]))


def test_names_are_those_of_cxxfilt(alone: pathlib.Path, tmp_path: pathlib.Path) -> None:
    """Nested and local names, templates, operators, lambdas, function types, expressions,
    references, tables and thunks are told as c++filt writes them, where it understands them."""
    need("c++filt")
    names = [it for it in drawn(1, (*NOT_UNDERSTOOD, *AS_THE_ABI)) if not LOCAL_NUMBER.search(it)]
    rows = list(zip(names, filtered("c++filt", names), told(alone, tmp_path, names)))
    understood = [row for row in rows if row[0] != row[1]]
    assert len(understood) > len(rows) * 98 // 100
    other = [row for row in understood if row[1] != row[2]]
    assert not other, shown(other)


def test_names_are_those_of_the_abi(alone: pathlib.Path, tmp_path: pathlib.Path) -> None:
    """Where c++filt differs, what is told is what llvm-cxxfilt writes, but for blanks and forms.
    It has other parentheses in expressions, no name for a constructor of a class with a tag, and
    qualifiers of a function after what its result has behind the name, so none is drawn."""
    need("c++filt", "llvm-cxxfilt")
    names = drawn(2, (*NOT_UNDERSTOOD, "computed", "deduced", "member_of_tagged",
                      "qualified_returns"))
    rows = list(zip(names, filtered("c++filt", names), filtered("llvm-cxxfilt", names),
                    told(alone, tmp_path, names)))
    other = [row for row in rows if row[1] != row[3]
             and in_words_of_gnu(row[2]) != in_words_of_gnu(row[3])]
    assert not other, shown(other)
    assert sum(row[1] != row[3] for row in rows) > len(rows) // 100


@pytest.mark.parametrize("kind", NOT_UNDERSTOOD)
def test_names_that_are_not_understood(
    alone: pathlib.Path, tmp_path: pathlib.Path, kind: str
) -> None:
    """What mte_run does not understand is shown as the linker has it, and never in part."""
    need("c++filt")
    without = tuple(it for it in (*NOT_UNDERSTOOD, *AS_THE_ABI) if it != kind)
    names = [it for it in drawn(3, without) if not LOCAL_NUMBER.search(it)]
    rows = list(zip(names, filtered("c++filt", names), told(alone, tmp_path, names)))
    other = [row for row in rows if row[1] != row[0] and row[2] not in row[:2]]
    assert not other, shown(other)
    assert any(row[1] != row[0] == row[2] for row in rows)


def test_legacy_names_of_rust(alone: pathlib.Path, tmp_path: pathlib.Path) -> None:
    """Paths and escapes are told as c++filt writes them, without the hash."""
    need("c++filt")
    source = random.Random(4)
    names = sorted({rust_name(source) for _ in range(DRAWN)})
    rows = list(zip(names, filtered("c++filt", names), told(alone, tmp_path, names)))
    other = [row for row in rows if row[1] != row[2]]
    assert not other, shown(other)


# The smallest name of each kind that is easily written in another way.
SMALL = {
    "a class of the library before D": "_Z1fSsDi",
    "`&` behind `const`": "_Z1fPKFvvRE",
    "a function that returns an array": "_ZNK1A1fIiEERA3_iv",
    "a pointer to a const function": "_Z1fIXadL_ZNK1A1gEvEEEvv",
    "a blank between parentheses": "_Z1fM1AFPFivEvE",
    "the size of a parameter": "_Z1fIiEDTszfp_ET_",
    "a blank between references": "_Z1fPFOA3_ivE",
    "an array of a class with a tag": "_Z1fRA2_1AB1tS0_",
    "a number behind a discriminator": "_ZTCZ1fvE1A_016_1B",
}


def test_small_names(alone: pathlib.Path, tmp_path: pathlib.Path) -> None:
    """docs/REPORT.md: names are written as `c++filt -i` writes them."""
    need("c++filt")
    names = list(SMALL.values())
    assert told(alone, tmp_path, names) == filtered("c++filt", names)
