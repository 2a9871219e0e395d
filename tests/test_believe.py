"""What a theorem reaches (tools/believe.py): the page is what the definitions give, a closure that
grows is seen, and closures are what was read by hand. Nothing that was built is needed."""

import pathlib
import re
import shutil
import sys

import pytest
from closures.closures import Repository, closure_of, start_of
from closures.names import ReadError
from closures.order import reading_of
from closures.signs import explained_in, signs_of
from closures.theorems import Bound, function_named, read_page

from tests.support.places import ROOT
from tests.support.running import Ran, run

LIB = """\
//! A crate.

ghost use Rattle.low.specs.Laws.{Holds};

mod shape;
pub use shape::{Side, Shape};

/// A law that is not what `Unused` says.
pub fn law()
    ensures one { Holds }
    ensures two { LIMIT ≤ 4 }
{}

pub const LIMIT: u8 = HALF + HALF;
const HALF: u8 = 2;
"""
SHAPE = """\
//! A shape.

pub struct Shape {
    side: Side,
    ghost small: { IsSmall side },
}

pub enum Side { Left(Inner), Right }

pub struct Inner { value: u8 }

impl Model for Inner {
    ghost use Rattle.low.specs.Views.{Value, view};

    ghost Value = { Value };

    ghost view = { view };
}

ghost use Rattle.low.specs.Views.{IsSmall};
"""
LAWS = """\
-- Laws; Unused is none.
use Rattle.std.specs.Prelude.{ℕ, ◌≡◌, ◌+◌, length}
use Rattle.low.specs.Passing.{twice as double}
use Rattle.low.specs.Other as other
use Rattle.low.specs.declared.shape.Shape.{Shape}

-- A choice.
pub data Choice : Type 0 where
  Take : ℕ → Choice

abbrev pub ◌>+◌ : ℕ → ℕ → ℕ
a >+ b = a + b

abbrev pub Unused : Type 0
Unused = ℕ

abbrev pub field : ℕ
field = 0

pub record Held : Type 0 where
  pub field : ℕ

abbrev pub taken : Choice → Held
taken (Take n) = record {
  field = double n;
}

-- The law.
abbrev pub Holds : Type 0
Holds = (s : Shape) (h : Held) → (taken (Take 1)).field >+ other.third ≡ h.field  -- Unused
"""
FILES = {
    "crates.txt": "low:\n",
    "crates/low/src/lib.rt": LIB,
    "crates/low/src/shape.rt": SHAPE,
    "crates/low/specs/Laws.antt": LAWS,
    "crates/low/specs/Passing.antt": "pub use Rattle.low.specs.Other.{twice}\n",
    "crates/low/specs/Other.antt": "abbrev pub twice :\n    ℕ → ℕ\ntwice n = n\n"
                                   "abbrev pub third : ℕ\nthird = 3\n",
    "crates/low/specs/Views.antt": "abbrev pub Value : Type 0\nabbrev pub view : Value\n"
                                   "abbrev pub IsSmall : Type 0\n",
}


def small_repository(root: pathlib.Path, changed: dict[str, str] | None = None) -> Repository:
    """A repository of one crate."""
    for name, text in (FILES | (changed or {})).items():
        (root / name).parent.mkdir(parents=True, exist_ok=True)
        (root / name).write_text(text, encoding="utf-8")
    return Repository.read(root)


def reached(repository: Repository, name: str, clause: str = "") -> dict[str, set[str]]:
    """The names that a contract reaches, by their kind."""
    function = function_named(repository, name)
    found: dict[str, set[str]] = {}
    for it in closure_of(repository, start_of(repository, function, clause)):
        found.setdefault(it.kind, set()).add(it.name)
    return found


def test_every_kind_of_name(tmp_path: pathlib.Path) -> None:
    """Names through imports, aliases, what is passed on, constructors, operators, types, models,
    facts and constants are reached; comments, labels, fields and the view of a model are not."""
    assert reached(small_repository(tmp_path), "law") == {
        "definition": {"Holds", "Held", "Choice", "taken", "twice", "third", "◌>+◌", "Value",
                       "IsSmall"},
        "type": {"Shape", "Side", "Inner"},
        "constant": {"LIMIT", "HALF"},
        "kit": {"ℕ", "◌≡◌", "◌+◌"},
    }


def test_a_clause_alone(tmp_path: pathlib.Path) -> None:
    """A clause has its own closure."""
    repository = small_repository(tmp_path)
    assert reached(repository, "law", "two") == {"constant": {"LIMIT", "HALF"}}
    assert reached(repository, "low::law", "one").keys() == {"definition", "type", "kit"}


def test_the_order_of_reading(tmp_path: pathlib.Path) -> None:
    """The statement's file is first, and its definitions are in the order of the file."""
    repository = small_repository(tmp_path)
    names = closure_of(repository, start_of(repository, function_named(repository, "law")))
    reading = reading_of(repository, names)
    assert next(iter(reading.files)) == "crates/low/specs/Laws.antt"
    assert [it.name.name for it in reading.files["crates/low/specs/Laws.antt"]] == [
        "Choice", "◌>+◌", "Held", "taken", "Holds"]
    assert reading.lines == 2 + 2 + 2 + 4 + 2 + 3 + 2 + 2


@pytest.mark.parametrize("wrong", ["specs.Passing.{once as double}", "specs.None.{double}",
                                   "specs.declared.shape.Slide.{double}"])
def test_imports_that_lead_nowhere(tmp_path: pathlib.Path, wrong: str) -> None:
    """An import that is not understood is an error, and not a smaller closure."""
    text = LAWS.replace("specs.Passing.{twice as double}", wrong)
    repository = small_repository(tmp_path, {"crates/low/specs/Laws.antt": text})
    with pytest.raises(ReadError):
        reached(repository, "law")


@pytest.fixture(scope="module")
def checkout() -> Repository:
    """The definitions and the code of this checkout."""
    return Repository.read(ROOT)


@pytest.mark.parametrize(("name", "definitions", "others"), [
    ("scudo_header::class_of", {"class_for", "size_of", "power_below", "IsLeastClass"},
     {"CLASSES", "LARGEST_CLASS_SIZE"}),
    ("a64_step::adr", {"adr_of", "offset_address", "with_register", "with_next_pc",
                       "twos_complement", "AreRegisters"}, {"Regs", "Flags", "Rgsr"}),
    ("heap_bounds::freed_by", {"ended_chunk", "ended_pointer", "plain"},
     {"AnsweredCall", "HeapCall"}),
    ("fill_adds_its_own", {"with_translation", "lookup", "is_for", "without", "newest"},
     {"Translation", "Attrs"}),
])
def test_closures_by_hand(checkout: Repository, name: str, definitions: set[str],
                          others: set[str]) -> None:
    """Closures that were read by hand."""
    found = reached(checkout, name)
    assert found.pop("definition") == definitions
    assert found.pop("type", set()) | found.pop("constant", set()) == others
    assert found.keys() <= {"kit"}


def test_no_import_leads_nowhere(checkout: Repository) -> None:
    """Each import of a definition, a type or a constant is understood, reached or not."""
    imports = [*(it.imports for it in checkout.modules.values()),
               *(it.ghost for it in checkout.sources.values())]
    names = [checkout.resolve(it) for found in imports for it in found.names.values()]
    assert len(names) > 5000


def test_no_public_contract_reads_what_only_code_names(checkout: Repository) -> None:
    """What public contracts reach has nothing of specs/Inner: a reader need not open it."""
    calls = [it for it in checkout.functions() if it.is_public and it.clauses]
    assert len(calls) > 500
    for call in calls:
        names = closure_of(checkout, start_of(checkout, call))
        inner = [it for it in names if it.kind == "definition" and it.module.startswith("Inner")]
        assert not inner, call.called


def test_signs_are_explained(checkout: Repository) -> None:
    """docs/READING_CONTRACTS.md has each sign that a public contract uses."""
    page = (ROOT / "docs" / "READING_CONTRACTS.md").read_text(encoding="utf-8")
    signs = signs_of(checkout)
    known = explained_in(page)
    assert len(signs) > 80
    assert not {sign: where for sign, where in signs.items() if sign not in known}
    assert {"IfOk", "ensures*", ".entry", "→"} <= signs.keys() and "no_sign" not in known


def test_declared_modules_are_explained(checkout: Repository) -> None:
    """So are the modules that have what the code declares."""
    page = (ROOT / "docs" / "READING_CONTRACTS.md").read_text(encoding="utf-8")
    paths = [it.path for module in checkout.modules.values()
             for it in module.imports.names.values() if ".specs.declared." in it.path]
    parts = {it for path in paths for it in path.split(".") if it.startswith("The")}
    assert {"TheVariants", "TheConstants"} <= parts
    assert not {it for it in parts if f"`{it}`" not in page and f".{it}" not in page}


def believe(*words: str) -> Ran:
    """What tools/believe.py says."""
    return run([sys.executable, ROOT / "tools" / "believe.py", *words])


def test_the_page() -> None:
    """docs/BELIEVE.md is what the definitions give; each theorem of the README is in it, and each
    closure keeps to its bound."""
    assert believe("--check") == Ran(0, b"", b"")


def test_a_printed_closure() -> None:
    """A closure is printed with lines of files, what to skip, types and words."""
    told = believe("freed_chunks_are_refused", "free").output
    for text in ("ensures free { FreedBlocksAreFree }", "crates/mte_tags/specs/Memory.antt: ",
                 "  skip ", "types and constants of the code:", "words of the kit:"):
        assert text in told
    assert "it rests on the proof of `mte_laws`" in told
    assert "what it does not say: It holds of a careful run" in told
    assert believe("chunks_are_guarded", "pages").status == 1
    assert "0 public functions" in believe("no_such_law").errors


def test_all_theorems() -> None:
    """The text of all theorems has a part for each row of the page, and what they rest on."""
    told = believe("--all").output
    page = (ROOT / "docs" / "BELIEVE.md").read_text(encoding="utf-8")
    names = re.findall(r"^\| (`\w+`) \|", page, re.M)
    assert len(names) >= 15
    for name in names:
        assert f"## {name}\n" in told
    assert told.count("**What it does not say.**") == len(names)
    assert "The last line of `rt verdict`" in told and "Do not edit" not in told


def rows_of_the_page() -> dict[tuple[str, str], list[str]]:
    """The cells of each row of docs/BELIEVE.md, by theorem and clause."""
    page = (ROOT / "docs" / "BELIEVE.md").read_text(encoding="utf-8")
    found: dict[tuple[str, str], list[str]] = {}
    theorem = ""
    row = re.compile(r"^\| (?:`(\w+)`|\.\. clause `(\w+)`) \|(.*)\|$", re.M)
    for head, clause, rest in row.findall(page):
        theorem = head or theorem
        found[theorem, clause] = [it.strip() for it in rest.split("|")]
    return found


def keeps_to(bound: Bound, cells: list[str]) -> bool:
    """Whether the numbers of a row are of what a bound is of, and at most what it is."""
    definitions, lines = cells[-2:] if bound.given else cells[:2]
    return (bound.given in ("", cells[-3])
            and int(definitions) <= bound.definitions and int(lines) <= bound.lines)


def test_laws_of_the_heap(checkout: Repository) -> None:
    """Each public law of the heap that theorems.toml lists has a row of its own on the page and a
    bound, and each of its bounds a row that keeps to it."""
    laws = {it.called for it in checkout.functions() if it.crate == "mte_laws" and it.is_public}
    listed = [it for it in read_page().theorems if it.name in laws]
    rows = rows_of_the_page()
    assert len(listed) >= 24
    for law in listed:
        assert (law.name, "") in rows and law.bounds, law.name
        wide = [it for it in law.bounds if not keeps_to(it, rows[law.name, it.clause])]
        assert not wide, f"{law.name}: {wide}"
    known = listed[0].bounds[0]
    assert not keeps_to(known, [str(known.definitions), str(known.lines + 1), "", "", ""])


def copy_read_files(target: pathlib.Path) -> pathlib.Path:
    """A copy of what the tool reads."""
    for name in ("README.md", "crates.txt", "docs/BELIEVE.md"):
        (target / name).parent.mkdir(parents=True, exist_ok=True)
        shutil.copy(ROOT / name, target / name)
    for crate in (ROOT / "crates").iterdir():
        for folder in ("src", "specs"):
            if (crate / folder).is_dir():
                shutil.copytree(crate / folder, target / "crates" / crate.name / folder)
    return target


def test_a_closure_that_grows(tmp_path: pathlib.Path) -> None:
    """Where a definition names one more the check is red; and where a closure is larger than its
    bound the page is not written."""
    root = copy_read_files(tmp_path)
    path = root / "crates/mte_sched/specs/Isolation.antt"
    text = path.read_text(encoding="utf-8")
    assert believe("--root", str(root), "--check") == Ran(0, b"", b"")

    grown = text.replace("-- Whatever other", "abbrev pub Grown : Type 0\nGrown = Content\n\n"
                         "-- Whatever other").replace("→ HaveTheSame", "→ Grown → HaveTheSame")
    path.write_text(grown, encoding="utf-8")
    ran = believe("--root", str(root), "--check")
    assert ran.status == 1 and "docs/BELIEVE.md:" in ran.errors

    more = "".join(f"abbrev pub More{n} : Type 0\nMore{n} = {f'More{n - 1}' if n else 'Content'}\n"
                   for n in range(40))
    path.write_text(grown.replace("abbrev pub Grown", more + "abbrev pub Grown").replace(
        "Grown = Content", "Grown = More39"), encoding="utf-8")
    ran = believe("--root", str(root))
    assert ran.status == 1 and "the bound in theorems.toml is" in ran.errors


def test_a_theorem_that_is_not_listed(tmp_path: pathlib.Path) -> None:
    """A call that the README names as a theorem is on the page."""
    root = copy_read_files(tmp_path)
    readme = (root / "README.md").read_text(encoding="utf-8")
    (root / "README.md").write_text(
        readme.replace("(`chunks_are_guarded`)", "(`chunks_are_guarded`, `chunks_are_apart`)"),
        encoding="utf-8")
    ran = believe("--root", str(root), "--check")
    assert ran.status == 1 and "README.md names chunks_are_apart" in ran.errors


def test_a_verdict_of_other_sources(tmp_path: pathlib.Path) -> None:
    """A law more than a verdict counts is found, and so is one less: the file's last, which the
    page does not list."""
    root = copy_read_files(tmp_path)
    path = root / "crates/mte_laws/src/laws.rt"
    text = path.read_text(encoding="utf-8")
    another = "\n/// Another.\npub fn another()\n    ensures { NewChunksAreZero }\n{}\n"
    for changed in (text + another, text[:text.rindex("\n///")]):
        path.write_text(changed, encoding="utf-8")
        ran = believe("--root", str(root), "--check")
        assert ran.status == 1 and "the verdict of mte_laws is of" in ran.errors
