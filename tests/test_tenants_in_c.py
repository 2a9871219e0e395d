"""The tenants of examples/c, by clang and gcc at -O0, -O2 and -Os: the report of the host and what
mte_run tells are what their comments expect, and their calls are those of AddressSanitizer."""

import pathlib
import shutil
from typing import Optional

import pytest

from tests.support import asan
from tests.support.c_tenants import (
    COMPILERS, FOLDER, LEVELS, Tenant, build, report_of, run_alone, tenants,
)
from tests.support.pictures import read_svg
from tests.support.running import Ran, run
from tests.support.told import UNSEEN
from tests.support.tools import give_up, need

FAULT, ABORT = 129, 131


def need_compiler(compiler: str) -> None:
    """The compiler and its linker."""
    need(COMPILERS[compiler][0])
    if compiler == "clang":
        need("ld.lld")


@pytest.fixture(scope="module", params=[tenant.name for tenant in tenants()])
def tenant(request: pytest.FixtureRequest) -> Tenant:
    """Each tenant of the folder."""
    return Tenant(FOLDER / f"{request.param}.c")


@pytest.fixture(scope="module", params=[(name, level) for name in COMPILERS for level in LEVELS],
                ids="".join)
def image(
    request: pytest.FixtureRequest, tenant: Tenant, tmp_path_factory: pytest.TempPathFactory
) -> pathlib.Path:
    """Its image by each compiler at each level."""
    compiler, level = request.param
    need_compiler(compiler)
    return build(tenant, compiler, level, tmp_path_factory.mktemp("tenant") / "image.elf")


def test_a_tenant_is_told_as_its_comment_expects(
    host: pathlib.Path, alone: pathlib.Path, tenant: Tenant, image: pathlib.Path
) -> None:
    """The report, the exit status, the cause, the output and the picture."""
    report = report_of(host, tenant, image)
    lines = report.splitlines()
    for text in tenant.values("expect"):
        assert any(text in line for line in lines), report
    picture = image.parent / "heap.svg"
    ran = run_alone(alone, tenant, image, "--map", str(picture))
    assert ran.status == tenant.ends, ran.errors
    for text in tenant.values("cause"):
        assert any(text in line for line in ran.errors.splitlines()), ran.errors
    output = f"output {len(ran.out)} {ran.out.hex()}".strip()
    assert output in lines
    marks = [row for row in read_svg(picture.read_text()).rows if row.marked is not None]
    assert len(marks) == (1 if tenant.ends in (FAULT, ABORT) else 0)


def test_exact_says_nothing_of_a_tenant_that_exits(
    request: pytest.FixtureRequest, alone: pathlib.Path, tenant: Tenant, image: pathlib.Path
) -> None:
    """Its accesses keep to its chunks; of those that take seconds one image is tried."""
    is_tried = not tenant.is_long or "clang-O2" in request.node.name
    if tenant.ends in (FAULT, ABORT) or not is_tried:
        return
    plain, exact = (run_alone(alone, tenant, image, *words) for words in ((), ("--exact",)))
    assert (exact.status, exact.out) == (plain.status, plain.out)
    assert exact.errors == plain.errors.replace(UNSEEN + "\n", "")


@pytest.fixture(scope="module")
def native(tenant: Tenant, tmp_path_factory: pytest.TempPathFactory) -> dict[str, list[str]]:
    """The calls that AddressSanitizer tells of the same source, compiled for this machine."""
    compiler: Optional[str] = asan.compiler()
    if compiler is None:
        give_up("no compiler of this machine has AddressSanitizer")
    program = tmp_path_factory.mktemp("native") / tenant.name
    asan.compile_natively(str(compiler), tenant.source, program)
    return asan.names_by_sanitizer(asan.run_natively(program, tenant.input).errors)


WRONG = [tenant.name for tenant in tenants() if tenant.ends in (FAULT, ABORT)]


@pytest.mark.parametrize("tenant", WRONG, indirect=True, scope="module")
def test_calls_are_those_of_address_sanitizer(
    alone: pathlib.Path, tenant: Tenant, image: pathlib.Path, native: dict[str, list[str]]
) -> None:
    """The functions that led to the end, to the allocation and to the free, natively."""
    need("llvm-symbolizer")
    assert "end" in native, "AddressSanitizer tells nothing"
    ours = asan.names_told(run_alone(alone, tenant, image).errors, image.parent)
    assert {kind: ours[kind] for kind in native} == native


@pytest.fixture
def makefile(alone: pathlib.Path, tmp_path: pathlib.Path) -> pathlib.Path:
    """A copy of the folder, in which make may write, with the program."""
    need("make", "clang", "ld.lld")
    left_out = shutil.ignore_patterns("out")
    folder = pathlib.Path(shutil.copytree(FOLDER, tmp_path / "c", ignore=left_out))
    (folder / "mte_run").symlink_to(alone)
    return folder


def make(folder: pathlib.Path, *words: str) -> Ran:
    """Runs make there, also where another make runs the tests."""
    return run(["make", "--no-print-directory", *words], cwd=folder, extra={"MAKEFLAGS": ""})


def test_make_runs_a_tenant(makefile: pathlib.Path) -> None:
    """`make hello.run`: its output, and its status where that is not 0."""
    ran = make(makefile, "hello.run", "ALONE=./mte_run")
    assert ran.status == 0 and ran.output.endswith("Hello, host\nended with 7\n"), ran.errors


def test_make_draws_a_heap(makefile: pathlib.Path) -> None:
    """`make heap_overflow.svg`, also by gcc at another level."""
    need("aarch64-linux-gnu-gcc")
    for compiler, level in (("clang", "-O2"), ("gcc", "-Os")):
        by = [f"COMPILER={compiler}", f"LEVEL={level}", "ALONE=./mte_run"]
        ran = make(makefile, "heap_overflow.svg", *by)
        end = "ended with 129\ndrawn: out/heap_overflow.svg\n"
        assert ran.status == 0 and ran.output.endswith(end), ran.errors
        drawn = (makefile / "out/heap_overflow.svg").read_text()
        assert "Buffer Overflow, 8 bytes right of a 24-byte" in read_svg(drawn).title


def test_make_says_what_is_not_there(makefile: pathlib.Path) -> None:
    """Where the program has not been built."""
    ran = make(makefile, "hello.run", "ALONE=absent/mte_run")
    assert ran.status == 2 and "absent/mte_run is not there. Build it, with proof or" in ran.errors
