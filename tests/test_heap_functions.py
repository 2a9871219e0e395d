"""`mte_run --check` by the names of functions that make and free chunks: which names are known,
which of them belong together, and findings that are hidden by such names."""

import itertools
import pathlib

import pytest

from tests.support.once import make_once
from tests.support.running import Ran, run, succeed
from tests.support.tools import need

# The functions by their linker's names (Itanium C++ ABI 5.1.4.3), and what each makes or frees;
# placement forms, members and names of others do neither.
NAMES = {
    "malloc": "malloc", "calloc": "malloc", "reallocarray": "realloc", "free": "free",
    "_Znwm": "operator new", "_ZnwmRKSt9nothrow_t": "operator new", "_ZnwmPv": "",
    "_Znam": "operator new[]", "_ZdlPvmSt11align_val_t": "operator delete", "_ZdlPvS_": "",
    "_ZdaPv": "operator delete[]", "_ZN4TreenwEm": "", "my_free": "",
}
C, OBJECT, ARRAY = range(3)
MAKES = {"malloc": C, "realloc": C, "operator new": OBJECT, "operator new[]": ARRAY}
FREES = {"free": C, "realloc": C, "operator delete": OBJECT, "operator delete[]": ARRAY}
FREE, REALLOC = 4, 6
CAUSE = "Cause: [check]: Mismatched Free of a 40-byte allocation at "
# The function that takes the size of what it frees: it is called with 80.
SIZED = "_ZdlPvmSt11align_val_t"
# Calls the functions that two bytes of the input name: the first makes a chunk of 40 bytes, the
# second frees it or makes it larger, as the third byte says. Each function is a service alone.
START = """
.globl _start
_start:
    sub sp, sp, #32
    mov x0, sp
    mov x1, #3
    mov x8, #2
    svc #0
    adr x21, functions
    ldrb w19, [sp]
    add x19, x21, x19, lsl #3
    mov x0, #40
    mov x8, #3
    blr x19
    ldrb w19, [sp, #1]
    add x19, x21, x19, lsl #3
    mov x1, #80
    ldrb w8, [sp, #2]
    blr x19
    mov x0, #0
    mov x8, #0
    svc #0
functions:
"""


@pytest.fixture(name="image")
def image_of_functions(shared: pathlib.Path) -> pathlib.Path:
    """The tenant with each function once."""
    need("clang", "ld.lld")

    def build(path: pathlib.Path) -> None:
        made = [f".globl {it}\n.type {it}, %function\n{it}: svc #0\nret\n.size {it}, 8\n"
                for it in NAMES]
        source = path.with_suffix(".s")
        source.write_text(START + "".join(made), encoding="ascii")
        succeed(["clang", "--target=aarch64-linux-gnu", "-fuse-ld=lld", "-nostdlib", "-static",
                 "-o", path, source])

    return make_once(shared / "heap_functions.elf", build)


def checked(alone: pathlib.Path, image: pathlib.Path, folder: pathlib.Path, maker: str, freer: str,
            service: int = FREE, *words: str) -> Ran:
    """What is said where one function makes a chunk and another frees it."""
    names = list(NAMES)
    given = folder / "input"
    given.write_bytes(bytes([names.index(maker), names.index(freer), service]))
    return run([alone, "--check=frees", "--input", given, *words, image])


def test_functions_that_belong_together(
    alone: pathlib.Path, image: pathlib.Path, tmp_path: pathlib.Path
) -> None:
    """Each name with each other: a chunk is freed by a function of its maker's kind, and of its
    size. A name that makes nothing, or that frees nothing, is never reported."""
    for maker, freer in itertools.product(NAMES, NAMES):
        made, freed = MAKES.get(NAMES[maker]), FREES.get(NAMES[freer])
        ran = checked(alone, image, tmp_path, maker, freer)
        size = " as one of 80 bytes" if freer == SIZED else ""
        if made is None or freed is None or made == freed and not size:
            assert ran.status == 0 and "Cause" not in ran.errors, (maker, freer, ran.errors)
            continue
        cause = CAUSE.replace("Free", "Size") if made == freed else CAUSE
        line = next(it for it in ran.errors.splitlines() if it.startswith(cause))
        assert ran.status == 137, (maker, freer, ran.errors)
        assert line.endswith(f"made by {NAMES[maker]} and freed by {NAMES[freer]}{size}"), line


def test_chunks_that_are_made_larger(
    alone: pathlib.Path, image: pathlib.Path, tmp_path: pathlib.Path
) -> None:
    """A function with a name of realloc frees what functions of C make, and no other chunk."""
    for maker, is_reported in (("malloc", False), ("reallocarray", False), ("_Znwm", True),
                           ("_Znam", True)):
        ran = checked(alone, image, tmp_path, maker, "reallocarray", REALLOC)
        assert (CAUSE in ran.errors) == is_reported, (maker, ran.errors)
        assert is_reported == (ran.status == 137)


@pytest.mark.parametrize(("line", "is_hidden"), [
    ("frees operator delete(void*, unsigned long, std::align_val_t) *", True),
    ("frees operator* *", True), ("frees operator* *\r", True), ("# one\r\n\r\n* * *\r", True),
    ("frees operator delete(void*) *", False), ("* * heap.c", False),
    ("undefined operator* *", False),
])
def test_names_with_blanks_are_hidden(alone: pathlib.Path, image: pathlib.Path,
                                      tmp_path: pathlib.Path, line: str, is_hidden: bool) -> None:
    """The function of a line has blanks, and the line may end by CR LF; a file that is not known
    is matched by * alone."""
    lines = tmp_path / "suppressions"
    lines.write_bytes(f"{line}\n".encode())
    ran = checked(alone, image, tmp_path, "malloc", "_ZdlPvmSt11align_val_t", FREE,
                  "--suppressions", str(lines))
    assert (CAUSE in ran.errors) != is_hidden, ran.errors
    assert ran.status == (0 if is_hidden else 137)
