"""What a run and its report cost: instructions by callgrind, and seconds for hostile images."""

import pathlib
import resource
from collections.abc import Sequence

import pytest

from tests.support import hostile_images
from tests.support.callgrind import instructions
from tests.support.places import EXAMPLES
from tests.support.running import Word, run, succeed
from tests.support.samples import tenant
from tests.support.tools import need

MEMORY = 256 * 1024 * 1024


MANY_PAGES = """#include "tenant.h"
int main(void)
{
    char *last = 0;
    for (int i = 0; i < COUNT; i++)
        last = tenant_malloc(SIZE);
    tenant_free(last);
    return *(volatile char *)last;
}
"""


def many_pages(folder: pathlib.Path, count: int, size: int) -> pathlib.Path:
    """A tenant that allocates and then reads what it freed."""
    need("clang", "ld.lld")
    source = folder / f"pages_{count}_{size}.c"
    text = MANY_PAGES.replace("COUNT", str(count)).replace("SIZE", str(size))
    source.write_text(text, encoding="utf-8")
    return tenant(folder, source)


def session(host: pathlib.Path, image: pathlib.Path, slices: int) -> list[Word]:
    """The words of a session of one tenant."""
    script = image.parent / "script"
    script.write_text(
        "admit 1 image 1 input 0 seed 0000000000000001 frames 4096 out 65536\n"
        + "slice 1 1048576\n" * slices, encoding="utf-8")
    return [host, "--frames", "8193", script, image]


def test_a_report_costs_what_is_told(
    alone: pathlib.Path, host: pathlib.Path, tmp_path: pathlib.Path
) -> None:
    """With 3,000 pages mapped, a run that is told takes at most 1.2 times two sessions of the
    tenant: it runs unwatched and watched, and what is told takes little beside that."""
    image = many_pages(tmp_path, 24, 500_000)
    ours = instructions([alone, image], tmp_path)
    assert ours <= 1.2 * 2 * instructions(session(host, image, 1), tmp_path)


def test_a_clean_run_costs_what_a_session_costs(
    alone: pathlib.Path, host: pathlib.Path, tmp_path: pathlib.Path
) -> None:
    """A tenant that exits takes about the instructions of its session, at most 15 percent more."""
    need("clang", "ld.lld")
    image = tenant(tmp_path, EXAMPLES / "c" / "hash.c")
    words: list[Word] = [alone, "--steps", "100000000", image]
    assert succeed(words).status == 0
    ours = instructions(words, tmp_path)
    assert ours <= 1.15 * instructions(session(host, image, 12), tmp_path) + 2_000_000


@pytest.mark.parametrize("is_nested", [False, True])
def test_a_trace_does_not_depend_on_the_number_of_symbols(
    alone: pathlib.Path, tmp_path: pathlib.Path, is_nested: bool
) -> None:
    """600,000 symbols are sorted once; then a line costs as much as among ten."""
    costs = []
    for count in (10, 600_000):
        image, trace = tmp_path / f"{count}.elf", tmp_path / "trace"
        image.write_bytes(hostile_images.with_symbols(count, 50_000, is_nested))
        lines = []
        for last in (100, 20_100):
            words: list[Word] = [alone, f"--trace=1-{last}", "--trace-file", trace, image]
            lines.append(instructions(words, tmp_path))
        costs.append(lines[1] - lines[0])
    assert costs[1] <= 1.3 * costs[0], costs


def user_seconds(words: Sequence[Word]) -> float:
    """The processor time that a run takes, within its bound of memory."""
    before = resource.getrusage(resource.RUSAGE_CHILDREN).ru_utime
    ran = run(words, memory=MEMORY)
    assert ran.status >= 0 and "out of memory" not in ran.errors, ran.errors
    return resource.getrusage(resource.RUSAGE_CHILDREN).ru_utime - before


@pytest.mark.parametrize("rows, files", [(15_500_000, 1000), (1000, 3_900_000)])
@pytest.mark.parametrize("words", [("--leaks",), ("--leaks", "--calls", "64", "--json", "told")])
def test_leaks_over_a_large_line_table(
    alone: pathlib.Path, tmp_path: pathlib.Path, rows: int, files: int, words: tuple[str, ...]
) -> None:
    """256 places over 16 MB of lines take below two seconds."""
    image = tmp_path / "lines.elf"
    image.write_bytes(hostile_images.with_lines(rows, files, 256))
    named = [str(tmp_path / word) if word == "told" else word for word in words]
    assert user_seconds([alone, *named, image]) < (4 if "told" in words else 2)
