"""Random programs that keep to their chunks, and each with one wrong access that no tag finds:
`mte_run --exact` says nothing of the first, and finds the access of the second."""

import pathlib
import re
import sys

from tests.support.places import EXAMPLES
from tests.support.running import run

PROGRAMS, SECONDS = 120, 300


def test_exact_tells_careful_programs_from_others(
    alone: pathlib.Path, tmp_path: pathlib.Path
) -> None:
    """Those of two seeds; what is told otherwise would be kept in a folder."""
    for seed in ("1", "20260101"):
        words = [str(EXAMPLES / "careful.py"), str(alone), str(PROGRAMS // 2), seed]
        ran = run([sys.executable, *words], cwd=tmp_path, seconds=SECONDS)
        line = r"60 careful programs and 60 with one wrong access: 0 not told as they should be\n"
        assert ran.status == 0 and re.fullmatch(line, ran.output), ran.errors[-2000:]
        assert not (tmp_path / "careless").exists()


def test_check_tells_them_apart_too(alone: pathlib.Path, tmp_path: pathlib.Path) -> None:
    """With `--check` in place of `--exact`, by which the script runs each. They write out only
    bytes that they have read: others would be undefined values."""
    checked = tmp_path / "checked"
    checked.write_text(f"#!/bin/sh\nshift\nexec '{alone}' --check \"$@\"\n", encoding="utf-8")
    checked.chmod(0o755)
    words = [str(EXAMPLES / "careful.py"), "--written", str(checked), str(PROGRAMS), "3"]
    ran = run([sys.executable, *words], cwd=tmp_path, seconds=2 * SECONDS)
    line = r"120 careful programs and 120 with one wrong access: 0 not told as they should be\n"
    assert ran.status == 0 and re.fullmatch(line, ran.output), ran.errors[-2000:]


def test_a_program_that_says_nothing_is_noticed(tmp_path: pathlib.Path) -> None:
    """The script fails, and keeps the image, where a program finds nothing."""
    silent = tmp_path / "silent"
    silent.write_text("#!/bin/sh\nexit 0\n")
    silent.chmod(0o755)
    words = [str(EXAMPLES / "careful.py"), str(silent), "3", "1"]
    ran = run([sys.executable, *words], cwd=tmp_path)
    assert ran.status == 1 and ": 3 not told as they should be\n" in ran.output
    assert len(list((tmp_path / "careless").iterdir())) == 3
