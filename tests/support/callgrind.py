"""What a program costs, in instructions of this machine."""

import pathlib
import re
from collections.abc import Mapping, Sequence
from typing import Optional

from tests.support.running import Word, run, succeed
from tests.support.tools import need

# Has workers of Python ended by a signal that callgrind knows: one that is killed says nothing.
GENTLE = """from multiprocessing.process import BaseProcess
BaseProcess.kill = BaseProcess.terminate
"""


def instructions(
    words: Sequence[Word], folder: pathlib.Path, cwd: Optional[pathlib.Path] = None
) -> int:
    """How many instructions of this machine a program takes."""
    need("valgrind")
    counts = folder / "callgrind.out"
    counted = ["valgrind", "--tool=callgrind", f"--callgrind-out-file={counts}", *words]
    ran = run(counted, cwd=cwd)
    found = re.search(r"Collected : (\d+)", ran.errors)
    assert found, ran.errors
    return int(found[1])


def instructions_of_all(words: Sequence[Word], folder: pathlib.Path,
                        extra: Mapping[str, str]) -> int:
    """How many instructions a program in Python takes with the processes that it forks."""
    need("valgrind")
    folder.mkdir()
    (folder / "sitecustomize.py").write_text(GENTLE, encoding="utf-8")
    # A process that was forked has the counts of the other: it begins with zero.
    succeed(["valgrind", "-q", "--tool=callgrind", "--zero-before=PyOS_AfterFork_Child",
             f"--callgrind-out-file={folder}/counts.%p", *words],
            extra={**extra, "PYTHONPATH": str(folder)})
    found = [re.findall(r"^totals: (\d+)$", it.read_text(errors="replace"), re.M)
             for it in folder.glob("counts.*")]
    assert len(found) > 1 and all(found), found
    return sum(int(count) for its in found for count in its)
