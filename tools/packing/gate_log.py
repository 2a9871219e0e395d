"""The log of a gate (tests/run.sh): the commit, the sums of the programs that it proved, counts."""

import re
from dataclasses import dataclass

COMMIT = re.compile(r"^run\.sh: commit (\w+), changes (none|some)$", re.M)
SUM = re.compile(r"^([0-9a-f]{64})  crates/\w+/out/(mte_\w+)$", re.M)
LAST = re.compile(r"(\d+) passed, (\d+) failed, (\d+) skipped")
# The last line of pytest where a case failed: the gate ends there, with no sums and counts.
STOPPED = re.compile(r"\d+ (failed|errors?)\b.* in [\d.]+s( \([\d:]+\))?")
PROVED = re.compile(r"^logic=proved functions=(\d+)", re.M)


@dataclass(frozen=True)
class Gate:
    """What a log says: the commits that were tried, whether files differed from them, the sums of
    programs by their names, the counts of its last line (none where it has no such line), and that
    line where cases failed and the gate ended there."""

    commits: tuple[str, ...]
    is_changed: bool
    sums: dict[str, str]
    counts: dict[str, int]
    stopped: str

    @property
    def is_whole(self) -> bool:
        """Whether it has all that a gate writes that comes to its end."""
        return bool(self.counts) and len(self.commits) > 1


def read_gate(text: str) -> Gate:
    """What a log says."""
    found = COMMIT.findall(text)
    lines = text.rstrip().splitlines()
    end = lines[-1] if lines else ""
    last = LAST.fullmatch(end)
    counts = dict(zip(("passed", "failed", "skipped"), map(int, last.groups()))) if last else {}
    if last and PROVED.search(text):
        counts["functions"] = sum(map(int, PROVED.findall(text)))
    return Gate(tuple(commit for commit, _ in found), "some" in {it for _, it in found},
                {name: total for total, name in SUM.findall(text)}, counts,
                end if STOPPED.fullmatch(end) else "")


def complaints(gate: Gate, commit: str) -> list[str]:
    """Why a log is not that of a gate which a commit passed."""
    found = []
    if gate.stopped:
        found.append(f"the gate failed, and ended there: {gate.stopped}")
    elif not gate.is_whole:
        found.append("the log is not that of a whole gate: it ends with no counts of tests/run.sh, "
                     "or names no commit at its beginning and its end")
    elif gate.counts["failed"]:
        found.append(f"the gate failed: {gate.counts['failed']} cases")
    other = sorted(set(gate.commits) - {commit})
    if other:
        found.append(f"the gate tried another commit: {other[0]}")
    if gate.is_changed:
        found.append("the gate tried files that differ from the commit")
    return found
