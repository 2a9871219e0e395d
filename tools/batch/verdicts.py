"""What is said of each session, and of all of them."""

from collections import Counter
from collections.abc import Iterable
from dataclasses import dataclass
from typing import Any

from batch.answers import Answer, ends_of, output_of
from batch.reports import refused_of, tenants_of
from batch.sessions import Session

WANTED = "as wanted"
DIFFERENT = "different"
ANSWERED = "answered"
LOST = "lost"
DISPUTED = "disputed"
NO_SESSION = "no session"
NO_SCRIPT = "no script"
# Each verdict, and whether a session that has it is right.
VERDICTS = {WANTED: True, DIFFERENT: False, ANSWERED: True, LOST: False, DISPUTED: False,
            NO_SESSION: False, NO_SCRIPT: False}
# How the answer came: from the store, by a run, by a run in place of what was damaged in the store.
KEPT, RAN, MENDED = "kept", "run", "mended"


@dataclass(frozen=True)
class Verdict:
    """What became of a session: one of VERDICTS, why, how the answer came, the exit status, the
    key, its tenants and its refused events."""

    name: str
    verdict: str
    why: str = ""
    source: str = ""
    status: int | None = None
    key: str = ""
    tenants: tuple[dict[str, Any], ...] = ()
    refused: tuple[dict[str, Any], ...] = ()


@dataclass
class Work:
    """What a run did beside its verdicts: the sum of its program, how often sessions were lost and
    tried again, how many parts of sessions were run and kept, how many answers could not be kept
    and why, how many the store was rid of, how many were run elsewhere too, and how many of these
    were lost there."""

    program: str = ""
    retries: int = 0
    parts_run: int = 0
    parts_kept: int = 0
    unkept: int = 0
    why_unkept: str = ""
    dropped: int = 0
    checked: int = 0
    unchecked: int = 0
    why_unchecked: str = ""


def different_parts(answer: Answer, wanted: dict[str, bytes]) -> list[str]:
    """The parts of an answer that are not as wanted. Where an output is wanted, so is that each
    tenant exits with 0."""
    status = f"{answer.status}\n".encode()
    got = {"out": answer.out, "err": answer.err, "status": status}
    if "output" in wanted:
        got["output"] = output_of(answer)
    different = [part for part, text in wanted.items() if got[part] != text]
    if "output" in wanted:
        different += [end for end in ends_of(answer) if end != "exit 0"][:1]
    return different


def judge(session: Session, answer: Answer, source: str) -> Verdict:
    """The verdict of a session that is answered."""
    different = ", ".join(different_parts(answer, session.wanted))
    verdict = DIFFERENT if different else WANTED if session.wanted else ANSWERED
    if session.beyond:
        verdict, different = NO_SCRIPT, session.beyond
    key = "" if session.job is None else session.job.key
    return Verdict(session.name, verdict, different, source, answer.status, key,
                   tuple(tenants_of(answer.out)), tuple(refused_of(answer.out)))


def is_right(verdicts: Iterable[Verdict], work: Work) -> bool:
    """Whether nothing is different, lost or disputed, and all was kept and checked that should."""
    return (all(VERDICTS[it.verdict] for it in verdicts) and not work.unkept
            and not work.unchecked)


def shown(text: str) -> str:
    """A text as a terminal may have it: names and lines of others may have anything."""
    return text if text.isprintable() else ascii(text)[1:-1]


def lines_of(verdicts: list[Verdict], work: Work) -> list[str]:
    """What is written: the sessions that are not right, and the numbers."""
    lines = [shown(f"{it.verdict}: {it.name}: {it.why}")
             for it in verdicts if not VERDICTS[it.verdict]]
    found = Counter(it.verdict for it in verdicts)
    lines.append(", ".join(f"{found[it]} {it}" for it in VERDICTS
                           if found[it] or it in (WANTED, DIFFERENT)))
    sources = Counter(it.source for it in verdicts)
    told = [f"{sources[RAN] + sources[MENDED]} run", f"{sources[KEPT]} kept"]
    if work.parts_run or work.parts_kept:
        told.append(f"in {work.parts_run} parts run, {work.parts_kept} parts kept")
    for count, text in ((sources[MENDED], "mended"), (work.retries, "tried again"),
                        (work.unkept, f"not stored: {shown(work.why_unkept)}"),
                        (work.dropped, "dropped from the store"),
                        (work.checked, "run elsewhere too"),
                        (work.unchecked, f"lost elsewhere: {shown(work.why_unchecked)}")):
        if count:
            told.append(f"{count} {text}")
    lines.append(", ".join(told))
    return lines
