"""Runs drawn programs by `mte_run` and by the reference, and says where they differ."""

from collections import Counter
from dataclasses import dataclass, field
from typing import Any, Optional, Union

from tests.reference import pointers, probes, programs, statistics
from tests.reference.definedness import Use, first_uses
from tests.reference.moments import Moment
from tests.reference.provenance import Finding, first_findings
from tests.reference.runs import Runner, Verdict


@dataclass
class Outcome:
    """What differs, and what was reached: the rules that were needed, the rows that were run, and
    the kinds of what is said, by both."""

    differences: list[str] = field(default_factory=list)
    rules: Counter[str] = field(default_factory=Counter)
    rows: Counter[str] = field(default_factory=Counter)
    ends: Counter[str] = field(default_factory=Counter)

    def add(self, other: "Outcome") -> None:
        """Both together."""
        self.differences += other.differences
        self.rules += other.rules
        self.rows += other.rows
        self.ends += other.ends


def differs(verdict: Verdict, possible: list[Use], certain: Optional[Use]) -> Optional[str]:
    """Whether step, kind, origin and address of an undefined value are others."""
    if verdict.name is None:
        return None if certain is None else "it is not reported"
    named = [it for it in [*possible, *([certain] if certain else [])]
             if (it.step, f"Undefined{it.name}") == (verdict.step, verdict.name)]
    if not named:
        return "another use is reported"
    if not verdict.origins or not verdict.origins <= named[0].origins:
        return "another origin is reported"
    is_other = named[0].name == "Output" and named[0].address != verdict.address
    return "another byte is reported" if is_other else None


def differs_of_pointers(verdict: Verdict, possible: list[Finding],
                        certain: Optional[Finding]) -> Optional[str]:
    """Whether step, kind, byte and chunk of a wrong use are others."""
    if verdict.name is None:
        return None if certain is None else "it is not reported"
    if verdict.step in [it.step for it in possible]:
        return None
    if certain is None or (certain.step, certain.name) != (verdict.step, verdict.name):
        return "another use is reported"
    if certain.address != verdict.address:
        return "another byte is reported"
    return None if certain.origins & verdict.origins else "another chunk is reported"


def counted_wrongly(moments: list[Moment], document: dict[str, Any]) -> Optional[str]:
    """Where the statistics differ from what the trace has."""
    counted = statistics.counted(moments)
    told = {name: document["statistics"][name] for name in counted}
    return None if told == counted else f"statistics {told} for {counted}"


def result(seed: int, moments: list[Moment], document: dict[str, Any], verdict: Verdict,
           difference: Optional[str], certain: Union[Use, Finding, None],
           rules: Counter[str]) -> Outcome:
    """What came of a program."""
    found = Outcome(rules=rules, rows=Counter(it.instruction.row for it in moments))
    found.ends[verdict.name or "none"] += 1
    if document["status"]["kind"] != "exit":
        found.differences.append(f"seed {seed}: it ends by {document['status']}")
    elif wrong := counted_wrongly(moments, document):
        found.differences.append(f"seed {seed}: {wrong}")
    if difference:
        found.differences.append(
            f"seed {seed}: {difference}: step {verdict.step}, {verdict.name}, "
            f"{sorted(verdict.origins)} for {certain}")
    return found


def undefined_values(runner: Runner, seed: int) -> Outcome:
    """A program with undefined values. Where nothing has been said of its body, it is looked at
    which bits are defined at its end, and one that is not is used."""
    program = programs.draw(seed)
    moments, _ = runner.trace(program.words)
    possible, certain, state = first_uses(moments)
    probes.end(program, state, is_over=bool(possible or certain))
    moments, document = runner.trace(program.words, "--statistics")
    possible, certain, state = first_uses(moments)
    verdict = runner.check(program.words, "undefined")
    return result(seed, moments, document, verdict, differs(verdict, possible, certain), certain,
                  state.rules)


def wrong_pointers(runner: Runner, seed: int) -> Outcome:
    """A program that moves pointers, and uses them at its end in and outside their chunks."""
    program = pointers.draw(seed)
    moments, _ = runner.trace(program.words)
    _, certain, state = first_findings(moments)
    assert certain is None, f"seed {seed}: {certain}"
    pointers.end(program, state, moments[-1].after)
    moments, document = runner.trace(program.words, "--statistics")
    possible, certain, state = first_findings(moments)
    verdict = runner.check(program.words, "provenance")
    difference = differs_of_pointers(verdict, possible, certain)
    return result(seed, moments, document, verdict, difference, certain, state.rules)
