"""What is in a store, in the text format of Prometheus: for its node_exporter's textfiles."""

import pathlib
from collections import Counter
from collections.abc import Mapping
from dataclasses import dataclass, field

from batch.answers import OK, Answer, after_further
from batch.reports import tenants_of
from batch.store import Store
from batch.verdicts import ANSWERED, NO_SCRIPT

FAULTY = "faulty script"
NAME = "tombolopan_store"
# How a tenant may have ended, as docs/REPORT.md has it.
ENDS = ("running", "stopped", "exit", "fault", "illegal", "breakpoint", "async", "abort")


@dataclass
class Totals:
    """What the answers of a store say."""

    sessions: Counter[str] = field(default_factory=Counter)
    tenants: Counter[str] = field(default_factory=Counter)
    steps: int = 0
    records: int = 0

    def add(self, answer: Answer) -> None:
        """Counts an answer. One that has only slices leads to another."""
        self.records += 1
        report = after_further(answer.out)
        if answer.status != OK:
            self.sessions[FAULTY] += 1
        elif report == answer.out:
            self.sessions[ANSWERED] += 1
        elif report:
            self.sessions[NO_SCRIPT] += 1
        for tenant in tenants_of(report):
            self.tenants[tenant["status"]["kind"]] += 1
            self.steps += tenant["steps"]


def totals_of(store: Store) -> Totals:
    """What all answers of a store say."""
    found = Totals()
    for key in store.keys():
        answer = store.get(key)
        if answer is not None:
            found.add(answer)
    return found


def metric(name: str, says: str, values: Mapping[str, int]) -> list[str]:
    """The lines of a metric: a value for each label, or one for none."""
    return [f"# HELP {NAME}_{name} {says}.", f"# TYPE {NAME}_{name} gauge",
            *(f"{NAME}_{name}{label} {value}" for label, value in values.items())]


def metrics_of(folder: pathlib.Path) -> str:
    """The metrics of a store."""
    store = Store(folder)
    found = totals_of(store)
    store.close()
    words = {f'{{word="{it}"}}': found.sessions[it] for it in (ANSWERED, FAULTY, NO_SCRIPT)}
    ends = {f'{{end="{it}"}}': found.tenants[it] for it in ENDS}
    lines = [
        *metric("sessions", "Sessions that are answered, by what came of them", words),
        *metric("tenants", "Tenants of these sessions, by how they ended", ends),
        *metric("steps", "Steps of these tenants in all", {"": found.steps}),
        *metric("records", "Answers that may be taken", {"": found.records}),
        *metric("bytes", "Bytes of the files", {"": store.size()})]
    return "".join(f"{it}\n" for it in lines)
