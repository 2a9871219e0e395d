"""A store's metrics, which count what its sessions' reports say, and its bound, by which the oldest
answers go that a run does not need."""

import importlib.util
import os
import pathlib
import random
import re
import shutil
import subprocess
import sys
import time
from collections import Counter
from collections.abc import Iterator
from typing import Any

import pytest

from tests.support.batches import BATCH, Batch, summary
from tests.support.drawn_sessions import write_sessions
from tests.support.library import shared_object
from tests.support.places import EXAMPLES
from tests.support.running import run, succeed
from tests.support.tools import give_up

COUNT, SEEDS = 24, range(5)


@pytest.fixture
def made(shared: pathlib.Path, tmp_path: pathlib.Path) -> Batch:
    """Drawn sessions, of which one has a faulty script."""
    write_sessions(tmp_path / "sessions", range(COUNT))
    with open(tmp_path / "sessions" / "drawn-000005" / "script", "a", encoding="utf-8") as file:
        file.write("\nslice\n")
    return Batch(tmp_path / "sessions", {"TOMBOLOPAN": str(shared_object(shared))})


def metrics(store: pathlib.Path) -> tuple[str, dict[str, int]]:
    """The metrics of a store: their text, and each value by its name and label."""
    text = succeed(["python3", BATCH, "metrics", store]).output
    rows = (it.rsplit(" ", 1) for it in text.splitlines() if not it.startswith("#"))
    return text, {name: int(value) for name, value in rows}


# What is in it

@pytest.mark.parametrize("options", [(), ("--split", "--share", "1/1"), ("--steps", "40000")])
def test_metrics(made: Batch, options: tuple[str, ...]) -> None:
    """Sessions, tenants and steps are those of the results, also of sessions that ran in parts or
    have no script; bytes are those of the files."""
    told = made.told(*options)
    found = metrics(made.store)[1]
    tenants = [tenant for it in told["sessions"] for tenant in it.get("tenants", ())]
    kinds = Counter(it["status"]["kind"] for it in tenants)
    assert {it: found[f'tombolopan_store_tenants{{end="{it}"}}'] for it in kinds} == kinds
    assert found["tombolopan_store_steps"] == sum(it["steps"] for it in tenants)
    words = Counter("faulty script" if it["status"] else it["verdict"] for it in told["sessions"])
    assert words["faulty script"] == 1
    for word in ("answered", "faulty script", "no script"):
        assert found[f'tombolopan_store_sessions{{word="{word}"}}'] == words[word]
    assert found["tombolopan_store_bytes"] == sum(
        it.stat().st_size for it in made.store.iterdir())


def test_the_format(made: Batch) -> None:
    """Prometheus' own check, or the parser of its client, takes the text; an empty store has the
    same metrics."""
    empty = made.sessions.with_name("empty")
    empty.mkdir()
    assert made.run().status == 0
    names = {it: set(metrics(it)[1]) for it in (made.store, empty)}
    assert names[made.store] == names[empty]
    for store in names:
        text = metrics(store)[0]
        if shutil.which("promtool"):
            ran = run(["promtool", "check", "metrics"], stdin=text.encode())
            assert (ran.status, ran.output + ran.errors) == (0, "")
        elif importlib.util.find_spec("prometheus_client"):
            parser: Any = importlib.import_module("prometheus_client.parser")
            families = list(parser.text_string_to_metric_families(text))
            assert {it.name for it in families} == {re.split("{", it)[0] for it in names[store]}
        else:
            give_up("missing: promtool (Debian: prometheus) or python3-prometheus-client")


def test_no_store(made: Batch, tmp_path: pathlib.Path) -> None:
    """What is no folder has no metrics."""
    ran = run(["python3", BATCH, "metrics", tmp_path / "absent"])
    assert (ran.status, ran.output) == (2, "") and "is no store" in ran.errors
    assert not (tmp_path / "absent").exists()


# How large it may be

def records(store: pathlib.Path) -> Iterator[tuple[str, int]]:
    """The key and the bytes of each answer, the oldest first."""
    for path in sorted(store.iterdir(), key=lambda it: it.stat().st_mtime_ns):
        for part in re.split(rb"(?=^tombolopan answer )", path.read_bytes(), flags=re.M):
            if part:
                yield part.split(b" ")[2].decode(), len(part)


def subset(made: Batch, draw: random.Random, name: str) -> Batch:
    """Some of the sessions, by the same store."""
    folder = made.sessions.with_name(name)
    for it in draw.sample(sorted(made.sessions.iterdir()), draw.randint(1, COUNT)):
        shutil.copytree(it, folder / it.name)
    return Batch(folder, made.extra, (*made.options, "--store", made.store))


@pytest.mark.parametrize("seed", SEEDS)
def test_a_bound(made: Batch, seed: int) -> None:
    """Runs of some sessions each leave a store that has not more bytes than the bound, or only what
    they needed. What went is the oldest of the others, and no more than had to; its number is
    said."""
    draw = random.Random(seed)
    for number in range(4):
        some = subset(made, draw, f"some-{number}")
        before = list(records(made.store)) if made.store.exists() else []
        assert some.run().status == 0
        now = list(records(made.store))
        most = draw.randrange(sum(size for _, size in now) + 1)
        told = some.told("--store-bytes", str(most))
        needed = {it["key"] for it in told["sessions"]}
        left, total = list(now), sum(size for _, size in now)
        for it in now:
            if total > most and it[0] not in needed:
                left.remove(it)
                total -= it[1]
        assert list(records(made.store)) == left and before is not None
        assert told["work"]["dropped"] == len(now) - len(left)
        count = len(list(some.sessions.iterdir()))
        assert summary(some.run())[1] == f"0 run, {count} kept"
    assert made.run().status == 0


def test_a_bound_is_said(made: Batch) -> None:
    """How many answers went is a number of what is said."""
    assert made.run().status == 0
    shutil.rmtree(made.sessions / "drawn-000000")
    ran = made.run("--store-bytes", "0")
    assert summary(ran)[1] == f"0 run, {COUNT - 1} kept, 1 dropped from the store"


def test_another_run_is_under_way(made: Batch, tmp_path: pathlib.Path) -> None:
    """The file of a run that is under way is left alone: it has its first bundle."""
    succeed([sys.executable, EXAMPLES / "many" / "make_sessions.py", made.sessions / "more", "70"])
    slow = made.going_wrong("time.sleep(0.05)")
    words = [str(it) for it in slow.words("--jobs", "1")]
    with subprocess.Popen(words, env={**os.environ, **slow.extra},
                          stdout=subprocess.DEVNULL) as begun:
        while not (made.store.exists() and any(it.stat().st_size for it in made.store.iterdir())):
            assert begun.poll() is None
            time.sleep(0.01)
        shutil.copytree(made.sessions / "drawn-000001", tmp_path / "one" / "drawn-000001")
        one = Batch(tmp_path / "one", made.extra, ("--store", made.store, "--store-bytes", "0"))
        assert one.run().status == 0 and begun.poll() is None
    assert begun.returncode == 0
    assert summary(made.run())[1] == f"0 run, {COUNT + 70} kept"
