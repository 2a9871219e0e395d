"""Examples of how the queues of others run tools/batch: units of systemd, an image of Docker, a
cluster of Dask and an array of Slurm, each by its own lines, over paths of this machine."""

import json
import os
import pathlib
import re
import shlex
import shutil
import signal
import subprocess
import sys

import pytest

from tests.support.batches import Batch, summary
from tests.support.library import shared_object
from tests.support.places import EXAMPLES, ROOT
from tests.support.running import HANG, run, succeed
from tests.support.slurm import cluster, free_ports
from tests.support.tools import give_up, need

MANY = EXAMPLES / "many"
COUNT = 12
RIGHT = f"{COUNT} as wanted, 0 different"
# More than a session of make_sessions.py allows, and less than all of them do.
SOME, ENOUGH = 300, 100_000


@pytest.fixture
def made(shared: pathlib.Path, tmp_path: pathlib.Path) -> Batch:
    """Sessions of one user, whose folder is in another one."""
    folder = tmp_path / "sessions"
    succeed([sys.executable, MANY / "make_sessions.py", folder / "user", str(COUNT)])
    return Batch(folder, {"TOMBOLOPAN": str(shared_object(shared))})


def here(line: str, made: Batch) -> list[str]:
    """The words of a command over the paths of a machine with the Debian packages, over those of
    the case."""
    paths = {"/usr/share/tombolopan": ROOT, "/usr/bin/python3": sys.executable,
             "/srv/tombolopan/sessions": made.sessions, "/sessions": made.sessions,
             "/var/lib/tombolopan/store": made.store, "/store": made.store,
             "/var/lib/tombolopan/reports": made.sessions.with_name("reports"),
             "python3": sys.executable}
    known = next((it for it in shlex.split(line) if it.startswith("/usr/share/tombolopan/")), "")
    assert known == "/usr/share/tombolopan/tools/batch"
    return [str(paths.get(it, it)).replace("/usr/share/tombolopan", str(ROOT))
            for it in shlex.split(line)]


def test_units_of_systemd(made: Batch, tmp_path: pathlib.Path) -> None:
    """systemd takes both without a word; the service's command writes the reports."""
    need("systemd-analyze")
    units = [shutil.copy(MANY / f"tombolopan-batch.{it}", tmp_path) for it in ("service", "path")]
    ran = succeed(["systemd-analyze", "verify", "--man=no", "--recursive-errors=no", *units])
    assert "tombolopan" not in ran.errors, ran.errors
    text = (MANY / "tombolopan-batch.service").read_text().replace("\\\n", "")
    line, = re.findall(r"^ExecStart=(.+)$", text, re.M)
    for words in (here(line, made), here(line.replace("1000000000000", str(SOME)), made)):
        ran = run(words, extra=made.extra)
        if str(SOME) in words:
            assert ran.status == 2 and "the sessions of user allow" in ran.errors
        else:
            assert (ran.status, summary(ran)[0]) == (0, RIGHT), ran.errors
    assert len(list((tmp_path / "reports").glob("user/*.out"))) == COUNT


def test_image_of_docker(made: Batch) -> None:
    """Its entry runs a folder of sessions; the packages that it installs are those of a folder."""
    text = (MANY / "Dockerfile").read_text().replace("\\\n", "")
    steps = dict(re.findall(r"^([A-Z]+) (.+)$", text, re.M))
    assert list(steps) == ["FROM", "COPY", "RUN", "ENTRYPOINT"] and steps["FROM"] == "debian:12"
    assert steps["COPY"].split()[1] in steps["RUN"]
    succeed(["sh", "-n", "-c", steps["RUN"]])
    ran = run(here(shlex.join(json.loads(steps["ENTRYPOINT"])), made), extra=made.extra)
    assert (ran.status, summary(ran)[0]) == (0, RIGHT), ran.errors


def test_cluster_of_dask(made: Batch, tmp_path: pathlib.Path) -> None:
    """Two machines, which are this one: both have workers, and the sessions run there."""
    if run([sys.executable, "-c", "import distributed"]).status:
        give_up("missing: distributed (Debian: python3-distributed)")
    need("dask-scheduler", "dask-worker")
    remote = tmp_path / "remote"
    remote.write_text('#!/bin/sh\ncd "$(dirname "$0")" && touch "on-$1" && shift && exec "$@"\n')
    remote.chmod(0o755)
    port, = free_ports(1)
    extra = {**made.extra, "PORT": str(port), "REMOTE": str(remote), "WORKERS": "1"}
    with subprocess.Popen([MANY / "dask.sh", "127.0.0.1", "one", "two"], cwd=tmp_path,
                          env={**os.environ, **extra}, stderr=subprocess.DEVNULL,
                          start_new_session=True) as begun:
        try:
            ran = Batch(made.sessions, made.extra, ("--dask", f"tcp://127.0.0.1:{port}")).run()
        finally:
            begun.terminate()
            begun.wait(HANG)
            os.killpg(begun.pid, signal.SIGKILL)
    assert (ran.status, ran.output) == (0, f"{RIGHT}\n{COUNT} run, 0 kept\n"), ran.errors
    assert {it.name for it in tmp_path.glob("on-*")} == {"on-one", "on-two"}


def test_array_of_slurm(made: Batch, tmp_path: pathlib.Path) -> None:
    """Its tasks leave nothing to run; beyond the quota they run nothing."""
    extra = {**made.extra, "BATCH": str(ROOT / "tools" / "batch")}
    with cluster(tmp_path / "slurm") as slurm:
        for quota in (SOME, ENOUGH):
            slurm.run("sbatch", "--wait", "--array=1-3", f"--output={tmp_path}/{quota}-%a",
                      MANY / "array.sbatch", made.sessions, str(quota), extra=extra)
            said = [(tmp_path / f"{quota}-{task}").read_text() for task in (1, 2, 3)]
            assert ["the quota is" in it for it in said] == [quota == SOME] * 3, said
    assert made.run().output == f"{RIGHT}\n0 run, {COUNT} kept\n"
