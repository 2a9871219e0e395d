"""A cluster of Slurm on this machine: a controller and nodes of one processor, for this user alone.
Nothing of it is outside of a folder."""

import os
import pathlib
import signal
import socket
import subprocess
import time
from collections.abc import Iterator
from contextlib import contextmanager, suppress

from tests.support.running import HANG, Ran, Word, run
from tests.support.tools import give_up, need

NODES = ("one", "two")
SETTINGS = """\
ClusterName=local
SlurmctldHost={host}(127.0.0.1)
SlurmctldPort={ports[0]}
AuthType=auth/none
AuthInfo=cred_expire=5
CredType=cred/none
SlurmUser=root
SlurmdTimeout=10
StateSaveLocation={folder}/state
SlurmdSpoolDir={folder}/spool-%n
SlurmctldPidFile={folder}/controller.pid
SlurmdPidFile={folder}/%n.pid
SlurmctldLogFile={folder}/controller.log
SlurmdLogFile={folder}/%n.log
ProctrackType=proctrack/linuxproc
TaskPlugin=task/none
MpiDefault=none
NodeName=one NodeHostname={host} NodeAddr=127.0.0.1 Port={ports[1]} CPUs=1
NodeName=two NodeHostname={host} NodeAddr=127.0.0.1 Port={ports[2]} CPUs=1
PartitionName=all Nodes=ALL Default=YES State=UP
"""


def free_ports(count: int) -> list[int]:
    """Ports that nothing listens on."""
    held = [socket.create_server(("127.0.0.1", 0)) for _ in range(count)]
    found = [it.getsockname()[1] for it in held]
    for it in held:
        it.close()
    return found


def parent_of(process: int) -> int:
    """The process that started one."""
    text = pathlib.Path(f"/proc/{process}/stat").read_text(encoding="utf-8")
    return int(text.rpartition(")")[2].split()[1])


def name_of(process: int) -> str:
    """The name of a process."""
    return pathlib.Path(f"/proc/{process}/comm").read_text(encoding="utf-8").strip()


class Slurm:
    """The running cluster."""

    def __init__(self, folder: pathlib.Path, daemons: dict[str, "subprocess.Popen[bytes]"]) -> None:
        self.folder, self.daemons = folder, daemons
        self.extra = {"SLURM_CONF": str(folder / "slurm.conf")}

    def run(self, *words: Word, extra: dict[str, str] | None = None) -> Ran:
        """Runs a command of Slurm."""
        return run(list(words), cwd=self.folder, extra={**self.extra, **(extra or {})})

    def kill_node(self, process: int) -> None:
        """Kills the node on which a process of a job runs: its daemon, and all of the job there."""
        there = [process]
        while "slurmstepd" not in name_of(there[-1]):
            there.append(parent_of(there[-1]))
        script = pathlib.Path(f"/proc/{there[-2]}/cmdline").read_text(encoding="utf-8")
        name, = (it for it in NODES if f"/spool-{it}/" in script)
        self.daemons.pop(name).kill()
        for it in reversed(there):
            with suppress(ProcessLookupError):
                os.kill(it, signal.SIGKILL)

    def finish(self) -> None:
        """Waits until no job is left."""
        until = time.monotonic() + HANG
        while self.run("squeue", "--noheader").output:
            assert time.monotonic() < until
            time.sleep(0.2)


@contextmanager
def cluster(folder: pathlib.Path) -> Iterator[Slurm]:
    """Starts a cluster, and ends it."""
    need("slurmctld", "slurmd", "sbatch", "squeue", "sinfo")
    if os.geteuid() != 0:
        give_up("a node of Slurm is started by root alone")
    (folder / "state").mkdir(parents=True)
    text = SETTINGS.format(host=socket.gethostname().partition(".")[0], folder=folder,
                           ports=free_ports(3))
    (folder / "slurm.conf").write_text(text, encoding="utf-8")
    made = Slurm(folder, {})
    commands = {"": ["slurmctld", "-D"], **{it: ["slurmd", "-D", "-N", it] for it in NODES}}
    try:
        for name, words in commands.items():
            made.daemons[name] = subprocess.Popen(
                words, env={**os.environ, **made.extra}, stdout=subprocess.DEVNULL,
                stderr=subprocess.DEVNULL)
        until = time.monotonic() + HANG
        while made.run("sinfo", "--noheader", "--format=%D %T").output != f"{len(NODES)} idle\n":
            assert time.monotonic() < until
            time.sleep(0.2)
        yield made
    finally:
        made.run("scancel", "--me")
        for it in made.daemons.values():
            it.terminate()
        for it in made.daemons.values():
            it.wait(timeout=60)
