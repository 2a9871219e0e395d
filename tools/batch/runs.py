"""Runs sessions: in this process by the library, or each as a process of a program.

These functions are pure but for what they rest on, so an engine may call them on any machine, as
often as it likes. Each reply has the key of its job with it.
"""

import contextlib
import functools
import hashlib
import importlib
import os
import pathlib
import re
import shlex
import shutil
import subprocess
import sys
import tempfile
from collections.abc import Callable, Sequence
from dataclasses import replace

from batch import effort, further
from batch.answers import OK, SCRIPT, Answer, Lost, Reply, checked
from batch.sessions import Job

Replies = list[tuple[str, Reply]]
Runner = Callable[[Sequence[Job]], Replies]
# Where the library is, as the package tombolopan reads it.
LIBRARY = "TOMBOLOPAN"
# A part of one tenant by mte_split: a head, the tenant's lines, and the sum of all before that.
PART = re.compile(rb"(mte_split [0-9.]+ part )([0-9a-f]{64}) tenant ([0-9]+)\n"
                  rb"((?s:.*))sum ([0-9a-f]{64})\n")
LAST_LINE = len("sum ") + 64 + 1


def find_library() -> str:
    """The path of the library: what the variable names, or that of this checkout, or of the prefix
    in which this is installed. The folder that has the package tombolopan is put on the path of
    imports."""
    top = pathlib.Path(__file__).resolve().parents[2]
    embed = top / "examples" / "embed"
    if str(embed) not in sys.path:
        sys.path.append(str(embed))
    near = [embed / "libtombolopan.so"]
    if not (top / "crates.txt").exists():
        lib = top.parents[1] / "lib"
        # Debian has it in a folder of the machine's name.
        near = [*lib.glob("libtombolopan.so.*"), *lib.glob("*/libtombolopan.so.*")]
    named = os.environ.get(LIBRARY)
    found = [it for it in ([pathlib.Path(named)] if named else near) if it.is_file()]
    return str(found[0].resolve()) if found else ""


def sum_of_file(path: str) -> str:
    """The sum of a file's bytes."""
    return hashlib.sha256(pathlib.Path(path).read_bytes()).hexdigest()


@functools.cache
def library_sum() -> str:
    """The sum of this process's library; empty where there is none."""
    path = find_library()
    if not path:
        return ""
    os.environ[LIBRARY] = path
    return sum_of_file(path)


@functools.cache
def loaded_sum() -> str:
    """The sum of the library that this process has loaded; empty where it changed meanwhile."""
    before = library_sum.__wrapped__()
    importlib.import_module("tombolopan")
    return before if library_sum.__wrapped__() == before else ""


def command_sum(commands: Sequence[str]) -> str:
    """The sum of programs: of each word that is a file its bytes, of others their text. So what
    lies behind `ssh` is known by its name alone."""
    total = hashlib.sha256(b"commands")
    for word in (it for command in commands for it in shlex.split(command)):
        path = shutil.which(word) or word
        known = sum_of_file(path) if os.path.isfile(path) else word
        total.update(known.encode() + b"\n")
    return total.hexdigest()


def run_one(job: Job) -> Reply:
    """The answer of a session by the library, or the slices that lead its tenant on."""
    import tombolopan  # loads the library, which only a process that runs sessions needs
    try:
        if job.total:
            found_for = effort.found_for if job.is_of_work else further.found_for
            return checked(Answer(OK, found_for(job.script, job.files, job.total), b""))
        return checked(Answer(OK, tombolopan.session(job.frames, job.script, job.files), b""))
    except tombolopan.ScriptError as error:
        return checked(Answer(SCRIPT, b"", f"mte_host: {error}\n".encode()))
    except MemoryError:
        return Lost("out of memory")


def run_by_library(jobs: Sequence[Job], wanted: str) -> Replies:
    """The answers of sessions by the library, where its sum is the one that is wanted."""
    if loaded_sum() != wanted:
        lost = Lost("another library, or none, is in the process that was to run it")
        return [(job.key, lost) for job in jobs]
    return [(job.key, run_one(job)) for job in jobs]


def run_safely(run: Runner, jobs: Sequence[Job]) -> Replies:
    """The replies of a runner; an exception loses them all, and ends no process."""
    try:
        return run(jobs)
    except Exception as error:
        lost = Lost(f"{type(error).__name__}: {error}")
        return [(job.key, lost) for job in jobs]


def run_by_command(jobs: Sequence[Job], command: str, seconds: float | None = None) -> Replies:
    """The answers of sessions, each by a process of a program like mte_host."""
    return [(job.key, process_answer(job, shlex.split(command), seconds)) for job in jobs]


def process_answer(job: Job, command: Sequence[str], seconds: float | None) -> Reply:
    """The answer of a session by a process, over copies of what it reads."""
    with contextlib.ExitStack() as held:
        try:
            folder = pathlib.Path(held.enter_context(tempfile.TemporaryDirectory()))
            names = [str(folder / f"file-{number}") for number in range(len(job.files) + 1)]
            for name, content in zip(names, (job.script, *job.files)):
                pathlib.Path(name).write_bytes(content)
            words = [*command, "--frames", str(job.frames), *names]
            ran = subprocess.run(words, check=False, stdin=subprocess.DEVNULL,
                                 capture_output=True, timeout=seconds)
        except subprocess.TimeoutExpired:
            return Lost(f"it took longer than {seconds:g} seconds")
        except OSError as error:
            return Lost(f"cannot be run: {error}")
    answer = Answer(ran.returncode, ran.stdout, ran.stderr)
    return part_of(job, answer) if job.tenants else checked(answer)


def run_by_split(jobs: Sequence[Job], wanted: str, command: str,
                 seconds: float | None = None) -> Replies:
    """The answers of parts, each tenant by a process of a program like mte_split, and of others by
    the library."""
    return [reply for job in jobs for reply in (
        [(job.key, split_answer(job, shlex.split(command), seconds))] if job.tenants
        else run_by_library([job], wanted))]


def split_answer(job: Job, command: Sequence[str], seconds: float | None) -> Reply:
    """The answer of a part: what its tenants' parts have between head and sum."""
    found = b""
    for tenant in job.tenants:
        one = replace(job, tenants=(tenant,))
        reply = process_answer(one, [*command, "--tenant", str(tenant)], seconds)
        if isinstance(reply, Lost):
            return reply
        found += reply.out
    return checked(Answer(OK, found, b""))


def part_of(job: Job, answer: Answer) -> Reply:
    """The lines of a tenant that mte_split made a part of: of this session, and as it was made."""
    found = PART.fullmatch(answer.out)
    if answer.status != OK or found is None:
        return checked(replace(answer, status=answer.status or -1))
    begin, session, tenant, lines, total = found.groups()
    own = hashlib.sha256(begin + job.frames.to_bytes(8, "big"))
    for part in (job.script, *job.files):
        own.update(len(part).to_bytes(8, "big") + part)
    if hashlib.sha256(answer.out[:-LAST_LINE]).hexdigest().encode() != total:
        return Lost("the part is damaged")
    if (session, (int(tenant),)) != (own.hexdigest().encode(), job.tenants):
        return Lost("the part is of another session")
    return Answer(OK, lines, b"")
