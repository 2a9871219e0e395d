"""Runs many sessions, and says which are not as wanted.

    batch SESSIONS [OPTIONS]
    batch metrics STORE         what is in a store, in the text format of Prometheus

SESSIONS is a folder or a table. In a folder each session is a folder with a file `args`: the words
of mte_host, one a line (--frames N SCRIPT FILE...), which are read there, and files with what is
wanted of it, or some of them: want.out, want.err, want.status, and want.output, which is what its
tenants write, of which each then has to exit with 0. A table has a session a line, with tabs: name,
frames, what is wanted (`-`, the file with the report, or output:FILE), script and files.

What was answered is kept in a store, SESSIONS.results, under the sum of the library, the words and
the files, and is not run again. What is there and is not what was written is run anew. The exit
status is 0 where nothing is different, lost or disputed and all was stored, and 1 otherwise.
"""

import argparse
import functools
import os
import pathlib
import shlex
import shutil
import sys
import time
from collections.abc import Callable, Sequence
from typing import NoReturn

from batch import runs
from batch.answers import Answer
from batch.bound_store import bound_store
from batch.driver import Batch
from batch.engines import Engine, LocalEngine
from batch.quota import beyond_quota
from batch.sessions import BadList, Place, Session, places_of, share_of
from batch.store import Store
from batch.summaries import json_of, junit_of, write_whole
from batch.verdicts import Verdict, Work, is_right, lines_of, shown

# What one option alone needs is imported with it: a run of few sessions takes its time for imports.

# The first word of another command than one over sessions.
METRICS = "metrics"


class Usage(Exception):
    """What is wrong with the command line, or missing."""


def share(text: str) -> tuple[int, int]:
    """I/N: the Ith of N shares."""
    number, _, count = text.partition("/")
    if not (number.isdecimal() and count.isdecimal() and 1 <= int(number) <= int(count)):
        raise argparse.ArgumentTypeError(f"{text} is not I/N with 1 <= I <= N")
    return int(number), int(count)


def positive(text: str) -> int:
    """A number that is at least 1."""
    if not text.isdecimal() or int(text) < 1:
        raise argparse.ArgumentTypeError(f"{text} is not a number from 1 on")
    return int(text)


def natural(text: str) -> int:
    """A number that is at least 0."""
    return 0 if text == "0" else positive(text)


def between(low: float, high: float) -> Callable[[str], float]:
    """A number above one bound, and at most the other."""
    def read(text: str) -> float:
        number = float(text)
        if not low < number <= high:
            raise argparse.ArgumentTypeError(f"{text} is not above {low:g} and at most {high:g}")
        return number
    return read


class Parser(argparse.ArgumentParser):
    """A parser whose complaint is one line, which names --help."""

    def error(self, message: str) -> NoReturn:
        """Ends for a wrong command line."""
        print(f"{self.prog}: {message} (--help)", file=sys.stderr)
        sys.exit(2)


def parser_of_all() -> Parser:
    """What reads the command line."""
    form = argparse.RawDescriptionHelpFormatter
    parser = Parser(prog="batch", description=__doc__, formatter_class=form)
    add = parser.add_argument
    add("sessions", type=pathlib.Path, help="a folder or a table")
    add("--jobs", type=positive, default=os.cpu_count() or 1, help="how many run at once")
    add("--store", type=pathlib.Path, help="the folder of what was answered")
    add("--store-bytes", type=natural, metavar="N",
        help="drop the oldest answers that this run does not need from a store of more bytes")
    add("--tries", type=natural, default=3, help="how often what was lost is tried again (3)")
    add("--timeout", type=between(0, 1e6), metavar="SECONDS",
        help="what takes longer for a session is lost; not over Dask")
    add("--program", action="append", default=[], metavar="COMMAND",
        help="run each session as a process of COMMAND, like `ssh one mte_host`, not by the library"
        "; several share the sessions")
    add("--dask", nargs="?", const="", metavar="ADDRESS",
        help="run over the scheduler of Dask at ADDRESS; without it over one on this machine")
    add("--split", action="store_true",
        help="run long sessions in parts of their tenants, where that pays; --program then names "
        "commands like mte_split for these")
    add("--steps", type=positive, metavar="N",
        help="lead each tenant on to N steps in all, over its yields")
    add("--work", type=positive, metavar="N",
        help="the same to N of work: steps, and one more for each 2,048 bytes that services touch")
    add("--quota", type=positive, metavar="N",
        help="run nothing where the sessions of a user, the first folder of their names, allow "
        "more than N steps in all")
    add("--share", type=share, metavar="I/N",
        help="take the Ith of N shares of the sessions alone; with --split, of their parts")
    add("--sample", type=between(0, 100), metavar="PERCENT",
        help="run so many of a hundred once more by --elsewhere, and compare")
    add("--elsewhere", action="append", default=[], metavar="COMMAND",
        help="a command like mte_host, as `ssh other mte_host`")
    add("--got", action="store_true", help="write got.out, got.err and got.status beside `args`")
    add("--reports", type=pathlib.Path, metavar="FOLDER",
        help="write them there, as NAME.out, NAME.err and NAME.status; with --steps or --work "
        "NAME.script")
    add("--json", type=pathlib.Path, metavar="FILE", help="write what came of each as JSON")
    add("--junit", type=pathlib.Path, metavar="FILE", help="write it as JUnit's XML")
    return parser


def parse(words: Sequence[str] | None) -> argparse.Namespace:
    """The command line."""
    parser = parser_of_all()
    given = parser.parse_args(words)
    if given.sample and not given.elsewhere:
        parser.error("--sample needs --elsewhere COMMAND")
    if given.steps and given.work:
        parser.error("--steps takes no --work")
    led = "--work" if given.work else "--steps" if given.steps else ""
    if led and (given.sample or given.share and given.split):
        parser.error(f"{led} takes neither --sample nor --split with --share")
    if led and given.program and not given.split:
        parser.error(f"{led} takes no --program without --split")
    if given.dask is not None and (given.program or given.timeout):
        parser.error("--dask takes neither --program nor --timeout")
    if given.store is None:
        whole = given.sessions.resolve()
        given.store = whole.with_name(f"{whole.name}.results")
    return given


def progress(total: int) -> Callable[[int], None]:
    """What says on a terminal how far it is, some times a second."""
    if not sys.stderr.isatty():
        return lambda done: None
    began, told = time.monotonic(), 0.0

    def tell(done: int) -> None:
        nonlocal told
        now = time.monotonic()
        if now - told > 0.2 or done == total:
            told = now
            end = "\n" if done == total else ""
            print(f"\r{done} of {total}, {done / max(now - began, 1e-3):.0f} a second ", end=end,
                  file=sys.stderr, flush=True)
    return tell


def missing_command(commands: Sequence[str]) -> str:
    """The first command that is not there."""
    first = [(shlex.split(command) or [""])[0] for command in commands]
    return next((it for it in first if shutil.which(it) is None), "")


def library_runner() -> tuple[runs.Runner, str]:
    """What runs sessions by the library, and its sum."""
    program = runs.library_sum()
    if not program:
        raise Usage("libtombolopan.so is not found: examples/embed/shared.sh makes it, Debian's "
                    f"libtombolopan2 has it, and the variable {runs.LIBRARY} may name it")
    return functools.partial(runs.run_by_library, wanted=program), program


def runners_of(given: argparse.Namespace, run: Callable[..., runs.Replies]) -> list[runs.Runner]:
    """What runs sessions by the commands that are given, which share the jobs."""
    commands = [functools.partial(run, command=it, seconds=given.timeout) for it in given.program]
    return [commands[at % len(commands)] for at in range(given.jobs)]


def engine_of(given: argparse.Namespace) -> tuple[Engine, str]:
    """What runs the sessions, and the sum of the program."""
    if missing := missing_command([*given.program, *given.elsewhere]):
        raise Usage(f"cannot run {missing}")
    if given.program and not given.split:
        return LocalEngine(runners_of(given, runs.run_by_command)), runs.command_sum(given.program)
    runner, program = library_runner()
    if given.program:
        by_split = functools.partial(runs.run_by_split, wanted=program)
        return LocalEngine(runners_of(given, by_split)), program
    if given.dask is None:
        return LocalEngine([runner] * given.jobs, given.timeout), program
    try:
        from batch.over_dask import DaskEngine
    except ImportError as error:
        raise Usage(f"Dask is missing (Debian: python3-distributed): {error}") from error
    return DaskEngine(runner, given.dask, given.jobs, given.tries), program


def write_parts(begins: Sequence[pathlib.Path], session: Session, answer: Answer,
                has_script: bool) -> None:
    """Writes what came of a session into files that begin so, where it is not there."""
    parts = {"out": answer.out, "err": answer.err, "status": f"{answer.status}\n".encode(),
             **({"script": session.script} if has_script else {})}
    for begin in begins:
        for part, text in parts.items():
            path = begin.with_name(f"{begin.name}.{part}")
            path.parent.mkdir(parents=True, exist_ok=True)
            if part == "script" and session.beyond:
                path.unlink(missing_ok=True)
            else:
                write_whole(path, text)


def writer(given: argparse.Namespace,
           places: dict[str, Place]) -> Callable[[Session, Answer], None] | None:
    """What writes the files of each session that are asked for."""
    def begins(name: str) -> list[pathlib.Path]:
        got = [pathlib.Path(places[name].folder) / "got"] if given.got else []
        return got + ([given.reports / name] if given.reports else [])

    if given.got and any(it.words for it in places.values()):
        raise Usage("--got is for folders of sessions")
    if given.reports and (it := next((it for it in places if not is_below(it)), None)):
        raise Usage(f"--reports: the name {it!r} leads out of the folder")
    if not given.got and not given.reports:
        return None
    has_script = bool(given.steps or given.work)
    return lambda session, answer: write_parts(begins(session.name), session, answer, has_script)


def is_below(name: str) -> bool:
    """Whether a name is one of a file within a folder."""
    path = pathlib.PurePath(name)
    return not path.is_absolute() and bool(path.name) and ".." not in path.parts


def batch_of(given: argparse.Namespace, program: str, store: Store, total: int) -> Batch:
    """Sessions on their way, by the plans that are asked for."""
    batch = Batch(program, store, given.tries, progress(total))
    batch.work.program = program
    if given.steps or given.work:
        from batch.totals import Totals
        totals = Totals(batch, given.steps or given.work, bool(given.work))
        batch.read = totals.read
        batch.plans.append(totals)
    if given.split:
        from batch.planning import Budget
        from batch.splitting import Split
        # What works elsewhere is not measured, and shares have to find the same parts.
        budget = Budget(is_bound=not given.program and not given.share)
        elsewhere = runs.command_sum(given.program) if given.program else ""
        batch.plans.append(Split(batch, budget, elsewhere, given.share or (1, 1)))
    return batch


def run(given: argparse.Namespace) -> tuple[list[Verdict], Work]:
    """Runs the sessions."""
    found = places_of(given.sessions)
    total = given.steps or given.work or 0
    if given.quota and (beyond := beyond_quota(found, given.quota, total)):
        raise Usage(beyond)
    if given.share and not given.split:
        found = share_of(found, *given.share)
    places = {it.name: it for it in found}
    each = writer(given, places)
    engine, program = engine_of(given)
    try:
        store = Store(given.store)
        batch = batch_of(given, program, store, len(places))
        if each is not None:
            batch.each = each
        verdicts = batch.run(places.values(), engine)
    finally:
        engine.close()
    if given.sample:
        from batch.sample import Sample
        sample = Sample(given.sample, tuple(given.elsewhere), given.jobs, given.tries,
                        given.timeout)
        verdicts = sample.check(verdicts, places, store, program, batch.work)
    store.close()
    if given.store_bytes is not None:
        batch.work.dropped = bound_store(given.store, given.store_bytes, store.used)
    return verdicts, batch.work


def show_metrics(store: pathlib.Path) -> None:
    """Writes what is in a store."""
    from batch.metrics import metrics_of
    if not store.is_dir():
        raise Usage(f"{store} is no store")
    print(metrics_of(store), end="", flush=True)


def main(words: Sequence[str] | None = None) -> int:
    """The command."""
    words = sys.argv[1:] if words is None else words
    try:
        if len(words) == 2 and words[0] == METRICS and not words[1].startswith("-"):
            show_metrics(pathlib.Path(words[1]))
            return 0
        given = parse(words)
        verdicts, work = run(given)
        for path, text in ((given.json, json_of), (given.junit, junit_of)):
            if path is not None:
                write_whole(path, text(verdicts, work).encode())
        print(*lines_of(verdicts, work), sep="\n", flush=True)
    except (BadList, Usage, UnicodeError) as error:
        print(f"batch: {shown(str(error))}", file=sys.stderr)
        return 2
    except OSError as error:
        named = f"{shown(str(error.filename))}: " if error.filename else ""
        print(f"batch: {named}{error.strerror or error}", file=sys.stderr)
        return 1
    except KeyboardInterrupt:
        print("batch: broken off; the same command goes on", file=sys.stderr)
        return 130
    return 0 if is_right(verdicts, work) else 1
