#!/usr/bin/env python3
"""Fuzzes a tenant for a while, on one processor, and tells what was found.

    campaign.py FOLDER TENANT [--fuzzer libfuzzer|afl] [--seconds N] [--until N] [--seed N]
                [--program MTE_RUN] [--exact]

FOLDER is one that build.py has filled, TENANT the name of a tenant in it. The fuzzer runs for N
seconds (60), or until crashes of N kinds are found; SEED is the seed of its own random numbers.
By --exact accesses are held to the bytes of chunks. FOLDER/TENANT.FUZZER has what it keeps. It
prints its executions, by the second and by the second of its processor time, and what it counts of
edges. Of each kind of crash it prints when the first was found, how many there are, the command
that replays the first, and its page by mte_run --html. A kind is a cause, and the innermost source
lines of the tenant where it ended and where the chunk was freed. By COMPARE=0 in the environment
the fuzzer is not told what the tenant compares.
"""
import argparse
import os
import pathlib
import re
import resource
import shlex
import shutil
import subprocess
import sys
import time
from collections.abc import Iterator

import replay

sys.path.insert(0, str(pathlib.Path(__file__).resolve().parents[1]))
from command_line import Parser  # noqa: E402

# What the C library of tenants is made of, and the calls of services: no place of a bug.
NO_PLACE = re.compile(r"(tenant\.h|heap\.c|services\.c|ends\.c):")
LONGEST = 4096


class Campaign:
    """A fuzzer over a tenant, and what it has found."""

    def __init__(self, wanted: argparse.Namespace) -> None:
        self.folder, self.tenant = wanted.folder.resolve(), wanted.tenant
        self.until, self.seed = wanted.until, wanted.seed
        self.is_exact = int(wanted.exact)
        self.program = [wanted.program, *["--exact"] * self.is_exact, "--pages",
                        os.environ.get("PAGES", "256")]
        self.out = self.folder / f"{self.tenant}.{wanted.fuzzer}"
        shutil.rmtree(self.out, ignore_errors=True)
        self.out.mkdir()
        self.image = self.folder / f"{self.tenant}.elf"
        self.began, self.end = time.time(), time.time() + wanted.seconds
        self.kinds: dict[str, list[pathlib.Path]] = {}
        self.seen: set[pathlib.Path] = set()

    def start(self, words: list[str]) -> subprocess.Popen[str]:
        """Starts the fuzzer; what it says goes to a file."""
        extra = {"TENANT": str(self.image), "AFL_NO_UI": "1", "AFL_SKIP_CPUFREQ": "1",
                 "AFL_NO_AFFINITY": "1", "AFL_I_DONT_CARE_ABOUT_MISSING_CRASHES": "1",
                 "EXACT": str(self.is_exact)}
        with open(self.out / "said", "a", encoding="utf-8") as said:
            return subprocess.Popen(words, stdout=said, stderr=said, text=True,
                                    env={**os.environ, **extra})

    def words(self, option: str) -> list[str]:
        """The option for the tenant's dictionary, if it has one."""
        path = self.folder / f"{self.tenant}.dict"
        return [option.format(path)] if path.exists() else []

    def is_over(self) -> bool:
        """Whether the time is over, or enough is found."""
        return time.time() >= self.end or (self.until > 0 and len(self.kinds) >= self.until)

    def look(self, crashes: Iterator[pathlib.Path]) -> None:
        """Names the kinds of new crashes."""
        for crash in sorted(set(crashes) - self.seen, key=lambda it: it.stat().st_mtime):
            self.seen.add(crash)
            self.kinds.setdefault(self.kind(crash), []).append(crash)

    def tell(self, kind: str, page: pathlib.Path) -> str:
        """The lines of a kind of crash, whose first one gets a page."""
        first = self.kinds[kind][0]
        when, count = first.stat().st_mtime - self.began, len(self.kinds[kind])
        words = [*self.program, "--input", str(first), str(self.image)]
        replay.told([*words[:-1], "--html", str(page), words[-1]])
        return (f"{when:7.1f} s  {kind}: {count} {'crash' if count == 1 else 'crashes'}\n"
                f"           {shlex.join(words)}\n           {page}")

    def kind(self, crash: pathlib.Path) -> str:
        """What mte_run says of a crash."""
        _, said = replay.told([*self.program, "--input", str(crash), str(self.image)])
        cause = re.search(r"^Cause: ([^,\n]*?)(,| of a| into a|$)", said, re.M)
        if not cause:
            return "no crash by mte_run"
        stacks = {name: [it for it in its if not NO_PLACE.match(it)] or ["?"]
                  for name, its in replay.places(said).items()}
        freed = f", freed at {stacks['freed'][0]}" if "freed" in stacks else ""
        return f"{cause[1]} at {stacks['access'][0]}{freed}"


def number(pattern: str, text: str) -> float:
    """The last number of a pattern in a text, or 0."""
    found = re.findall(pattern, text)
    return float(found[-1]) if found else 0


def libfuzzer(campaign: Campaign) -> tuple[float, str]:
    """Runs libFuzzer, again behind each crash. How many executions there were, and of edges."""
    kept, done, features = campaign.out / "kept", 0.0, 0.0
    kept.mkdir()
    while not campaign.is_over():
        (campaign.out / "said").unlink(missing_ok=True)
        left = max(int(campaign.end - time.time()), 1)
        run = campaign.start([
            str(campaign.folder / "libfuzzer"), f"-seed={campaign.seed}", f"-max_len={LONGEST}",
            *campaign.words("-dict={}"), f"-max_total_time={left}",
            "-print_final_stats=1", f"-artifact_prefix={campaign.out}/", str(kept),
            str(campaign.folder / f"{campaign.tenant}.corpus")])
        run.wait()
        campaign.seed += 1
        said = (campaign.out / "said").read_text(encoding="utf-8", errors="replace")
        done += number(r"number_of_executed_units: (\d+)", said)
        features = max(features, number(r" ft: (\d+)", said))
        campaign.look(campaign.out.glob("crash-*"))
    return done, f"{features:.0f} features, {len(list(kept.iterdir()))} inputs kept"


def afl(campaign: Campaign) -> tuple[float, str]:
    """Runs AFL++."""
    found = campaign.out / "default"
    compared = [] if os.environ.get("COMPARE") == "0" else ["-c", "0", "-l", "3"]
    left = max(int(campaign.end - time.time()), 1)
    run = campaign.start([
        "afl-fuzz", "-i", str(campaign.folder / f"{campaign.tenant}.corpus"), "-o",
        str(campaign.out), *campaign.words("-x{}"), *compared, "-V", str(left), "-s",
        str(campaign.seed), "-t", "5000", "--", str(campaign.folder / "afl")])
    while run.poll() is None and not campaign.is_over():
        time.sleep(0.5)
        campaign.look((found / "crashes").glob("id:*"))
    run.terminate()
    run.wait()
    campaign.look((found / "crashes").glob("id:*"))
    told = (found / "fuzzer_stats").read_text(encoding="utf-8")
    edges = number(r"edges_found +: (\d+)", told)
    kept = len(list((found / "queue").glob("id:*")))
    return number(r"execs_done +: (\d+)", told), f"{edges:.0f} edges, {kept} inputs kept"


FUZZERS = {"libfuzzer": libfuzzer, "afl": afl}


def main() -> None:
    """The command line."""
    parser = Parser(__doc__)
    parser.add_argument("folder", type=pathlib.Path)
    parser.add_argument("tenant")
    parser.add_argument("--fuzzer", choices=FUZZERS, default="libfuzzer")
    parser.add_argument("--seconds", type=int, default=60)
    parser.add_argument("--until", type=int, default=0)
    parser.add_argument("--seed", type=int, default=1)
    parser.add_argument("--program", default="mte_run")
    parser.add_argument("--exact", action="store_true")
    wanted = parser.parse_args()
    needed = {wanted.program: "--program", f"{wanted.folder.resolve()}/{wanted.fuzzer}": "build.py"}
    if wanted.fuzzer == "afl":
        needed["afl-fuzz"] = "Debian: afl++"
    for program, where in needed.items():
        if not shutil.which(program):
            sys.exit(f"campaign.py: {program} is not there ({where})")
    campaign = Campaign(wanted)
    done, edges = FUZZERS[wanted.fuzzer](campaign)
    took = time.time() - campaign.began
    used = resource.getrusage(resource.RUSAGE_CHILDREN)
    busy = used.ru_utime + used.ru_stime
    print(f"{wanted.tenant}, {wanted.fuzzer}: {done:.0f} executions in {took:.0f} s, {busy:.1f} s "
          f"of a processor: {done / took:.0f} a second, {done / busy:.0f} by its time; {edges}; "
          f"{len(campaign.seen)} crashes of {len(campaign.kinds)} kinds")
    for number_of, kind in enumerate(campaign.kinds, 1):
        print(campaign.tell(kind, campaign.out / f"{number_of}.html"))


if __name__ == "__main__":
    main()
