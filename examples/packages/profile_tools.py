"""The forms of a run's counts as the tools of others read them."""
import json
import pathlib
import re
import subprocess
from collections import Counter
from collections.abc import Iterable

from tombolopan_profile import counts as run_counts
from tombolopan_profile import forms, heap

SECONDS = 600
# A function in what callgrind_annotate writes.
ROW = r"^ *([\d,]+) \([ .\d]+%\)  .+?:(\S.*?)(?: \[.*\])?$"


def wrong_sums(counts: run_counts.Counts) -> list[str]:
    """Sums that are not the steps."""
    rows = forms.functions(counts)
    whole = {"of functions": sum(row.own for row in rows), "of calls": counts.inclusive()[0],
             "of instructions": sum(counts.executions().values()),
             "of stacks": sum(call.steps for call in counts.calls)}
    return [f"the sum {name} is {found}, not {counts.steps}" for name, found in whole.items()
            if found != counts.steps] + ["incomplete"] * (not counts.is_complete)


def told(words: list[object]) -> str:
    """What a tool writes; ValueError where it fails, or has something on standard error."""
    ran = subprocess.run([str(word) for word in words], stdin=subprocess.DEVNULL, text=True,
                         stdout=subprocess.PIPE, stderr=subprocess.PIPE, timeout=SECONDS,
                         errors="replace", check=False)
    if ran.returncode or re.search(r"warn|error", ran.stderr, re.I):
        raise ValueError(f"{words[0]}: status {ran.returncode}: {ran.stderr.strip()[:300]}")
    return ran.stdout


def total_of(pattern: str, text: str) -> int:
    """The number of a pattern's group in a tool's text, -1 for none."""
    found = re.search(pattern, text, re.M)
    return int(found[1].replace(",", "")) if found else -1


def sums(rows: Iterable[tuple[str, int]]) -> Counter[str]:
    """The sums of what has one name."""
    found = Counter[str]()
    for name, number in rows:
        found[name] += number
    return found


def callgrind_total(counts: run_counts.Counts, folder: pathlib.Path) -> tuple[int, int]:
    """The total of callgrind_annotate, and what it has to be."""
    (folder / "callgrind.out").write_text(forms.callgrind(counts, image_words(counts)))
    text = told(["callgrind_annotate", "--threshold=100", "--auto=no", "--show=Instructions",
                 folder / "callgrind.out"])
    own = sums((name, int(number.replace(",", ""))) for number, name in re.findall(ROW, text, re.M))
    mine = sums((row.name, row.own) for row in forms.functions(counts))
    if own != mine:
        raise ValueError(f"callgrind_annotate: {list((own - mine) + (mine - own))[:3]} differ")
    return total_of(r"^([\d,]+) \(100.0%\)  PROGRAM TOTALS", text), counts.steps


def pprof_totals(counts: run_counts.Counts, folder: pathlib.Path) -> tuple[int, int]:
    """The total of pprof's samples of both files, and what it has to be."""
    total = 0
    for file, data, kind in (("steps.pb.gz", forms.pprof(counts), "steps"),
                             ("heap.pb.gz", heap.heap_pprof(counts), "alloc_objects")):
        (folder / file).write_bytes(data)
        text = told(["go", "tool", "pprof", "-top", "-nodecount=100000", "-nodefraction=0",
                     "-unit=count", f"-sample_index={kind}", folder / file])
        total += max(0, total_of(r"^Showing .* of (\d+) total", text))
    return total, counts.steps + sum(sums.made for sums in counts.heap.values())


def massif_peak(counts: run_counts.Counts, folder: pathlib.Path) -> tuple[int, int]:
    """The largest heap that ms_print shows, and the peak."""
    (folder / "massif.out").write_text(heap.massif(counts))
    rows = re.findall(r"^ *[\d,]+ +[\d,]+ +([\d,]+) +[\d,]+ +0 +0$",
                      told(["ms_print", "--threshold=0", folder / "massif.out"]), re.M)
    return max(int(row.replace(",", "")) for row in rows), counts.peak.bytes


def timeline_end(counts: run_counts.Counts, folder: pathlib.Path) -> tuple[int, int]:
    """Where the last event of the trace ends, and the steps."""
    (folder / "timeline.json").write_text(forms.timeline(counts))
    events = json.loads((folder / "timeline.json").read_text())["traceEvents"]
    calls = [it for it in events if it["ph"] == "X"]
    if any(it["ts"] < 0 or it["dur"] <= 0 or not it["name"] for it in calls):
        raise ValueError("the timeline has an event without a length or a name")
    return max(it["ts"] + it["dur"] for it in calls), counts.steps


def lines_of_genhtml(counts: run_counts.Counts, folder: pathlib.Path) -> tuple[int, int]:
    """The lines that genhtml says were executed, of those of files that are there."""
    text = forms.lcov(counts, image_words(counts))
    parts = [part for part in re.split(r"(?<=end_of_record\n)", text)
             if (folder.parent / "tenant" / part.partition("SF:")[2].partition("\n")[0]).is_file()]
    (folder / "lcov.info").write_text("".join(parts))
    shown = told(["env", "-C", folder.parent / "tenant", "genhtml", "--branch-coverage", "-o",
                  folder / "html", folder / "lcov.info"])
    hit = sum(int(it) for part in parts for it in re.findall(r"^LH:(\d+)$", part, re.M))
    return total_of(r"lines\.*: .*\((\d+) of \d+ lines?\)", shown), hit


def image_words(counts: run_counts.Counts) -> dict[int, int]:
    """The words of the image."""
    return forms.words_of(pathlib.Path(counts.image).read_bytes())


def wrong_tools(counts: run_counts.Counts, one: run_counts.Counts,
                folder: pathlib.Path) -> list[str]:
    """What tools say of an image's counts, or of one of its runs, that is wrong."""
    folder.mkdir(parents=True, exist_ok=True)
    found = []
    for tool, of in ((callgrind_total, counts), (pprof_totals, counts), (lines_of_genhtml, counts),
                     (massif_peak, one), (timeline_end, one)):
        try:
            total, wanted = tool(of, folder)
            found += [f"{tool.__name__}: {total}, not {wanted}"] * (total != wanted)
        except (OSError, ValueError, subprocess.TimeoutExpired) as error:
            found.append(f"{tool.__name__}: {error}")
    return found
