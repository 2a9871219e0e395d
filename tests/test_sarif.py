"""The log in SARIF that mte_run writes, beside what it says in words."""

import json
import pathlib
import re
import shutil
import subprocess
import urllib.parse
from typing import Any

import pytest

from tests.support import c_tenants, sarif
from tests.support.places import EXAMPLES, IMAGES, ROOT
from tests.support.running import Word, run, succeed
from tests.support.samples import COMPILERS, FLAGS, tenant
from tests.support.tools import need
from tests.test_checks import image

RULES = {
    "Use After Free": "use-after-free", "Buffer Overflow": "heap-buffer-overflow",
    "Buffer Underflow": "heap-buffer-underflow", "Double Free": "double-free",
    "Stack Overflow": "stack-overflow", "Null Pointer": "null-pointer",
}
SOURCES: list[pathlib.Path] = sorted(
    one.source for one in c_tenants.tenants() if one.ends >= 128)


def place_of(location: Any) -> str:
    """The source line of a location."""
    physical = location["physicalLocation"]
    uri = urllib.parse.unquote(physical["artifactLocation"]["uri"])
    assert not uri.startswith("file://") or pathlib.Path(uri[len("file://"):]).exists(), uri
    return f"{pathlib.PurePath(uri).name}:{physical['region']['startLine']}"


def log_of(alone: pathlib.Path, image: pathlib.Path, *words: str) -> tuple[Any, Any, str]:
    """The run of the log, what --json has, and what is said."""
    told, held = image.parent / "told.sarif", image.parent / "told.json"
    ran = run([alone, "--sarif", told, "--json", held, *words, image])
    log, object_ = sarif.read(told.read_text(encoding="ascii")), json.loads(held.read_text())
    assert log["tool"]["driver"]["name"] == "mte_run"
    (invocation,) = log["invocations"]
    assert invocation["exitCode"] == ran.status
    assert invocation["executionSuccessful"] == (object_["status"]["kind"] == "exit")
    return log, object_, ran.errors


@pytest.mark.parametrize("source", SOURCES, ids=[source.stem for source in SOURCES])
def test_a_log_says_what_the_report_says(
    alone: pathlib.Path, tmp_path: pathlib.Path, source: pathlib.Path
) -> None:
    """The cause, the stacks and their lines; the flow goes through the heap calls to the end."""
    need("clang", "ld.lld")
    log, told, errors = log_of(alone, tenant(tmp_path, source))
    (result,) = log["results"]
    (rule,) = log["tool"]["driver"]["rules"]
    assert rule["id"] == result["ruleId"] and result["level"] == "error"
    if told["cause"] is not None:
        assert result["message"]["text"] == told["cause"]
        name = next((name for name in RULES if name in told["cause"]), None)
        assert name is None or RULES[name] == rule["id"] or "stack" in rule["id"]
    calls = [chunk[key] for chunk in told["chunks"] for key in ("allocated", "freed")
             if chunk[key] is not None]
    stacks = [told["stack"], *(call["stack"] for call in calls)]
    assert len(result["stacks"]) == len(stacks)
    for stack, wanted in zip(result["stacks"], stacks):
        lines = [place_of(frame["location"]) for frame in stack["frames"]
                 if "physicalLocation" in frame["location"]]
        assert lines == [f"{frame['file']}:{frame['line']}" for frame in wanted if "line" in frame]
        names = [frame["location"]["logicalLocations"][0]["name"] for frame in stack["frames"]
                 if "logicalLocations" in frame["location"]]
        assert names == [frame["function"] for frame in wanted if "function" in frame]
    (flow,) = result["codeFlows"][0]["threadFlows"]
    steps = [step["location"]["message"]["text"] for step in flow["locations"]]
    assert steps[-1] == result["message"]["text"] and len(steps) == len(calls) + 1
    for step, call in zip(steps, calls):
        assert step.startswith(f"call {call['number']}, "), step
    last = place_of(flow["locations"][-1]["location"])
    assert [place_of(one) for one in result["locations"]] == [last]
    lines = re.findall(r"^  #\d+ .* at (\S+)", errors, re.M)
    assert place_of(result["locations"][0]) == next(
        it for it in lines if not it.startswith("tenant.h:"))


@pytest.mark.parametrize("place, region", [(1, "global"), (2, "stack"), (3, "heap")])
@pytest.mark.parametrize("at, direction", [(5, "overflow"), (-4, "underflow")])
def test_a_rule_is_by_place_and_direction(
    alone: pathlib.Path, tmp_path: pathlib.Path, place: int, region: str, at: int, direction: str
) -> None:
    """A write beyond an array of the image, of the stack and of the heap, at each of its ends."""
    path = image(tmp_path, "clang-O0", "place_rule.c", f"PLACE={place}", f"AT={at}")
    log, told, _ = log_of(alone, path, "--check=all,places")
    assert f"Buffer {direction.title()}, " in told["cause"]
    assert [it["ruleId"] for it in log["results"]] == [f"{region}-buffer-{direction}"]


def test_a_log_of_a_tenant_that_exits(alone: pathlib.Path, tmp_path: pathlib.Path) -> None:
    """It has no result."""
    copy = tmp_path / "hi.elf"
    copy.write_bytes((EXAMPLES / "hi.elf").read_bytes())
    log, _, _ = log_of(alone, copy)
    assert log["results"] == []


@pytest.mark.parametrize("words, rule", [
    (("--steps", "3"), "not-ended"), (("--slices", "2"), "not-ended"),
])
def test_a_log_of_a_tenant_that_does_not_end(
    alone: pathlib.Path, tmp_path: pathlib.Path, words: tuple[str, ...], rule: str
) -> None:
    """It has a result without a cause."""
    copy = tmp_path / "services.elf"
    copy.write_bytes((IMAGES / "services.gcc-O0.elf").read_bytes())
    log, told, _ = log_of(alone, copy, *words)
    assert told["cause"] is None and log["results"][0]["ruleId"] == rule


def test_junit_of_a_folder(alone: pathlib.Path, tmp_path: pathlib.Path) -> None:
    """A test case an image: what exits with 0 passes, all else fails with what is said."""
    need("clang", "ld.lld")
    bad = tenant(tmp_path, EXAMPLES / "c" / "use_after_free.c")
    (tmp_path / "good.elf").write_bytes((EXAMPLES / "hi.elf").read_bytes())
    words: list[Word] = [ROOT / "examples" / "junit.py", "--run", alone, "--option=--exact",
                         tmp_path / "good.elf", bad]
    ran = run(words)
    assert ran.status == 1, ran.errors
    suite = ran.output
    assert 'tests="2"' in suite and 'failures="1"' in suite and "Use After Free" in suite
    assert subprocess.run(["xmllint", "--noout", "-"], input=ran.out, check=False).returncode == 0


def test_a_path_that_is_absolute_has_no_directory(
    alone: pathlib.Path, tmp_path: pathlib.Path
) -> None:
    """The directory of a line table's file is that of a path that is not absolute."""
    need("clang", "ld.lld")
    for name in ("start.c", "tenant.h"):
        shutil.copy(EXAMPLES / "c" / name, tmp_path)
    shutil.copy(EXAMPLES / "c" / "use_after_free.c", tmp_path / "xabsolute.c")
    words = [*COMPILERS["clang"], *FLAGS, "-o", "tenant.elf", "start.c", "xabsolute.c"]
    succeed(words, cwd=tmp_path)
    image = (tmp_path / "tenant.elf").read_bytes()
    (tmp_path / "tenant.elf").write_bytes(image.replace(b"xabsolute.c\0", b"/absolute.c\0"))
    run([alone, "--sarif", "told.sarif", "tenant.elf"], cwd=tmp_path)
    text = (tmp_path / "told.sarif").read_text(encoding="ascii")
    paths = set(re.findall(r'"uri":"([^"]*absolute\.c)"', text))
    assert paths == {"file:///absolute.c"}
