"""What steps, slices, rounds with services and a session cost, in instructions of this machine by
callgrind."""

import pathlib
import re
import sys

import pytest

from tests.support import samples
from tests.support.library import static_library
from tests.support.places import ROOT
from tests.support.running import run, succeed
from tests.support.tools import give_up, need

# The most instructions a step; docs/SPEED.md has what was measured.
MOST = {"alu": 23.7, "memory": 37.5, "offsets": 30.6, "mix": 31.9, "svc18": 29.1, "slices16": 82.0}


def test_a_step_calls_nothing(host: pathlib.Path) -> None:
    """The match over the forms is in line in the loop of a run, and that loop in a slice: the
    toolchain calls a function that it finds too large for that, with no message, and a step
    then takes twice as much."""
    need("nm")
    names = succeed(["nm", "-C", host]).output
    assert "slice_with_blocks" in names
    assert not re.search(r"op_cache::run_known\b", names)
    assert not re.search(r"execute_op::execute_op\b", names)


def test_a_step_takes_few_instructions(host: pathlib.Path) -> None:
    """Loops between registers, of loads and stores, and compiled code."""
    need("clang", "ld.lld", "valgrind")
    ran = run([sys.executable, ROOT / "tools/speed/measure.py", "--ir", host])
    assert ran.status == 0, ran.errors
    found = {name: float(number) for name, number in
             re.findall(r"^(\w+) +.+: ([0-9.]+) instructions$", ran.output, re.M)}
    assert found.keys() >= MOST.keys(), ran.output
    assert {name: found[name] for name, most in MOST.items() if found[name] > most} == {}


# The same of programs over Debian's sources.
MOST_REAL = {"zlib": 39.2, "lz4": 44.3, "expat": 37.2, "bzip2": 41.6, "libtommath": 43.6,
             "xz": 40.9}


@pytest.mark.parametrize("name", sorted(MOST_REAL))
def test_a_step_of_a_real_program(host: pathlib.Path, shared: pathlib.Path, name: str) -> None:
    """A short run of a library of others, as a tenant."""
    need("clang", "ld.lld", "valgrind", "qemu-aarch64", "apt-get")
    ran = run([sys.executable, ROOT / "tools/speed/measure.py", "--real", "--ir", "--only", name,
               "--work", shared / f"real-{name}", host])
    if f"without {name}" in ran.errors:
        give_up(ran.errors.strip()[-300:])
    assert ran.status == 0, ran.errors
    found = re.search(rf"^{name}: ([0-9.]+) instructions a step", ran.output, re.M)
    assert found and float(found[1]) <= MOST_REAL[name], ran.output


def test_loops_beside_others(host: pathlib.Path) -> None:
    """Each side runs: QEMU, and Unicorn by each way of counting. How long they take is not held."""
    need("clang", "ld.lld", "qemu-aarch64", "aarch64-linux-gnu-gcc")
    if not pathlib.Path("/usr/include/unicorn/unicorn.h").exists():
        give_up("missing: libunicorn-dev (tests/packages.txt has the Debian packages)")
    ran = run([sys.executable, ROOT / "tools/speed/measure.py", "--qemu", "--unicorn",
               "--rounds", "1", host])
    assert ran.status == 0, ran.errors
    sides = {line.split()[0]: re.findall(r"(\S[^:]*): -?[0-9.]+ ns", line.split(maxsplit=1)[1])
             for line in ran.output.splitlines()}
    assert [it.strip() for it in sides["alu"]] == [
        str(host), "qemu", "Unicorn, count", "Unicorn, instructions", "Unicorn, blocks"]
    assert len(sides["memory"]) == len(sides["offsets"]) == 2 and len(sides["mix"]) == 4


def test_a_real_program_beside_others(host: pathlib.Path, shared: pathlib.Path) -> None:
    """The same of a library of others: QEMU, and this machine alone, under Valgrind's memcheck and
    under AddressSanitizer. Each writes the same sum, which the tool compares."""
    need("clang", "ld.lld", "valgrind", "qemu-aarch64", "apt-get")
    ran = run([sys.executable, ROOT / "tools/speed/measure.py", "--real", "--native", "--only",
               "bzip2", "--rounds", "1", "--work", shared / "real-bzip2-natively", host])
    if "without bzip2" in ran.errors:
        give_up(ran.errors.strip()[-300:])
    assert ran.status == 0, ran.errors
    sides = re.findall(r"^  (\w+): -?[0-9.]+ s after a start", ran.output, re.M)
    assert sides == ["QEMU", "native", "memcheck", "AddressSanitizer"] * 2, ran.output


# The most instructions of what room.py counts; docs/SPEED.md has what was measured.
MOST_OF = {"slice": {"1 live in turns": 620, "64 live in turns": 620, "255 live in turns": 620},
           "rounds": {"a service that does nothing, 6 steps": 186,
                      "malloc and free of 24, 8 steps": 1_225},
           "start": {"hi.script": 300_000}}


@pytest.mark.parametrize("kind", sorted(MOST_OF))
def test_calls_take_few_instructions(host: pathlib.Path, kind: str) -> None:
    """A slice of one step with its line of the script, a round with services, a whole session."""
    need("valgrind")
    ran = run([sys.executable, ROOT / "tools/speed/room.py", "--only", kind, host])
    assert ran.status == 0, ran.errors
    found = {name: int(number) for name, number in
             re.findall(rf"^.+: {kind}, (.+): (\d+) instructions$", ran.output, re.M)}
    assert found.keys() >= MOST_OF[kind].keys(), ran.output
    assert {name: found[name] for name, most in MOST_OF[kind].items() if found[name] > most} == {}


# The most that a fuzzed step may cost, with its edges counted, beside the same step of a run alone,
# and one with its comparisons, beside that.
MOST_TIMES, MOST_COMPARED = 1.3, 2.2


def test_a_fuzzed_step_takes_few_more(shared: pathlib.Path, tmp_path: pathlib.Path) -> None:
    """A run from a snapshot, with its edges and what restores the machine, and with what it
    compares."""
    need("clang", "ld.lld", "valgrind")
    image = samples.tenant(shared, ROOT / "tests/sources/mixed_bytes.c")
    data = tmp_path / "input"
    data.write_bytes(b"")
    ran = run([sys.executable, ROOT / "tools/speed/fuzzed.py", "--library", static_library(shared),
               "--setup", "0", image, data])
    assert ran.status == 0, ran.errors
    found = re.search(r"([0-9.]+) times that of the library", ran.output)
    assert found and float(found[1]) <= MOST_TIMES, ran.output
    found = re.search(r"([0-9.]+) times that with edges", ran.output)
    assert found and float(found[1]) <= MOST_COMPARED, ran.output
