"""What a fuzzer is told of the comparisons of a run, beside a model over traces."""

import dataclasses
import json
import os
import pathlib
import random
from collections import Counter
from collections.abc import Iterable
from typing import Any

from tests.reference import pointers, programs
from tests.reference.comparisons import Comparison, comparisons
from tests.reference.decode import decode
from tests.reference.drawing import POOL, TABLE, ZERO, data_word, word
from tests.reference.runs import INPUT, Runner
from tests.support.instructions import SERVICE, move, program
from tests.test_fuzz import BEGIN, hash_of
from tests.test_python_package import told

# How many programs of each kind are drawn, and how many words one of comparisons has.
DRAWN, WORDS = int(os.environ.get("TOMBOLOPAN_DRAWN", "200")) // 8, 400
BRANCHES = ("cmp_branch", "test_branch")
# The register of the address of a function.
ADDRESS = 9


def before_zero(source: random.Random, rd: int) -> int:
    """ADD, SUB, AND, ORR or EOR into a register."""
    row = source.choice(("add_sub_imm", "add_sub_shift", "add_sub_ext", "log_imm", "log_shift"))
    while True:
        values = {name: source.randrange(1 << width) for name, _, width in TABLE[row].fields}
        values |= {name: source.choice((*POOL, rd)) for name in ("rn", "rm") if name in values}
        made = TABLE[row].word(values | {"rd": rd})
        if decode(made) is not None:
            return made


def drawn_comparison(source: random.Random) -> list[int]:
    """Instructions that compare, and what may come before them."""
    register = source.choice((*POOL, ZERO))
    row = source.choice(("data_word", *BRANCHES, "difference"))
    if row == "data_word":
        return [data_word(source)]
    fields = {"op": source.randrange(2), "rt": register}
    if row == "test_branch":
        return [word(row, b5=source.randrange(2), b40=source.randrange(32), imm14=1, **fields)]
    branch = word("cmp_branch", sf=source.randrange(2), imm19=1, **fields)
    return [*[before_zero(source, register)] * (row == "difference"), branch]


def drawn_program(seed: int) -> tuple[list[int], list[int]]:
    """A program of comparisons and of calls, and the places of the functions that it calls: by BL,
    by BLR, and by B from a function that is none of them."""
    source = random.Random(seed)
    body: list[int] = []
    for register in POOL:
        body += move(register, source.choice((source.getrandbits(64), source.randrange(9))))
    calls: list[int] = []
    while len(body) < WORDS:
        body += drawn_comparison(source)
        if source.random() < 0.1:
            calls.append(len(body))
            body += [word("branch_reg", opc=1, rn=ADDRESS)] * 2
    body += [*move(8, 0), SERVICE]
    functions = [len(body), len(body) + 1, len(body) + 2]
    returns, jumps = word("branch_reg", opc=2, rn=30), word("branch", imm26=-3)
    body += [returns, returns, returns, jumps]
    for at in calls:
        by = source.choice((*functions, functions[-1] + 1)) - at
        body[at] = word("adr", immhi=by, rd=ADDRESS)
        if source.random() < 0.5:
            body[at + 1] = word("branch", op=1, imm26=by - 1)
    return body, functions[:2]


def entered(found: Iterable[Comparison], room: int) -> list[Comparison]:
    """What is in the entries: each address has eight places, of which the operands choose one."""
    places: dict[int, Comparison] = {}
    for it in found:
        group = it.pc // 4 % (room // 8)
        places[group * 8 + hash_of(it.left, it.right) % 8] = it
    return sorted(places.values(), key=lambda it: (it.pc, it.step))


def told_of(shared: pathlib.Path, cases: list[dict[str, Any]], path: pathlib.Path) -> list[Any]:
    """What the library enters of each case, for which the same is run in slices, and without
    comparisons."""
    path.write_text(json.dumps(cases), encoding="utf-8")
    said = told(shared, f"""
import dataclasses, json, pathlib

for it in json.loads(pathlib.Path({str(path)!r}).read_text()):
    image, functions, room = bytes.fromhex(it["image"]), it["functions"], it["room"]
    with Fuzz(image, setup=[0]) as fuzz:
        plain, counts = fuzz.run({INPUT!r}), fuzz.counts
        run, found = fuzz.compare({INPUT!r}, functions=functions, room=room)
        assert run == plain and fuzz.counts == counts
        again, others = fuzz.compare({INPUT!r}, it["cuts"], functions, room)
        assert (again, others) == (run, found) and fuzz.counts == counts
    print(json.dumps([(*dataclasses.astuple(one)[:5], str(one.kind), one.width) for one in found]))
""")
    return [json.loads(line) for line in said.splitlines()]


def test_comparisons_are_those_of_the_trace(shared: pathlib.Path, alone: pathlib.Path,
                                            tmp_path: pathlib.Path) -> None:
    """Of drawn programs of each row that compares, of programs that are drawn for other tests, and
    of compiled ones: step, address, operands and kind of each entry, in arrays of any length."""
    runner, source = Runner(alone, tmp_path), random.Random(8)
    drawn = [drawn_program(seed) for seed in range(DRAWN)]
    drawn += [(programs.draw(seed).words, []) for seed in range(DRAWN)]
    drawn += [(pointers.draw(seed).words, []) for seed in range(DRAWN)]
    cases, wanted, kinds = [], [], Counter[str]()
    for words, places in drawn:
        at, _ = runner.trace(words)
        functions = [at[0].step.pc + 4 * place for place in places]
        room = 1 << source.randrange(8, 17)
        wanted.append(entered(comparisons(at, functions), room))
        kinds += Counter(it.kind for it in wanted[-1])
        cases.append({"image": program(words).hex(), "functions": functions, "room": room,
                      "cuts": [source.choice((1, 7, 1000)) for _ in range(40)] + [1 << 20]})
    found = told_of(shared, cases, tmp_path / "cases")
    assert found == [[list(dataclasses.astuple(it)) for it in them] for them in wanted]
    assert len(kinds) == 10 and min(kinds.values()) >= DRAWN, kinds


def test_lengths_and_bytes(shared: pathlib.Path) -> None:
    """Arrays of other lengths change nothing; bytes are those of the machine after its run, where
    they may be read."""
    assert told(shared, BEGIN + """
from tombolopan.abi import _library, _AloneEnd, _Comparisons, _Fuzz, _FuzzInput
end, none = _AloneEnd(), _Fuzz()
text, cuts = ctypes.create_string_buffer(b"A"), (ctypes.c_uint32 * 1)(100)
given = _FuzzInput(ctypes.addressof(text), 1, ctypes.addressof(cuts), 1, 0, 0)

def compared(machine, length, room):
    lent = [(ctypes.c_uint8 * max(it, 1))(*[7] * max(it, 1)) for it in (length, 48 * room)]
    at = ctypes.addressof(lent[1])
    code = _library.tb_fuzz_run_compared(
        ctypes.byref(machine), given, lent[0], length, _Comparisons(at, 0, at, room),
        ctypes.byref(end))
    assert end.code == code and (code == OK or all(set(it) == {7} for it in lent))
    return code

wrong, right = (0, 1, 8, 128, 255, 300, 65535, 131072), (256, 512, 65536)
machine = fuzz._machine
assert {compared(machine, 256, it) for it in wrong} == {BAD_ARGUMENT}
assert {compared(machine, it, 256) for it in wrong} == {BAD_ARGUMENT}
assert {compared(machine, 256, it) for it in right} == {OK}
assert {compared(none, *it) for it in ((256, 256), (0, 256), (256, 0))} == {NO_MACHINE}
fuzz.run(b"A")
assert fuzz.read(0x10000, 8) == fuzz.read(0x10000, 4) + fuzz.read(0x10004, 4)
assert fuzz.read(0x10000, 8) in image and fuzz.read(0x10000, 0) == b""
for address in (0, 0x10ffe, 1 << 55):
    try:
        print(fuzz.read(address, 4))
    except KeyError as error:
        assert error.args == (address,)
fuzz.close()
for call in (lambda: fuzz.read(0x10000, 4), lambda: fuzz.compare(b"")):
    try:
        call()
    except ValueError as error:
        print(error)
""") == "the machine is closed\n" * 2
