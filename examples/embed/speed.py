"""Measures hooks and replays: entries and heap calls a processor second.

    examples/embed/speed.py [PAGES [STEPS]]

PAGES (2) is how many pages the memory of the hooked runs has, STEPS (1,000,000) how many
instructions these have; heap calls are a quarter as many.
"""
from __future__ import annotations

import random
import sys
import time
from collections.abc import Callable
from ctypes import byref, c_uint64

from tombolopan import EXEC, FREE, MALLOC, READ, WRITE, Answer, Heap, Memory, Regs
from tombolopan import abi, hook_code, hook_mem, replays, run

CODE, DATA = 0x10000, 0x20000
# str x2, [x0]; ldr x3, [x0]; ldr x4, [x0, #8]; str x5, [x0, #8]; b to the first
LOOP = (0xF9000002, 0xF9400003, 0xF9400404, 0xF9000405, 0x17FFFFFC)


def machine(pages: int) -> tuple[Memory, Regs]:
    """A memory whose last two pages have the loop and what it loads and stores."""
    memory = Memory()
    memory.map(0x100000, max(pages - 2, 0) * 4096, READ)
    memory.map(CODE, 4096, READ | EXEC)
    memory.map(DATA, 4096, READ | WRITE)
    memory.load(CODE, b"".join(it.to_bytes(4, "little") for it in LOOP))
    return memory, Regs(pc=CODE, x0=DATA)


def drawn_trace(calls: int) -> list[replays.Step]:
    """Allocations of up to 400 bytes, of which nearly half are freed in between."""
    drawn, live = random.Random(1), list[int]()
    steps: list[replays.Step] = []
    for number in range(1, calls + 1):
        if live and drawn.random() < 0.48:
            steps.append((FREE, Answer(live.pop(drawn.randrange(len(live)))), 0))
        else:
            steps.append((MALLOC, drawn.randrange(1, 400), 0))
            live.append(number)
    return steps


def tell(what: str, count: int, call: Callable[[], object]) -> None:
    """Writes how many a processor second."""
    begin = time.process_time()
    call()
    print(f"{what}: {count / (time.process_time() - begin) / 1e6:.2f} million a second")


def of_run(pages: int, steps: int) -> float:
    """The least processor time of some runs of the loop."""
    times = []
    for _ in range(9):
        memory, regs = machine(pages)
        begin = time.process_time()
        run(memory, regs, steps)
        times.append(time.process_time() - begin)
    return min(times)


def main() -> None:
    """Measures each once."""
    pages = int(sys.argv[1]) if len(sys.argv) > 1 else 2
    steps = int(sys.argv[2]) if len(sys.argv) > 2 else 1_000_000
    ratio = of_run(pages, steps) / of_run(4, steps)
    print(f"a run over {pages} pages: {ratio:.2f} times that over 4")
    tell("accesses, iterated", steps * 4 // 5,
         lambda: sum(1 for _ in hook_mem(*machine(pages), steps)))
    tell("instructions, iterated", steps, lambda: sum(1 for _ in hook_code(*machine(pages), steps)))
    tell("accesses, by a callback", steps * 4 // 5,
         lambda: hook_mem(*machine(pages), steps).each(lambda it: None))
    heap, calls, bad = Heap(pages=4096), drawn_trace(steps // 4), c_uint64()
    tell("heap calls, from a list of Python", len(calls), lambda: heap.replay(calls))
    made = (abi._HeapStep * len(calls))()
    replays._enter(memoryview(made).cast("B"), calls)
    tell("heap calls, tb_heap_replay alone", len(calls), lambda: abi._library.tb_heap_replay(
        byref(heap._setup), made, len(calls), byref(bad)))


if __name__ == "__main__":
    main()
