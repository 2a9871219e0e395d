"""Tables of heap rows and drawn heap calls by the package of Python."""

import random
from collections.abc import Iterator

from tombolopan import Code, Heap, TenantStatus, alone, heap_abort_name

from tests.support.heap_model import Generator, HeapModel
from tests.support.heap_runs import Call, calls_of, tenants_of
from tests.support.heap_tables import Row, Table

MALLOC, FREE, REALLOC, MEMALIGN, LOAD, LOAD_TAG = 1, 2, 4, 5, 7, 9
GRANULE, PAGE = 16, 4096


def answer_of(heap: Heap, before: list[Call], row: Row) -> tuple[list[Call], int, str]:
    """The calls of a row, its last answer, and why it is refused."""
    calls = calls_of(row)
    if row.name in ("peek", "poke"):
        op, at, value = calls[0]
        tag = heap.replay([*before, (LOAD_TAG, at, 0)])[len(before)].answer
        calls = [(op, at | tag << 56, value)]
    last = heap.replay(before + calls)[len(before + calls) - 1]
    if row.name == "free_row":
        return calls, len(calls) if last.code == Code.OK else 0, ""
    if last.fault is not None:
        return calls, 0, str(last.fault.kind)
    if last.code != Code.OK:
        return calls, 0, heap_abort_name(last.answer)
    return calls, last.answer, ""


def replayed(table: Table) -> list[str]:
    """The rows of a table that a list of heap calls answers otherwise."""
    heap = Heap(cookie=0, pages=table.pages, asynchronous=table.asynchronous)
    before: list[Call] = []
    wrong = []
    for row in table.rows:
        if row.name == "pages_left":
            mapped = sum(int(it.length) for it in heap.regions(before)) // PAGE
            found = (table.pages - mapped, "")
        else:
            calls, answer, refusal = answer_of(heap, before, row)
            before += calls
            found = (answer, refusal)
        if found != (row.answer, row.refusal):
            wrong.append(f"{row}: {found[0]:#x} {found[1]}")
    return wrong


def ran_alone(table: Table) -> list[str]:
    """The tenants of a table that end otherwise, or write otherwise."""
    wrong = []
    for run in tenants_of(table):
        it = alone(run.image, pages=run.pages, asynchronous=run.asynchronous)
        end = f"{it.status} {it.number}"
        if it.fault is not None:
            end = f"fault {it.fault.kind}"
        elif it.status == TenantStatus.ABORT:
            end = f"abort {heap_abort_name(it.number)}"
        if (end, it.output) != (run.end, run.output):
            wrong.append(f"{end}, not {run.end}: {it.output.hex()}, not {run.output.hex()}")
    return wrong


def drawn_calls(drawn: random.Random, model: HeapModel, count: int) -> Iterator[tuple[Call, int]]:
    """Calls that a careful program makes, headers and tags between them, and what they answer."""
    for _ in range(count):
        live = [user | it.tag << 56 for user, it in model.chunks.items()]
        size = drawn.choice((drawn.randrange(64), drawn.randrange(700), drawn.randrange(140000),
                             drawn.randrange(1 << 20), 131056, 131057))
        kind = drawn.random() if live else 0.0
        if kind < 0.5:
            yield (MALLOC, size, 0), model.malloc(size)
        elif kind < 0.6:
            alignment = 1 << drawn.randrange(13)
            yield (MEMALIGN, alignment, size), model.memalign(alignment, size)
        elif kind < 0.85:
            yield (FREE, pointer := drawn.choice(live), 0), model.free(pointer)
        else:
            pointer, size = drawn.choice(live), size or 1
            yield (REALLOC, pointer, size), model.realloc(pointer, size)
        if model.headers:
            user = drawn.choice(sorted(model.headers))
            yield (LOAD, user - GRANULE, 0), model.headers[user]
        if model.tags:
            at = drawn.choice(sorted(model.tags))
            yield (LOAD_TAG, at, 0), model.tags[at]


def drawn_run(seed: int, count: int = 200) -> None:
    """Compares a run of drawn calls with the model, and the pages after it."""
    drawn = random.Random(seed)
    cookie, first, pages = drawn.getrandbits(32), drawn.getrandbits(16), drawn.choice(
        (40, 400, 4096))
    model = HeapModel(pages, cookie, Generator(first))
    rows = list(drawn_calls(drawn, model, count))
    heap = Heap(cookie=cookie, pages=pages, rgsr_seed=first)
    replay = heap.replay([call for call, _ in rows])
    for (call, wanted), answer, code in zip(rows, replay.answers(), replay.codes()):
        assert (answer, code) == (wanted, 0), (seed, call, hex(answer), hex(wanted))
    mapped = sum(it.length for it in heap.regions([call for call, _ in rows])) // PAGE
    assert pages - mapped == model.left()
