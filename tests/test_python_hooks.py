"""Hooks and replays of the package of Python, beside traces and calls that are made one by one."""

import pathlib

from tests.support.growth import MEASURED
from tests.test_python_package import told

DRAWN = """
WORDS = (0x39400022, 0xf9400041, 0xb9001041, 0xa9400440, 0xa9000440, 0xf8408c41, 0xf8008441,
         0x58000041, 0x91000400, 0xd503201f, 0xd9200841, 0xd9600041, 0xd9a00841, 0x91004042,
         0x69000440, 0x14000002, 0x54000040)
PLACES = (0x20000, 0x20ff8, 0x20ffc, 0x10000, 0x10010, 0x10ff8, 5 << 56 | 0x20000, 0x1fff8)

def ended(stop):
    return stop.code, stop.number, stop.left, str(stop.fault)

def drawn_machine(drawn, turn):
    memory = Memory(asynchronous=turn % 3 == 0)
    for at in (0x10000, 0x11000):
        memory.map(at, 4096, drawn.choice((R | W | X, R | X, 15)))
        memory.load(at, b"".join(drawn.choice(WORDS).to_bytes(4, "little") for _ in range(1024)))
    memory.map(0x20000, 8192, 11)
    memory.store_tags(0x20000, 5, 5)
    regs = Regs([drawn.choice(PLACES) for _ in range(31)], pc=0x10000, sp=0x20100)
    return memory, regs
"""


def test_hooks_tell_what_traces_tell(shared: pathlib.Path) -> None:
    """Drawn programs over their own code, with tags, in both modes and in blocks of any length:
    the accesses of a trace, the instructions of single steps, and what a run leaves."""
    assert told(shared, DRAWN + """
drawn, entries = random.Random(7), 0
for turn in range(200):
    memory, regs = drawn_machine(drawn, turn)
    copies = [(memory.copy(), regs.copy()) for _ in range(3)]
    accesses, length = [], drawn.choice((1, 2, 7, 4096))
    want = trace(memory, regs, 60, accesses)
    one, own = copies[0]
    data = hook_mem(one, own, 60, block=length)
    found = list(data)
    assert ended(data.stop) == ended(want) and own == regs
    assert [(it.pc, it.address, it.size, it.write) for it in found] == [
        (it.pc, it.address, it.size, it.write) for it in accesses]
    assert all(a.value == b.value for a, b in zip(found, accesses) if a.kind in (1, 2, 10))
    two, seen = copies[1]
    code = hook_code(two, seen, 60, block=length)
    words = list(code)
    assert ended(code.stop) == ended(want) and seen == regs
    three, single = copies[2]
    for at, word in words:
        assert (single.pc, int.from_bytes(three.peek(at, 4), "little")) == (at, word)
        step(three, single)
    assert single == regs
    for it in (one, two, three):
        assert it.pending == memory.pending
        assert all(it.peek(at, 4096) == memory.peek(at, 4096)
                   for at in (0x10000, 0x11000, 0x20000, 0x21000))
    entries += len(found)
assert entries > 200, entries
""") == ""


def test_blocks_and_ranges_of_hooks(shared: pathlib.Path) -> None:
    """Ranges and kinds leave out what the whole list has not; blocks have all instructions."""
    assert told(shared, DRAWN + """
drawn = random.Random(3)
for turn in range(60):
    memory, regs = drawn_machine(drawn, turn)
    def hooked(hook, **words):
        return list(hook(memory.copy(), regs.copy(), 80, **words))
    code, data = hooked(hook_code), hooked(hook_mem)
    low, high = 0x10000 + 4 * drawn.randrange(9), 0x10000 + 4 * drawn.randrange(9, 40)
    assert hooked(hook_code, begin=low, end=high) == [
        it for it in code if low <= it.address <= high]
    for kinds in (0, 1, 2, 5, 10, 15):
        assert hooked(hook_mem, kinds=kinds) == [it for it in data if it.kind & kinds]
    low, high = 0x20000 + drawn.randrange(40), 0x20040 + drawn.randrange(4096)
    plain = (1 << 56) - 1
    assert hooked(hook_mem, begin=low, end=high) == [
        it for it in data if it.address & plain <= high and low < (it.address & plain) + it.size]
    blocks = hooked(hook_block)
    assert [at for it in blocks for at in range(it.address, it.address + it.size, 4)] == [
        it.address for it in code]
stopped = hook_code(memory, regs, 9, stops=[regs.pc + 4])
print(stopped.stop, [it.address - 0x10000 for it in stopped][:0])
""") == "None []\n"


def test_a_replay_is_calls_one_by_one(shared: pathlib.Path) -> None:
    """Drawn lists: the same calls with the answers in the place of references answer the same, and
    what is live is what none of them freed."""
    assert told(shared, """
drawn = random.Random(5)
for turn in range(30):
    heap, made = Heap(pages=drawn.choice((3, 20, 256)), rgsr_seed=turn + 1), []
    for number in range(1, 200):
        old = Answer(drawn.choice(made)) if made else 0
        kind = drawn.randrange(9)
        if kind < 4 or not made:
            made.append(number)
            heap.call(drawn.choice((MALLOC, MEMALIGN, CALLOC)), 1 << drawn.randrange(9), 24)
        elif kind == 4:
            heap.free(old)
        elif kind == 5:
            made.append(heap.realloc(old, drawn.randrange(2000)).number)
        elif kind == 6:
            heap.store(old + 8 * drawn.randrange(4), Answer(drawn.choice(made)))
        else:
            drawn.choice((heap.load, heap.load_tag, heap.usable_size))(old)
    found = heap.replay()
    answers, codes = found.answers(), found.codes()
    plain, taken = [], []
    for at, (op, *arguments) in enumerate(heap.steps):
        of = [it.number - 1 for it in arguments if isinstance(it, Answer)]
        if all(codes[it] == OK for it in of):
            plain.append((op, *((answers[it.number - 1] + it.offset) % 2**64
                                if isinstance(it, Answer) else it for it in arguments)))
            taken.append(at)
        else:
            assert found[at] == HeapAnswer(Code.BAD_ARGUMENT, 0, None)
    setup = heap._setup
    alone = heap_calls(plain, pages=setup.pages, rgsr_seed=setup.rgsr_seed)
    assert list(map(str, alone)) == [str(found[at]) for at in taken]
    live = found.live()
    for pointer in live:
        again = Heap(pages=setup.pages, rgsr_seed=setup.rgsr_seed)
        size = again.replay([*heap.steps, (USABLE_SIZE, pointer, 0)])[-1]
        assert size == HeapAnswer(Code.OK, live[pointer], None), (size, live[pointer])
        break
""") == ""


def test_nothing_grows_by_hooks_and_replays(shared: pathlib.Path) -> None:
    """Thousands of hooked runs and replays take no more memory than the first of them."""
    assert told(shared, """
memory = Memory()
memory.map(0x10000, 4096, R | X)
memory.load(0x10000, ADD * 3 + BRK)

def turn():
    assert sum(1 for _ in hook_code(memory, Regs(pc=0x10000), 9)) == 4
    heap = Heap(pages=16)
    heap.free(heap.malloc(24))
    assert heap.replay().codes() == [OK, OK]
""" + MEASURED) == "\n"
