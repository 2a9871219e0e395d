"""Worked accesses, steps and runs over the library's memories: bytes, tags and faults by the rules
of the manual (Arm ARM DDI 0487, "The Memory Tagging Extension" and C6.2)."""

import pathlib

from tests.support.places import ROOT
from tests.test_python_package import told

BEGIN = """
def fault_of(call):
    return refused(call, Fault)

def with_program(*words, places=5):
    memory = Memory(places=places)
    memory.map(0x3fffb000, 0x5000, 15)
    memory.load(0x3fffb000, b"".join(it.to_bytes(4, "little") for it in words))
    return memory, Regs(pc=0x3fffb000, sp=0x40000000, rgsr_seed=1)
"""


def test_accesses_over_two_granules(shared: pathlib.Path) -> None:
    """One that reaches a granule with another tag is refused there, writes nothing and sets no
    flag; without a comparison it passes."""
    assert told(shared, BEGIN + """
memory = Memory(places=4)
memory.map(0x3fffc000, 4096, 11)
memory.store_tags(0x3fffc000, 1, 1)
assert (memory.load_tag(0x3fffc00f), memory.load_tag(0x3fffc010)) == (1, 0)
at = 1 << 56 | 0x3fffc00c
said = "TagCheck: a %s at 0x3fffc010, pointer tag 1, memory tag 0"
assert fault_of(lambda: memory.read(at, 8)) == said % "read"
assert fault_of(lambda: memory.write(at, b"8" * 8)) == said % "write"
assert not memory.pending and memory.read(at, 8, check=False) == bytes(8)
memory.write(at - 4, bytes(range(1, 9)))
assert memory.read(at - 4, 8) == bytes(range(1, 9))
""") == ""


def test_pages_that_come_again(shared: pathlib.Path) -> None:
    """They are zero, and so are their tags; an access may reach over both."""
    assert told(shared, """
memory = Memory(places=2)
memory.map(0x10000, 0x2000, 11)
memory.write(0x10ffc, bytes(range(1, 9)), check=False)
memory.store_tags(0x10ff0, 2, 4)
assert memory.read(4 << 56 | 0x11004, 8) == bytes(8)
memory.unmap(0x10000, 0x1000)
memory.unmap(0x11000, 0x1000)
assert memory.regions() == []
memory.map(0x10000, 0x1000, 11)
memory.map(0x11000, 0x1000, 11)
assert (memory.load_tag(0x10ff0), memory.load_tag(0x11000)) == (0, 0)
assert memory.read(0x10ffc, 8) == bytes(8)
""") == ""


def test_asynchronous_accesses(shared: pathlib.Path) -> None:
    """One that a page refuses, at its last byte, faults and sets no flag, whatever its tags; one
    whose tag alone differs completes and sets it."""
    assert told(shared, BEGIN + """
memory = Memory(places=2, asynchronous=True)
memory.map(0x3fffe000, 4096, 11)
memory.map(0x3ffff000, 4096, 1)
memory.store_tags(0x3fffe000, 1, 1)
assert fault_of(lambda: memory.write(2 << 56 | 0x3fffeff9, bytes(8))) == (
    "Permission: a write at 0x3ffff000")
assert not memory.pending
memory.write(1 << 56 | 0x3fffe00c, b"\\x05" + bytes(7))
assert memory.pending and memory.read(0x3fffe00c, 8) == b"\\x05" + bytes(7)
""") == ""


def test_a_page_of_text(shared: pathlib.Path) -> None:
    """Fetches that are not aligned, or of no page; a store to what may only be executed."""
    assert told(shared, BEGIN + """
memory = Memory(places=1)
memory.map(0x10000, 4096, R | X)
for pc, said in ((0x10001, "PcAlignment: a read at 0x10001"),
                 (0x11000, "Translation: a read at 0x11000")):
    assert str(step(memory, Regs(pc=pc)).fault) == said
assert step(memory, Regs(pc=0x10000)).code == Code.ILLEGAL
assert fault_of(lambda: memory.write(3 << 56 | 0x10ff8, bytes(8))).startswith(
    "Permission: a write at 0x10ff8")
assert [hex(it) for it in memory.regions()[0]] == ["0x10000", "0x1000", "0x5"]
""") == ""


def test_what_is_loaded_and_not_mapped(shared: pathlib.Path) -> None:
    """Bytes come to pages that may not be written, whatever the address's tag; three pages do not
    fit into two places; a page in the range of the heap's mappings is like any other."""
    assert told(shared, BEGIN + """
memory = Memory(places=2)
memory.map(0x10000, 0x2000, R)
memory.load(4 << 56 | 0x10ffc, bytes(range(1, 9)))
assert memory.read(4 << 56 | 0x10ffc, 8) == bytes(range(1, 9))
assert step(memory, Regs(pc=0x10fc0)).code == Code.FAULT
memory = Memory(places=2)
assert refused(lambda: memory.map(0x10000, 0x3000, 11), MappingError) == "no room at 0x10000"
assert memory.regions() == []
assert fault_of(lambda: memory.load_tag(0x10008)) == "Translation: a read at 0x10000"
memory.map(0x3d002000, 0x1000, 11)
assert memory.read(0x3d002000, 8) == bytes(8)
""") == ""


def test_the_end_of_a_page(shared: pathlib.Path) -> None:
    """A run enters a page at any of its last words, and the page after it is not mapped; the
    address after the last one is 0."""
    assert told(shared, """
for first in (0x10fc0, 0x10fc4, 0x10ffc):
    memory = Memory(places=1)
    memory.map(0x10000, 4096, R | X)
    memory.load(first, ADD * ((0x11000 - first) // 4))
    regs = Regs(pc=1 << 56 | first)
    stop = run(memory, regs, 100)
    assert (stop.code, stop.fault.kind, stop.fault.address) == (
        Code.FAULT, FaultKind.TRANSLATION, 0x11000)
    assert (regs.x0, regs.pc & (1 << 56) - 1) == ((0x11000 - first) // 4, 0x11000)
memory = Memory(places=2)
memory.map(0xfffffffffff000, 4096, R | X)
memory.load(0xfffffffffffffc, ADD)
for attempt in (run, step):
    regs = Regs(pc=0xfffffffffffffc)
    attempt(memory, regs, 1) if attempt is run else attempt(memory, regs)
    assert (regs.x0, regs.pc) == (1, 0)
""") == ""


def test_runs_of_a_few_instructions(shared: pathlib.Path) -> None:
    """A run stops where its steps end, at a service, and at a page that is not mapped."""
    assert told(shared, BEGIN + """
# mov x0, sp; sub x0, x0, #256; str x0, [x0, #64]; add x1, x0, #64; ldr x2, [x1], #8; svc #0
memory, regs = with_program(0x910003e0, 0xd1040000, 0xf9002000, 0x91010001, 0xf8408422,
                            0xd4000001)
five = run(memory, regs, 5)
assert [five.left, *regs.x[:3]] == [0, 0x3fffff00, 0x3fffff48, 0x3fffff00]
more = run(memory, regs, 9)
assert (more.code, more.left, regs.pc) == (Code.SVC, 8, 0x3fffb014)
regs.pc = 0x40000000
assert str(step(memory, regs).fault) == "Translation: a read at 0x40000000"
# add x0, x1, x2; b .+8; ldr x0, [x1]
memory, regs = with_program(0x8b020020, 0x14000002, 0, 0xf9400020)
regs.x1, regs.x2 = 40, 2
assert (run(memory, regs, 2).left, regs.x0, regs.pc) == (0, 42, 0x3fffb00c)
stop = run(memory, regs, 2)
assert (str(stop.fault), regs.x0, regs.pc) == ("Translation: a read at 0x28", 42, 0x3fffb00c)
""") == ""


def test_programs_stop_where_they_should(shared: pathlib.Path) -> None:
    """A load through the untagged pointer, one with base SP and write-back, and one that passes a
    granule's end; a word without a meaning; a branch to an odd address. A pair whose second granule
    has another tag is not stored at all."""
    assert told(shared, BEGIN + """
TAGS = (0xd2a7ffe0, 0x91403000, 0x9adf1001, 0xd9200821)
for words, said, pc, left in (
    ((*TAGS, 0xf9000021, 0xf9400022, 0xf9400002),
     "TagCheck: a read at 0x3fffc000, pointer tag 0, memory tag 1", 0x3fffb018, 93),
    ((0xd10083ff, 0x9adf13e1, 0xd9200be1, 0xf94003e2, 0xf8400fe2),
     "TagCheck: a read at 0x3fffffe0, pointer tag 0, memory tag 1", 0x3fffb010, 95),
    ((*TAGS, 0xf840c022), "TagCheck: a read at 0x3fffc010, pointer tag 1, memory tag 0",
     0x3fffb010, 95),
    ((0,), "None", 0x3fffb000, 99),
    ((0xd2a00020, 0x91000400, 0xd61f0000), "PcAlignment: a read at 0x10001", 0x10001, 96),
    ((*TAGS, 0xa9008c22), "TagCheck: a write at 0x3fffc010, pointer tag 1, memory tag 0",
     0x3fffb010, 95),
):
    memory, regs = with_program(*words)
    if words[-1] == 0xa9008c22:
        regs.x2, regs.x3 = 0x1122334455667788, 0x99aabbccddeeff00
    stop = run(memory, regs, 100)
    assert (str(stop.fault), stop.left, regs.pc) == (said, left, pc), (stop, regs)
    assert memory.read(0x3fffc010, 16, check=False) == bytes(16)
assert (stop.code, memory.read(0x3fffc000, 16, check=False)) == (Code.FAULT, bytes(16))
""") == ""


def test_pages_of_two_memories_in_turns(shared: pathlib.Path) -> None:
    """Other words at the same addresses: each run does what its memory has."""
    assert told(shared, """
def text_of(second):
    memory = Memory(places=1)
    memory.map(0x10000, 4096, R | X)
    memory.load(0x10000, bytes([0, second, 0, 0x91, 0xff, 0xff, 0xff, 0x17]))
    return memory

one, two, regs = text_of(4), text_of(8), Regs(pc=0x10000)
for _ in range(3):
    run(one, regs, 4)
    run(two, regs, 6)
assert (regs.x0, regs.pc) == (24, 0x10000)
""") == ""


def test_masks_of_logical_immediates(shared: pathlib.Path) -> None:
    """ORR of the zero register is the mask, as an assembler encodes it; words of no mask are no
    instructions."""
    assert told(shared, """
def mask(n, imms, immr, width):
    word = 0x320003e0 | (width == 64) << 31 | n << 22 | immr << 16 | imms << 10
    memory, regs = Memory(places=1), Regs(pc=0x10000)
    memory.map(0x10000, 4096, R | X)
    memory.load(0x10000, word.to_bytes(4, "little"))
    stop = step(memory, regs)
    return None if stop.code == Code.ILLEGAL else regs.x0

assert [mask(1, 0, 0, 64), mask(0, 0x3c, 1, 32), mask(0, 0x27, 8, 64), mask(1, 62, 63, 64),
        mask(0, 0x32, 2, 64), mask(0, 30, 0, 32)] == [
    1, 0xaaaaaaaa, 0xff00ff00ff00ff00, (1 << 64) - 2, 0xc1c1c1c1c1c1c1c1, 0x7fffffff]
assert [mask(0, 0x3d, 0, 32), mask(0, 0x3f, 0, 32), mask(1, 0, 0, 32), mask(0, 31, 0, 32)] == [
    None] * 4
assert mask(0, 0, 0, 32) == 1
""") == ""


def test_tags_of_addresses(shared: pathlib.Path) -> None:
    """A tag is bits 59 to 56, which STG stores, LDG puts there and SUBP leaves out; a tagged read
    compares."""
    assert told(shared, """
memory = Memory()
memory.map(0x234567890b000, 4096, 15)
memory.load(0x234567890b000, bytes.fromhex("000820d9" "010060d9"))
regs = Regs(pc=0x234567890b000)
regs.x0 = 0xf1 << 56 | 0x234567890b010
regs.x1 = 0xff << 56 | 0x234567890b5ef
run(memory, regs, 1)
assert memory.load_tag(0x234567890b01f) == 1
memory.store_tags(0x234567890b010, 1, 5)
run(memory, regs, 1)
assert regs.x1 == 0xf5 << 56 | 0x234567890b5ef
""") == ""


def test_draws_of_irg(shared: pathlib.Path) -> None:
    """IRG with excluded tags, by the manual's functions: worked draws from the seed 1, from the
    seed 0, which stays; and drawn seeds, tags and exclusions, each offset among them."""
    assert told(shared, """
from tests.support.heap_model import Generator
memory = Memory()
memory.map(0x10000, 4096, R | X)
memory.load(0x10000, (0x9ac21020).to_bytes(4, "little"))  # irg x0, x1, x2

def draw(regs, exclude):
    regs.pc, regs.x1, regs.x2 = 0x10000, 0xf3 << 56 | 0x5678, exclude
    assert step(memory, regs).code != Code.ILLEGAL
    assert regs.x0 & ~(15 << 56) == regs.x1 & ~(15 << 56)
    return regs.x0 >> 56 & 15

regs = Regs(rgsr_seed=1)
assert [draw(regs, it) for it in (0x5555, 0x5557, 0x555d)] == [1, 3, 5]
assert regs.rgsr_seed == 0x8010
regs = Regs(rgsr_seed=0)
assert [draw(regs, it) for it in (0x0001, 0x0001, 0xffff)] == [1, 1, 0] and regs.rgsr_seed == 0
drawn, offsets = random.Random(3), set()
for _ in range(4000):
    seed, tag = drawn.getrandbits(16), drawn.randrange(16)
    exclude = drawn.getrandbits(16) | drawn.choice((0, 0x5555, 0xfffe, 0xffff))
    regs, model = Regs(rgsr_seed=seed, rgsr_tag=tag), Generator(seed, tag)
    wanted = model.draw(exclude | 1)
    offsets.add((model.seed >> 12, exclude))
    assert (draw(regs, exclude), regs.rgsr_tag, regs.rgsr_seed) == (wanted, wanted, model.seed)
assert len({it for it, _ in offsets}) == 16
""") == ""


def test_accesses_of_instructions(shared: pathlib.Path) -> None:
    """Kind, address and size of each access of a run, over x1 and x2, and what a pair writes."""
    assert told(shared, """
READS, WRITES, READS_TAG, WRITES_TAG = ACCESS_READ, ACCESS_WRITE, ACCESS_READ_TAG, ACCESS_WRITE_TAG

def access_of(word, x1):
    memory, regs = Memory(), Regs([0, x1, 3], pc=0x10000)
    memory.map(0x10000, 4096, R | X)
    memory.map(0x1000, 4096, R | W | T)
    memory.store_tags(0x1000, 16, 2)
    memory.load(0x10000, word.to_bytes(4, "little"))
    return [it[1:] for it in hook_mem(memory, regs, 1)]

for word, kind, address, size in (
    (0xf9400820, READS, 0x0200000000001028, 8),  # ldr x0, [x1, #16]
    (0x38001420, WRITES, 0x0200000000001018, 1),  # strb w0, [x1], #1
    (0x78e27820, READS, 0x020000000000101e, 2),  # ldrsh w0, [x1, x2, lsl #1]
    (0x18000040, READS, 0x10008, 4),  # ldr w0, .+8
    (0xa9bf0820, WRITES, 0x0200000000001008, 16),  # stp x0, x2, [x1, #-16]!
    (0x69400820, READS, 0x0200000000001018, 8),  # ldpsw x0, x2, [x1]
    (0xd9600020, READS_TAG, 0x0200000000001010, 16),  # ldg x0, [x1]
):
    assert [(it[4], it[0], it[3]) for it in access_of(word, 0x0200000000001018)] == [
        (kind, address, size)], hex(word)
# st2g x0, [x1, #16]; stgp x0, x2, [x1, #16]: their granules are whole
for word, kind, size in ((0xd9a01820, WRITES_TAG, 32), (0x69008820, WRITES | WRITES_TAG, 16)):
    assert [(it[4], it[0], it[3]) for it in access_of(word, 0x0200000000001020)] == [
        (kind, 0x0200000000001030, size)], hex(word)
assert access_of(0xa9bf0820, 0x0200000000001018)[0][1:3] == (0, 3)
assert access_of(0xd4000001, 0) == []
""") == ""


def test_accesses_of_drawn_words(shared: pathlib.Path) -> None:
    """Loads and stores of drawn words and registers: whether they read or write, how many bytes
    and where, by a second decoder and the manual's addresses."""
    assert told(shared, f"import sys\nsys.path.insert(0, {str(ROOT / 'tools')!r})\n" + """
from tests.reference import accesses
from tests.reference.decode import decode

def address_of(it, access, regs):
    base = regs.sp if access.base == 31 else regs.x[access.base]
    if access.write_back == "post":
        return base
    if access.index is not None:
        number = 0 if access.index == 31 else regs.x[access.index]
        return base + (number << (it["size"] if it["s"] else 0))
    if it.row == "ld_st_imm":
        return base + (it["imm12"] << it["size"])
    scale = 16 if it.row == "st_g_p" else access.size
    return base + (it["imm9"] if "imm9" in it.fields else it["imm7"] * scale)

drawn, seen = random.Random(9), {}
memory = Memory()
memory.map(0x100000, 4096, R | X)
memory.map(0x1000, 0x1e000, R | W)
for _ in range(12000):
    word = drawn.getrandbits(32) & 0xf1ffffff | 0x08000000
    it = decode(word)
    wanted = accesses.access_of(it) if it else None
    regs = Regs([drawn.randrange(0x2000, 0x2800) & -16 for _ in range(31)], pc=0x100000, sp=0x2400)
    memory.load(0x100000, word.to_bytes(4, "little"))
    before = regs.copy()
    found = list(hook_mem(memory, regs, 1))
    assert found == [] or it and (wanted or it.row in accesses.TAGS), hex(word)
    if wanted and found and wanted.base is not None:
        size = wanted.size * len(wanted.registers)
        assert (found[0].write, found[0].size, found[0].address) == (
            not wanted.is_load, size, address_of(it, wanted, before)), hex(word)
        seen[it.row] = seen.get(it.row, 0) + 1
assert set(seen) == accesses.SINGLES | accesses.PAIRS and min(seen.values()) > 20, seen
""") == ""
