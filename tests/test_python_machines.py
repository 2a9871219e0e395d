"""A tenant's machine in Python, which is changed between its slices, beside the tenant alone."""

import pathlib

from tests.support import small_programs
from tests.support.growth import MEASURED
from tests.support.instructions import call, move, program
from tests.support.places import IMAGES
from tests.test_python_package import told

# malloc(24); mov x9, x0; yield; ldr x0, [x9]; exit with it.
IMAGE = program(*call(3, 24), 0xAA0003E9, *call(9), 0xF9400120, *move(8, 0), 0xD4000001)
BEGIN = f"image = bytes.fromhex('{IMAGE.hex()}')\n"


def test_a_machine_is_the_tenant_alone(shared: pathlib.Path) -> None:
    """Images of the suite, cut into slices of drawn lengths, in both modes: behind each slice the
    machine has the status, the steps, the output and the heap calls of the tenant alone."""
    names = sorted(str(it) for it in IMAGES.glob("*.elf"))
    assert len(names) >= 10
    assert told(shared, f"""
import pathlib
drawn, cuts, tried = random.Random(6), [], 0
for name in {names!r}:
    data, mode = pathlib.Path(name).read_bytes(), drawn.random() < 0.5
    try:
        machine, cuts = Machine(data, pages=64, asynchronous=mode), []
    except Refused as error:
        assert refused(lambda: alone(data, pages=64, asynchronous=mode), Refused) == str(error)
        continue
    while machine.is_running and len(cuts) < 8:
        cuts.append(drawn.choice((0, 1, 2, 7, 100, 5000)))
        found = machine.slice(cuts[-1])
        assert found == machine.tenant
        assert found == alone(data, slices=cuts, pages=64, asynchronous=mode), (name, cuts)
        tried += 1
print(tried > 40)
""") == "True\n"


def test_changes_between_slices(shared: pathlib.Path) -> None:
    """Registers, bytes at any address and tags; the heap's page is mapped by the first service."""
    assert told(shared, BEGIN + """
machine = Machine(image, pages=64, room=16)
code = Region(0x10000, 4096, R | X)
assert machine.regions() == [code, Region(0x3fffc000, 0x4000, R | W | T)]
seen = [(it.steps, hex(machine.regs.pc)) for it in machine.slices(100)][:1]
assert machine.tenant.status == TenantStatus.EXIT and machine.tenant.number == 0
again = Machine(image, pages=64, room=16)
assert [(again.slice(100).steps, hex(again.regs.pc))] == seen == [(6, "0x10018")]
chunk = again.regs.x9
assert again.load_tag(chunk) == 1 and again.load_tag(0x10000) == 0
assert again.read(chunk, 24) == bytes(24) and again.read(chunk, 0) == b""
again.write(chunk + 3, b"abc")
again.write(chunk + 13, b"0123456")
again.write(chunk, b"")
assert again.read(chunk + 1, 23) == b"\\0\\0abc" + bytes(7) + b"0123456" + bytes(4)
heap = [it for it in again.regions() if it.address == 0x12000000]
assert [it.attrs for it in heap] == [R | W | T]
again.write(chunk, (300).to_bytes(8, "little"))
assert again.regs.x9 == chunk
assert (again.slice(100).number, again.regs.x0) == (300 % 256, 300)
before = repr(again)
assert again.slice(100) == again.tenant and repr(again) == before
third = Machine(image, pages=64, room=16)
third.regs.pc, third.regs.x0 = 0x1001c, 7
assert (third.slice(9).number, third.tenant.steps) == (7, 2)
""") == ""


def test_what_a_machine_refuses(shared: pathlib.Path) -> None:
    """Each number out of range by its name, each fault; what is refused is not entered."""
    assert told(shared, BEGIN + """
for call in (lambda: Machine(image, seed=-1), lambda: Machine(image, seed=1 << 64),
             lambda: Machine(image, pages=-1), lambda: Machine(image, pages=1 << 32),
             lambda: Machine(image, room=-1), lambda: Machine(image, room=1 << 32)):
    assert " is " in refused(call)
assert refused(lambda: Machine("text"), TypeError) == "image is bytes, and not a str"
assert refused(lambda: Machine(b""), Refused) == refused(lambda: alone(b""), Refused)
assert refused(lambda: Machine(image, pages=4), Refused) == "ReservationTooSmall"
machine = Machine(image, pages=64)
machine.slice(100)
entered, tenant = len(machine._acts), machine.tenant
for call in (lambda: machine.slice(-1), lambda: machine.slice(1 << 32),
             lambda: next(machine.slices(-1)), lambda: machine.read(-1, 1),
             lambda: machine.read(1 << 64, 1), lambda: machine.read(0x10000, -1),
             lambda: machine.read(0x10000, 1 << 32), lambda: machine.write(-8, b"x"),
             lambda: machine.load_tag(1 << 64)):
    refused(call)
assert refused(lambda: machine.read(0x8000, 8), Fault) == "Translation: a read at 0x8000"
assert refused(lambda: machine.write(0x10004, b"x"), Fault) == "Permission: a write at 0x10000"
assert refused(lambda: machine.read(0x10ffc, 8), Fault) == "Translation: a read at 0x11000"
machine.regs.nzcv = 1 << 31
assert "x0 to x30, sp and pc" in refused(lambda: machine.slice(1))
machine.regs.nzcv = 0
assert (len(machine._acts), machine.tenant) == (entered, tenant)
assert machine.slice(100).steps == 9
""") == ""


def test_nothing_grows_by_machines(shared: pathlib.Path) -> None:
    """Thousands of machines take no more memory than the first of them."""
    assert told(shared, BEGIN + """
def turn():
    machine = Machine(image, pages=16)
    machine.slice(100)
    machine.write(machine.regs.x9, b"12345678")
    assert len(machine.regions()) == 3 and machine.slice(100).number == 0x31
""" + MEASURED) == "\n"


# A machine step by step: each instruction is tested for care, and after each the chunks that were
# given are compared with the laws of docs/PROVED.md.
WATCHED = """
PLAIN, SVC = (1 << 56) - 1, 0xd4000001
MALLOC, FREE, CALLOC, REALLOC, MEMALIGN = range(3, 8)

def header(machine, pointer):
    return machine.read((pointer & PLAIN) - 16, 8)

def may_read(machine, pointer):
    try:
        return machine.load_tag(pointer) == pointer >> 56 & 15
    except Fault:
        return False

def stores_tags(word):
    return word & 0xff200000 == 0xd9200000 and word & 0xc00 != 0 or word & 0xfe400000 == 0x68000000

def is_lawful(machine, pointer, size, is_live):
    if not is_live:
        return not may_read(machine, pointer)
    end = pointer + (size + 15 & ~15)
    inside = [may_read(machine, it) for it in range(pointer, end, 16)]
    return all([*inside, may_read(machine, end - 1)]) and not any(
        may_read(machine, it) for it in (pointer - 1, end))

def watched(image, slices):
    machine, chunks, is_careful, steps = Machine(image, seed=5, pages=60, room=16), {}, True, 0
    while machine.is_running and steps < sum(slices):
        x, word = list(machine.regs.x), int.from_bytes(machine.read(machine.regs.pc, 4), "little")
        call = x[8] if word == SVC else 0
        if call in (FREE, REALLOC):
            known = chunks.get(x[0] & PLAIN)
            is_careful &= bool(known) and (known[0], known[2], known[3]) == (
                x[0], header(machine, x[0]), True)
            chunks[x[0] & PLAIN] = (*known[:3], False)
        is_careful &= not stores_tags(word)
        machine.slice(1)
        steps += 1
        sizes = {MALLOC: x[0], CALLOC: x[0] * x[1], REALLOC: x[1], MEMALIGN: x[1]}
        if call in sizes:
            given = machine.regs.x0
            chunks[given & PLAIN] = (given, sizes[call], header(machine, given), True)
        assert not is_careful or all(
            is_lawful(machine, pointer, size, is_live)
            for pointer, size, _, is_live in chunks.values()), (steps, chunks)
    return is_careful, len(chunks), machine.tenant
"""


def test_a_careful_tenant(shared: pathlib.Path) -> None:
    """The chunks of a tenant that is careful may be used to their last granule and not around it,
    and freed ones are out of reach. A tenant that stores a tag is not careful."""
    careful, careless = (program(it).hex() for it in (small_programs.CAREFUL,
                                                      small_programs.CARELESS))
    assert told(shared, WATCHED + f"""
is_careful, count, tenant = watched(bytes.fromhex({careful!r}), [7, 1, 20, 100])
assert is_careful and count >= 3 and (tenant.status, tenant.steps) == (TenantStatus.FAULT, 40)
is_careful, _, tenant = watched(bytes.fromhex({careless!r}), [7, 1, 20, 100])
assert not is_careful and tenant.status == TenantStatus.EXIT
""") == ""
