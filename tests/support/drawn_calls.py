"""Draws sequences of calls of the Python package, and makes each beside a model of the object.

    python -m tests.support.drawn_calls KIND SEED COUNT FOLDER

A call with a wrong argument has to raise what the pages say, and to change nothing. Writes what it
has reached, by kind of answer. Other answers than the model's end it by an AssertionError.
"""

import copy
import pathlib
import pickle
import random
import sys
from collections import Counter
from collections.abc import Callable
from typing import Any

from tombolopan import (
    CALLOC, EXEC, FREE, LOAD, LOAD_TAG, MALLOC, READ, REALLOC, STORE, TAGGED, USABLE_SIZE, WRITE,
    Answer, Attrs, Code, Fault, FaultKind, Heap, Machine, MappingError, Memory, Region, Regs,
    Session, heap_calls, run, session, step)

from tests.support.instructions import program

PAGE, GRANULE, PLAIN = 4096, 16, (1 << 56) - 1
WRONG_NUMBERS = (-1, 1 << 64, 1 << 80, 2.5, "7", None, b"1")
WRONG_BYTES = ("text", 7, None, [1, 2], 1.5)
ADD, BACK, NOP, BREAK = 0x91000400, 0x17FFFFFF, 0xD503201F, 0xD4200000
Told = tuple[str, Any]
# Attributes, bytes, tags.
Page = tuple[int, bytearray, bytearray]


def outcome(call: Callable[[], Any]) -> Told:
    """What a call answers, or what it raises."""
    try:
        return "ok", call()
    except (Fault, MappingError) as error:
        return type(error).__name__, error.args
    except (ValueError, TypeError, KeyError) as error:
        return type(error).__name__, None


# ---- a memory


class MemoryModel:
    """Pages by their numbers: attributes, bytes, tags."""

    def __init__(self, limit: int, asynchronous: bool) -> None:
        self.limit, self.asynchronous, self.pending = limit, asynchronous, False
        self.pages: dict[int, Page] = {}

    def numbers(self, address: int, length: int) -> range:
        """The pages of a range of whole pages."""
        if address % PAGE or length % PAGE or address + length > 1 << 56:
            raise ValueError
        return range(address // PAGE, (address + length) // PAGE)

    def map(self, address: int, length: int, attrs: int) -> None:
        """All or none."""
        numbers = self.numbers(address, length)
        taken = [it for it in numbers if it in self.pages]
        if taken:
            raise MappingError(Code.ALREADY_MAPPED, taken[0] * PAGE)
        if len(self.pages) + len(numbers) > self.limit:
            raise MappingError(Code.NO_ROOM, address)
        self.pages.update({it: (attrs, bytearray(PAGE), bytearray(256)) for it in numbers})

    def mapped(self, address: int, length: int) -> range:
        """Pages that are all mapped."""
        numbers = self.numbers(address, length)
        for number in numbers:
            if number not in self.pages:
                raise MappingError(Code.NOT_MAPPED, number * PAGE)
        return numbers

    def unmap(self, address: int, length: int) -> None:
        """All or none."""
        for number in self.mapped(address, length):
            del self.pages[number]

    def protect(self, address: int, length: int, attrs: int) -> None:
        """All or none; bytes and tags stay."""
        for number in self.mapped(address, length):
            self.pages[number] = (attrs, *self.pages[number][1:])

    def page(self, address: int, write: bool, tag: int = 0) -> Page:
        """The page of an address."""
        if (address & PLAIN) // PAGE not in self.pages:
            raise Fault(FaultKind.TRANSLATION, address & PLAIN, write, tag)
        return self.pages[(address & PLAIN) // PAGE]

    def place(self, address: int, right: int, write: bool, tag: int) -> Page:
        """The page of an address, with a right."""
        found = self.page(address, write, tag)
        if not found[0] & right:
            raise Fault(FaultKind.PERMISSION, address & PLAIN, write, tag)
        return found

    def check(self, address: int, length: int, right: int, is_checked: bool) -> None:
        """Each byte in turn: its page, the right, the tag."""
        write, tag, differs = right == WRITE, address >> 56 & 15, False
        for at in range(address, address + length):
            attrs, _, tags = self.place(at, right, write, tag)
            own = tags[at % PAGE // GRANULE]
            if is_checked and attrs & TAGGED and own != tag:
                if not self.asynchronous:
                    raise Fault(FaultKind.TAG_CHECK, at & PLAIN, write, tag, own)
                differs = True
        self.pending |= differs

    def read(self, address: int, length: int, check: bool) -> bytes:
        """Bytes."""
        self.check(address, length, READ, check)
        return self.peek(address, length)

    def peek(self, address: int, length: int) -> bytes:
        """Bytes, whatever the attributes."""
        return bytes(self.page(at, False)[1][at % PAGE] for at in range(address, address + length))

    def put(self, address: int, data: bytes) -> None:
        """Bytes of mapped pages."""
        for at, byte in enumerate(data, address):
            self.pages[(at & PLAIN) // PAGE][1][at % PAGE] = byte

    def write(self, address: int, data: bytes, check: bool) -> None:
        """All or none."""
        self.check(address, len(data), WRITE, check)
        self.put(address, data)

    def load(self, address: int, data: bytes) -> None:
        """All or none, whatever the attributes."""
        for at in range(address, address + len(data)):
            if (at & PLAIN) // PAGE not in self.pages:
                raise MappingError(Code.NOT_MAPPED, (at & PLAIN) // PAGE * PAGE)
        self.put(address, data)

    def load_tag(self, address: int) -> int:
        """Of the granule; 0 of a page without TAGGED."""
        attrs, _, tags = self.place(address & -GRANULE, READ, False, address >> 56 & 15)
        return tags[address % PAGE // GRANULE] if attrs & TAGGED else 0

    def store_tags(self, address: int, granules: int, tag: int, zero: bool) -> None:
        """All or none, also where a page is without TAGGED."""
        if address % GRANULE:
            raise Fault(FaultKind.ALIGNMENT, address & PLAIN, True, address >> 56 & 15)
        places = [(at, self.place(at, WRITE, True, address >> 56 & 15))
                  for at in range(address, address + granules * GRANULE, GRANULE)]
        for at, (_, data, tags) in places:
            tags[at % PAGE // GRANULE] = tag
            if zero:
                data[at % PAGE:at % PAGE + GRANULE] = bytes(GRANULE)

    def regions(self) -> list[Region]:
        """Neighbours with the same attributes as one."""
        found: list[Region] = []
        for number in sorted(self.pages):
            attrs = Attrs(self.pages[number][0])
            last = found[-1] if found else None
            if last and last.address + last.length == number * PAGE and last.attrs == attrs:
                found[-1] = Region(last.address, last.length + PAGE, attrs)
            else:
                found.append(Region(number * PAGE, PAGE, attrs))
        return found


FIRST_PAGES = (0, PAGE, 2 * PAGE, 3 * PAGE, 0x7F000000, (1 << 56) - PAGE, (1 << 56) - 2 * PAGE)


class MemoryCalls:
    """Calls of a memory."""

    def __init__(self, source: random.Random) -> None:
        limit, mode = source.choice((0, 3, 6, 6, 40, 40)), source.random() < 0.4
        self.source, self.reached = source, Counter[str]()
        self.real, self.model = Memory(limit, mode), MemoryModel(limit, mode)
        self.kept: tuple[Any, MemoryModel] = self.real.copy(), copy.deepcopy(self.model)

    def pages(self) -> tuple[int, int]:
        """A range of pages, at times of no pages, or beyond the end."""
        address = self.source.choice(FIRST_PAGES) + self.source.choice((0, 0, 0, 0, 0, 16))
        return address, self.source.choice((0, 1, 1, 1, 2, 3)) * PAGE

    def mapped_pages(self) -> tuple[int, int]:
        """A range whose first page is mostly mapped."""
        if not self.model.pages or self.source.random() < 0.3:
            return self.pages()
        return self.source.choice(sorted(self.model.pages)) * PAGE, PAGE

    def address(self) -> int:
        """An address, near the ends of pages, with a tag and with bits that are ignored."""
        source = self.source
        mapped = [it * PAGE for it in sorted(self.model.pages)]
        first = source.choice(mapped if mapped and source.random() < 0.8 else FIRST_PAGES)
        at = first + source.choice((0, 1, 16, 32, 2048, 4064, 4080, 4095))
        tag = source.choice((0, 0, 1, 2, 15))
        if first in mapped and source.random() < 0.5:
            tag = self.model.pages[first // PAGE][2][at % PAGE // GRANULE]
        return at | tag << 56 | source.choice((0, 0, 0, 15)) << 60

    def attrs(self) -> int:
        """Attributes, mostly those of data."""
        return self.source.choice((READ | WRITE | TAGGED, READ | WRITE | TAGGED, READ | WRITE,
                                   READ | EXEC, READ, WRITE, 0, READ | TAGGED, 15))

    def draw(self) -> tuple[str, tuple[Any, ...]]:
        """A call that may be right."""
        source, data = self.source, self.source.randbytes(self.source.choice((0, 1, 8, 33, 4100)))
        length = source.choice((0, 1, 8, 17, 40, 40, 5000))
        return source.choice((
            ("map", (*self.pages(), self.attrs())), ("map", (*self.pages(), self.attrs())),
            ("unmap", self.mapped_pages()), ("protect", (*self.mapped_pages(), self.attrs())),
            ("read", (self.address(), length, source.random() < 0.7)),
            ("read", (self.address(), length, True)), ("write", (self.address(), data, True)),
            ("write", (self.address(), data, source.random() < 0.7)),
            ("load", (self.address(), data)), ("peek", (self.address(), length)),
            ("load_tag", (self.address(),)),
            ("store_tags", (self.address() & -16 | source.choice((0, 0, 0, 0, 8)),
                            source.choice((0, 1, 3, 300)), source.randrange(16),
                            source.random() < 0.5)),
        ))

    def spoil(self, name: str, words: tuple[Any, ...]) -> tuple[Any, ...]:
        """The same call with one argument of a wrong type or out of its range."""
        places = [at for at, it in enumerate(words) if not isinstance(it, bool)]
        at = self.source.choice(places)
        wrong: tuple[Any, ...] = WRONG_BYTES if isinstance(words[at], bytes) else WRONG_NUMBERS
        if name in ("map", "protect") and at == 2 or name == "store_tags" and at == 2:
            wrong = (*WRONG_NUMBERS, 16, 1 << 32)
        if name in ("map", "protect", "unmap") and at < 2:
            wrong = (*WRONG_NUMBERS, (1 << 56) + PAGE)
        return (*words[:at], self.source.choice(wrong), *words[at + 1:])

    def state(self) -> Any:
        """All that a memory has."""
        return pickle.dumps(self.real.__getstate__())

    def one(self) -> None:
        """A call, or a copy in place of the memory."""
        if self.source.random() < 0.1:
            self.exchange()
            return
        name, words = self.draw()
        if self.source.random() < 0.15:
            before, wrong = self.state(), self.spoil(name, words)
            kind = outcome(lambda: getattr(self.real, name)(*wrong))[0]
            assert kind in ("ValueError", "TypeError"), (name, wrong, kind)
            assert self.state() == before, (name, wrong)
            self.reached[kind] += 1
            return
        wanted = outcome(lambda: getattr(self.model, name)(*words))
        found = outcome(lambda: getattr(self.real, name)(*words))
        assert found == wanted, (name, words, found, wanted)
        assert self.real.pending == self.model.pending, (name, words)
        self.reached[name if found[0] == "ok" else f"{found[0]} {(found[1] or ('',))[0]}"] += 1

    def exchange(self) -> None:
        """A copy or a pickle takes the memory's place, or it becomes what it was."""
        kind = self.source.randrange(4)
        if kind == 0:
            self.real = pickle.loads(pickle.dumps(self.real))
        elif kind == 1:
            self.real = copy.deepcopy(self.real)
        elif kind == 2:
            self.kept = self.real.copy(), copy.deepcopy(self.model)
        else:
            self.real.restore(self.kept[0])
            self.model = copy.deepcopy(self.kept[1])
        self.reached["exchange"] += 1

    def end(self) -> None:
        """All that is mapped is the model's."""
        assert self.real.regions() == self.model.regions()
        for number, (_, data, tags) in self.model.pages.items():
            assert self.real.peek(number * PAGE, PAGE) == data
            self.real.protect(number * PAGE, PAGE, 15)
            self.model.protect(number * PAGE, PAGE, 15)
            for at in range(0, 256, 5):
                assert self.real.load_tag(number * PAGE + at * GRANULE) == tags[at]


# ---- a heap


class HeapCalls:
    """Calls of a heap: what is live, its bytes by words of eight, and what each call answers."""

    def __init__(self, source: random.Random) -> None:
        self.source, self.reached = source, Counter[str]()
        self.pages = source.choice((1, 4, 32, 256))
        self.setup = (source.getrandbits(32), self.pages, False, source.getrandbits(16),
                      source.choice((0, 1, 15, 16)))
        self.real = Heap(*self.setup)
        self.answers: list[int] = []
        # Of each live chunk, by its call: the size, the words that were stored, and how many bytes
        # of it are 0 where nothing was stored. What a realloc adds may be anything.
        self.live: dict[int, tuple[int, dict[int, int], int]] = {}
        self.plain: list[tuple[int, int, int]] = []

    def argument(self, it: Any) -> int:
        """The number of an argument."""
        if not isinstance(it, Answer):
            return int(it)
        return self.answers[it.number - 1] + it.offset & (1 << 64) - 1

    def make(self, op: int, first: Any, second: Any = 0) -> tuple[Code, int]:
        """Enters a call; its code and answer. All calls before it answer what they answered."""
        self.real.call(op, first, second)
        found = self.real.replay()
        answers = found.answers()
        assert answers[:-1] == self.answers
        self.answers = answers
        self.plain.append((op, self.argument(first), self.argument(second)))
        self.reached[str(found[-1].code)] += 1
        return found[-1].code, found[-1].answer

    def one(self) -> None:
        """A call."""
        source = self.source
        if source.random() < 0.15:
            self.spoil()
        kind = source.choice(("make", "make", "free", "store", "load", "size", "realloc"))
        if kind == "make" or not self.live:
            self.allocate()
            return
        call = source.choice(sorted(self.live))
        size, words, zeros = self.live[call]
        at = source.randrange(max(size // 8, 1)) * 8
        if kind == "free":
            assert self.make(FREE, Answer(call))[0] == Code.OK
            del self.live[call]
            assert self.make(FREE, Answer(call))[0] == Code.ABORT
            assert self.make(LOAD, Answer(call))[0] == Code.FAULT
        elif kind == "store" and size >= 8:
            words[at] = source.getrandbits(64)
            assert self.make(STORE, Answer(call) + at, words[at])[0] == Code.OK
        elif kind == "load" and size >= 8:
            code, found = self.make(LOAD, Answer(call, 8) + at - 8)
            wanted = words.get(at, 0 if at + 8 <= zeros else found)
            assert (code, found) == (Code.OK, wanted), (at, size, zeros)
        elif kind == "size":
            assert self.make(USABLE_SIZE, Answer(call)) == (Code.OK, max(size, 1))
            tag = self.argument(Answer(call)) >> 56
            assert self.make(LOAD_TAG, Answer(call, at)) == (Code.OK, tag)
        elif kind == "realloc":
            self.resize(call)

    def allocate(self) -> None:
        """A chunk; no answer where no page is left."""
        size = self.source.choice((1, 8, 16, 24, 32, 100, 500, 5000, 70000))
        count = self.source.choice((0, 1, 3))
        words = (CALLOC, count, size) if count else (MALLOC, size, 0)
        code, answer = self.make(*words)
        assert code == Code.OK
        if answer:
            self.live[len(self.plain)] = (size * max(count, 1), {}, size * max(count, 1))

    def resize(self, call: int) -> None:
        """Another size; what both sizes have stays."""
        new = self.source.choice((1, 8, 24, 48, 300, 6000))
        size, words, zeros = self.live[call]
        code, answer = self.make(REALLOC, Answer(call), new)
        assert code == Code.OK
        if answer:
            del self.live[call]
            kept = {at: it for at, it in words.items() if at + 8 <= min(size, new)}
            self.live[len(self.plain)] = (new, kept, min(zeros, size, new))

    def spoil(self) -> None:
        """A step of a wrong type, out of its range or with a reference to no answer."""
        choices: tuple[Any, ...] = (-1, 1 << 64, Answer(len(self.plain) + 1), 2.5, None)
        wrong = self.source.choice(choices)
        before = list(self.real.steps)
        row = self.source.choice(((MALLOC, wrong, 0), (FREE, 16, wrong), (STORE, wrong, wrong)))
        kind = outcome(lambda: self.real.replay([*before, row]))[0]
        assert kind in ("ValueError", "TypeError"), (row, kind)
        assert self.real.steps == before
        self.reached[kind] += 1

    def end(self) -> None:
        """The chunks that are live; and the calls by numbers answer what those by names answer."""
        wanted = {self.argument(Answer(call)): size for call, (size, *_) in self.live.items()}
        assert self.real.replay().live() == wanted
        by_number = heap_calls(self.plain, *self.setup)
        for row, one, other in zip(self.plain, by_number, self.real.replay(), strict=True):
            assert one == other, (row, one, other)
        pages = sum(it.length // PAGE for it in self.real.regions())
        assert pages <= self.pages


# ---- a session


class SessionCalls:
    """Events of a session, beside its script by docs/HOST.md."""

    def __init__(self, source: random.Random) -> None:
        self.source, self.reached = source, Counter[str]()
        self.frames = source.choice((9, 11, 20, 300))
        self.real = Session(self.frames)
        self.lines: list[str] = []
        self.files: list[bytes] = []

    def file(self) -> bytes:
        """An image, or bytes that are none."""
        words = [ADD] * self.source.randrange(4) + [self.source.choice((BACK, BREAK, 0))]
        return self.source.choice((program(*words), b"input", program(ADD, BACK)))

    def one(self) -> None:
        """An event, a file, or a pickle in place of the session."""
        source, kind = self.source, self.source.random()
        if not self.files or kind < 0.15:
            self.files.append(self.file())
            assert self.real.add_file(self.files[-1]) == len(self.files)
        elif kind < 0.3:
            self.spoil()
        elif kind < 0.35:
            self.real = pickle.loads(pickle.dumps(self.real))
        elif kind < 0.55:
            self.admit()
        else:
            tenant, steps = source.randrange(4), source.choice((0, 1, 5, 1000, 1 << 20))
            steps = min(steps, 1000) if source.random() < 0.95 else steps
            if source.random() < 0.2:
                self.real.stop(tenant)
                self.lines.append(f"stop {tenant}")
            else:
                self.real.slice(tenant, steps)
                self.lines.append(f"slice {tenant} {steps}")
        assert self.real.script == "".join(f"{it}\n" for it in self.lines)

    def admit(self) -> None:
        """A request for a tenant."""
        source = self.source
        tenant, image = source.randrange(4), source.randint(1, len(self.files))
        given, seed = source.randint(0, len(self.files)), source.getrandbits(64)
        pages, room = source.choice((5, 6, 8, 0, 256)), source.choice((0, 16, 65536, 70000))
        mode = source.random() < 0.3
        self.real.admit(tenant, image, given, seed, pages, room, mode)
        self.lines.append(f"admit {tenant} image {image} input {given} seed {seed:016x} "
                          f"frames {pages} out {room}{' async' if mode else ''}")

    def spoil(self) -> None:
        """An event with a wrong argument."""
        before = repr(self.real)
        wrong: Any = self.source.choice(WRONG_NUMBERS)
        calls: tuple[Callable[[Any], Any], ...] = (
            lambda it: self.real.slice(it, 1), lambda it: self.real.slice(1, it),
            lambda it: self.real.stop(it), lambda it: self.real.admit(it, 1),
            lambda it: self.real.admit(1, it), lambda it: self.real.admit(1, 1, it),
            lambda it: self.real.admit(1, 1, seed=it), lambda it: self.real.admit(1, 1, pages=it),
            lambda it: self.real.admit(1, 1, room=it), lambda it: self.real.add_file(it),
            Session,
        )
        call = self.source.choice(calls)
        if call is calls[-2]:
            wrong = self.source.choice(WRONG_BYTES)
        kind = outcome(lambda: call(wrong))[0]
        assert kind in ("ValueError", "TypeError"), (calls.index(call), wrong, kind)
        assert repr(self.real) == before
        self.reached[kind] += 1

    def end(self) -> None:
        """The report is that of the script; tenants are those that it names."""
        script = "".join(f"{it}\n" for it in self.lines)
        report = self.real.report()
        assert report == session(self.frames, script.encode(), self.files)
        text = report.decode().splitlines()
        for tenant in range(5):
            found = outcome(lambda: self.real.lines_of(tenant))
            assert (found[0] == "ok") == (f"tenant {tenant}" in text), tenant
            self.reached[f"tenant {found[0]}"] += 1

    def write(self, folder: pathlib.Path, number: int) -> None:
        """Files for mte_host: the script, the files, and the report."""
        place = folder / str(number)
        place.mkdir()
        (place / "script").write_text("".join(f"{it}\n" for it in self.lines), "utf-8")
        for at, data in enumerate(self.files, 1):
            (place / str(at)).write_bytes(data)
        (place / "frames").write_text(str(self.frames), "utf-8")
        (place / "report").write_bytes(self.real.report())


# ---- a machine and a core


class MachineCalls:
    """Slices of a tenant that counts, and what is set and looked at between them."""

    def __init__(self, source: random.Random) -> None:
        self.source, self.reached = source, Counter[str]()
        self.real = Machine(program(ADD, ADD, BACK - 1), pages=8, room=16)
        self.steps, self.registers, self.pc = 0, [0] * 31, 0x10000
        self.bytes: dict[int, int] = {}

    def one(self) -> None:
        """A slice, a change or a look."""
        kind = self.source.choice(("slice", "set", "write", "read", "spoil"))
        getattr(self, kind)()
        assert self.real.regs.pc == self.pc and list(self.real.regs.x) == self.registers
        assert self.real.tenant.steps == self.steps
        self.reached[kind] += 1

    def slice(self) -> None:
        """Some steps."""
        count = self.source.choice((0, 1, 2, 3, 7, 1000))
        found = self.real.slice(count)
        for _ in range(count):
            self.registers[0] = self.registers[0] + (self.pc < 0x10008) & (1 << 64) - 1
            self.pc = 0x10000 if self.pc == 0x10008 else self.pc + 4
        self.steps += count
        assert found == self.real.tenant and str(found.status) == "running"

    def set(self) -> None:
        """A register, or the program counter."""
        if self.source.random() < 0.2:
            self.pc = self.source.choice((0x10000, 0x10004, 0x10008))
            self.real.regs.pc = self.pc
            return
        at, value = self.source.randrange(31), self.source.choice((0, 7, (1 << 64) - 1))
        self.registers[at] = self.real.regs.x[at] = value

    def place(self) -> int:
        """An address of the stack, at times below it or above."""
        return self.source.choice((0x3FFFC000, 0x3FFFFF00, 0x3FFFFFF8, 0x40000000, 0x3FFFBFFC)) \
            + self.source.randrange(8)

    def write(self) -> None:
        """Bytes of the stack, all of them or none."""
        at, data = self.place(), self.source.randbytes(self.source.choice((0, 1, 3, 8, 21)))
        kind = outcome(lambda: self.real.write(at, data))[0]
        fits = 0x3FFFC000 <= at and at + len(data) <= 0x40000000 or not data
        assert kind == ("ok" if fits else "Fault"), (at, data, kind)
        if kind == "ok":
            self.bytes.update(enumerate(data, at))

    def read(self) -> None:
        """Bytes of the stack."""
        at, length = self.place(), self.source.choice((0, 1, 8, 19))
        found = outcome(lambda: self.real.read(at, length))
        if found[0] == "ok":
            assert found[1] == bytes(self.bytes.get(it, 0) for it in range(at, at + length))
        else:
            assert at < 0x3FFFC000 or at + length > 0x40000000, at

    def spoil(self) -> None:
        """A wrong argument."""
        wrong, acts = self.source.choice(WRONG_NUMBERS), len(self.real._acts)
        calls: tuple[Callable[[Any], Any], ...] = (
            lambda it: self.real.slice(it), lambda it: self.real.read(it, 1),
            lambda it: self.real.read(0x10000, it), lambda it: self.real.write(it, b"x"),
            lambda it: self.real.load_tag(it), lambda it: next(self.real.slices(it)),
            lambda it: setattr(self.real.regs, "x3", it),
            lambda it: setattr(self.real.regs, "pc", it),
        )
        kind = outcome(lambda: self.source.choice(calls)(wrong))[0]
        assert kind in ("ValueError", "TypeError"), (wrong, kind)
        assert len(self.real._acts) == acts

    def end(self) -> None:
        """A last look."""
        self.slice()


class CoreCalls:
    """Runs of a core, beside as many single steps in a copy."""

    def __init__(self, source: random.Random) -> None:
        self.source, self.reached = source, Counter[str]()
        words = [source.choice((ADD, NOP, NOP, ADD | 1, 0xF9000020 | 2, 0xF9400022, BREAK, 0))
                 for _ in range(12)] + [0x17FFFFF4]
        self.memory, self.regs = Memory(), Regs(pc=0x10000)
        self.memory.map(0x10000, PAGE, READ | EXEC)
        self.memory.map(0x20000, PAGE, READ | WRITE | TAGGED)
        self.memory.load(0x10000, b"".join(it.to_bytes(4, "little") for it in words))
        self.regs.x1 = 0x20000

    def one(self) -> None:
        """A run, and the same by steps from a copy."""
        memory, regs = self.memory.copy(), pickle.loads(pickle.dumps(self.regs))
        steps = self.source.choice((0, 1, 5, 40))
        count = self.source.choice((0, 0, 2))
        stops = [0x10000 + 4 * self.source.randrange(14) for _ in range(count)]
        found = run(self.memory, self.regs, steps, stops)
        left, wanted = steps, "ok"
        while left and wanted == "ok":
            made = step(memory, regs)
            left, wanted = left - (made.left == 0), str(made.code)
            if wanted == "ok" and regs.pc in stops:
                wanted = "stopped"
        assert (str(found.code), found.left) == (wanted, left), found
        assert regs == self.regs
        assert memory.peek(0x20000, PAGE) == self.memory.peek(0x20000, PAGE)
        self.reached[wanted] += 1
        if wanted not in ("ok", "stopped"):
            self.regs.pc = 0x10000 + 4 * self.source.randrange(12)

    def end(self) -> None:
        """Nothing more."""


KINDS: dict[str, Callable[[random.Random], Any]] = {
    "memory": MemoryCalls, "heap": HeapCalls, "session": SessionCalls, "machine": MachineCalls,
    "core": CoreCalls,
}


def main() -> None:
    """Draws."""
    kind, seed, count, folder = sys.argv[1], int(sys.argv[2]), int(sys.argv[3]), sys.argv[4]
    reached = Counter[str]()
    for number in range(count):
        made = KINDS[kind](random.Random(seed + number))
        for _ in range(200 if kind == "memory" else 40):
            made.one()
        made.end()
        reached += made.reached
        if isinstance(made, SessionCalls):
            made.write(pathlib.Path(folder), number)
    for name, times in sorted(reached.items()):
        print(f"{times} {name}")


if __name__ == "__main__":
    main()
