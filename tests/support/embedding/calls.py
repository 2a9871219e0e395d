"""Answers the lines of calls.c by the package tombolopan: the library's calls with their
structures, and what the package makes of them."""

import ctypes
import sys
from collections.abc import Callable, Iterator
from ctypes import byref
from typing import Any

import tombolopan as tb
from tombolopan import abi

LIBRARY = abi._library
Words = Iterator[str]


class Calls:
    """The memory and the registers that the lines work on."""

    def __init__(self) -> None:
        self.memory = tb.Memory(1)
        self.regs = tb.Regs()

    def lent(self) -> tuple[Any, ...]:
        """The memory as a call takes it: all of its places."""
        it = self.memory
        assert it._limit <= len(it._places)
        return it._places, it._limit, byref(it._state)

    def look(self, code: int) -> str:
        """Tells the module what a call of the library has mapped or unmapped."""
        it = self.memory
        it._index = {place.number: at for at, place in enumerate(it._places) if place.mapped}
        it._used = max(it._index.values(), default=-1) + 1
        it._free = [at for at in range(it._used) if not it._places[at].mapped]
        return told(code)

    def version(self, words: Words) -> str:
        """The library's version."""
        return told(LIBRARY.tb_version())

    def build_info(self, words: Words) -> str:
        """The first line of how the library was built, and how long it all is."""
        return f" {tb.build_info().splitlines()[0]}" + told(len(tb.build_info()))

    def places(self, words: Words) -> str:
        """Makes a memory anew."""
        count = number(words)
        self.memory = tb.Memory(count, number(words) != 0)
        return told(self.memory._state.asynchronous, self.memory._state.pending)

    def map(self, words: Words) -> str:
        """Maps a page."""
        return self.look(LIBRARY.tb_map(*self.lent()[:2], number(words), number(words)))

    def range(self, words: Words) -> str:
        """Maps pages, by the module's own function; its exception has the text of the code."""
        first, length, attrs = number(words), number(words), number(words)
        try:
            self.memory.map(first * 4096, length * 4096, attrs)
        except tb.MappingError as error:
            return told(error.code.number)
        except ValueError:
            return told(tb.BAD_ARGUMENT)
        return told(tb.OK)

    def unmap(self, words: Words) -> str:
        """Unmaps a page."""
        return self.look(LIBRARY.tb_unmap(*self.lent()[:2], number(words)))

    def write(self, words: Words) -> str:
        """Writes bytes."""
        fault, addr, check = abi._Fault(), number(words), number(words) != 0
        data = abi._lend(raw(words))
        code = LIBRARY.tb_write(*self.lent(), addr, data.bytes, data.length, check, byref(fault))
        return told(code) + fault_of(fault) + told(self.memory._state.pending)

    def read(self, words: Words) -> str:
        """Reads bytes."""
        fault, addr, check, length = abi._Fault(), number(words), number(words) != 0, number(words)
        buffer = ctypes.create_string_buffer(max(length, 1))
        code = LIBRARY.tb_read(*self.lent(), addr, buffer, length, check, byref(fault))
        text = told(code) + fault_of(fault) + hexed(buffer.raw[:length])
        return text + told(self.memory._state.pending)

    def load(self, words: Words) -> str:
        """Loads bytes."""
        addr, data = number(words), abi._lend(raw(words))
        return told(LIBRARY.tb_load(*self.lent(), addr, data.bytes, data.length))

    def load_tag(self, words: Words) -> str:
        """A granule's tag."""
        tag, fault = ctypes.c_uint8(0xEE), abi._Fault()
        code = LIBRARY.tb_load_tag(*self.lent(), number(words), byref(tag), byref(fault))
        return told(code, tag.value) + fault_of(fault)

    def store_tags(self, words: Words) -> str:
        """Replaces tags."""
        fault, rest = abi._Fault(), [number(words) for _ in range(4)]
        code = LIBRARY.tb_store_tags(*self.lent(), byref(abi._TagStore(*rest)), byref(fault))
        return told(code) + fault_of(fault)

    def set(self, words: Words) -> str:
        """Sets all registers."""
        values = [int(it, 0) for it in words]
        self.regs = tb.Regs(values[:31], *values[31:])
        return ""

    def registers(self, words: Words) -> str:
        """All registers."""
        it = self.regs
        return told(*it.x, it.sp, it.pc, it.nzcv, it.rgsr_seed, it.rgsr_tag)

    def step(self, words: Words) -> str:
        """Attempts an instruction."""
        stop = abi._Stop()
        return stop_of(LIBRARY.tb_step(*self.lent(), byref(self.regs._held), byref(stop)), stop)

    def run(self, words: Words) -> str:
        """Attempts instructions."""
        stop = abi._Stop()
        code = LIBRARY.tb_run(*self.lent(), byref(self.regs._held), number(words), byref(stop))
        return stop_of(code, stop)

    def until(self, words: Words) -> str:
        """Attempts instructions, up to some addresses."""
        stop, steps, count = abi._Stop(), number(words), number(words)
        stops = (ctypes.c_uint64 * max(count, 1))(*(int(it, 0) for it in words))
        code = LIBRARY.tb_run_until(
            *self.lent(), byref(self.regs._held), steps, stops, count, byref(stop)
        )
        return stop_of(code, stop)

    def peek(self, words: Words) -> str:
        """A number of the memory."""
        addr, length = number(words), min(number(words), 8)
        return told(sum(self.byte(addr + at) << 8 * at for at in range(length)))

    def byte(self, addr: int) -> int:
        """A byte of the memory, 0 where no page is mapped: the module raises there."""
        try:
            return self.memory.peek(addr % (1 << 64), 1)[0]
        except tb.Fault as fault:
            assert fault.kind == tb.FaultKind.TRANSLATION
            return 0

    def size(self, words: Words) -> str:
        """How many bytes a word accesses."""
        return told(tb.access_size(number(words)))

    def trace(self, words: Words) -> str:
        """A trace, by the module's own function: its stop by its text, and the accesses."""
        steps, room = number(words), number(words)
        accesses: list[Any] = []
        stop = tb.trace(self.memory, self.regs, steps, accesses, room)
        code = stop.code.number
        rows = "".join(
            " |" + told(it.pc, it.address, it.value % (1 << 64), it.value >> 64 & (1 << 64) - 1,
                        it.word, it.size, it.write, it.memory_tag)
            for it in accesses
        )
        return told(code, stop.left, code, stop.number) + error_of(stop.fault) + rows

    def place(self, words: Words) -> str:
        """A place of the memory."""
        it = self.memory._places[number(words)]
        sums = (sum(byte * at for at, byte in enumerate(held, 1)) for held in (it.bytes, it.tags))
        return told(it.number, it.mapped, it.attrs, *sums)

    def heap(self, words: Words) -> str:
        """Calls of a heap."""
        setup = abi._HeapSetup(*(number(words) for _ in range(5)))
        count = number(words)
        calls = (abi._HeapCall * max(count, 1))()
        for it in calls[:count]:
            it.op, it.first, it.second = number(words), number(words), number(words)
        text = told(LIBRARY.tb_heap_calls(byref(setup), calls, count))
        for it in calls[:count]:
            text += " |" + told(it.op, it.code, it.first, it.second, it.answer) + fault_of(it.fault)
        return text

    def replay(self, words: Words) -> str:
        """Calls of a heap that take answers of earlier ones."""
        setup = abi._HeapSetup(*(number(words) for _ in range(5)))
        count, bad = number(words), ctypes.c_uint64(0xEE)
        steps = steps_of(words, count)
        text = told(LIBRARY.tb_heap_replay(byref(setup), steps, count, byref(bad)), bad.value)
        for it in steps[:count]:
            call = it.call
            text += " |" + told(call.op, call.code, call.first, call.second, call.answer)
            text += fault_of(call.fault) + told(it.first_of, it.second_of)
        return text

    def live(self, words: Words) -> str:
        """The chunks that are live behind a heap's calls."""
        setup = abi._HeapSetup(*(number(words) for _ in range(5)))
        room, count = number(words), number(words)
        steps, chunks = steps_of(words, count), (abi._LiveChunk * max(room, 1))()
        bad, found = ctypes.c_uint64(0xEE), ctypes.c_uint64(0xEE)
        text = told(LIBRARY.tb_heap_replay(byref(setup), steps, count, byref(bad)))
        text += told(LIBRARY.tb_heap_live(steps, count, chunks, room, byref(found)), found.value)
        return text + "".join(told(it.address, it.size, it.call, it.tag, it.unused)
                              for it in chunks[: min(room, found.value)])

    def heap_mapped(self, words: Words) -> str:
        """The pages of a heap after its calls."""
        setup = abi._HeapSetup(*(number(words) for _ in range(5)))
        room, count = number(words), number(words)
        steps, pages = steps_of(words, count), (abi._PageEntry * max(room, 1))()
        found, bad = ctypes.c_uint64(0xEE), ctypes.c_uint64(0xEE)
        code = LIBRARY.tb_heap_pages(
            byref(setup), steps, count, pages, room, byref(found), byref(bad)
        )
        some = pages[: min(room, found.value)]
        text = told(code, found.value, bad.value, sum(it.number * 16 + it.attrs for it in some))
        return text + "".join(told(it.call.code, it.call.answer) for it in steps[:count])

    def traced(self, words: Words) -> str:
        """A run whose instructions and accesses are entered."""
        most, room, steps, kinds = (number(words) for _ in range(4))
        ranges = [number(words) for _ in range(4)]
        count = number(words)
        stops = (ctypes.c_uint64 * max(count, 1))(*(int(it, 0) for it in words))
        request = abi._TraceRequest(stops, count, steps, *ranges, kinds, 0)
        code = (abi._TracedInstruction * max(most, 1))()
        data = (abi._TracedAccess * max(room, 1))()
        end = abi._TraceReport()
        entered = abi._TraceArrays(code, most, data, room)
        answer = LIBRARY.tb_run_traced(
            *self.lent(), byref(self.regs._held), byref(request), byref(entered), byref(end)
        )
        text = told(answer, end.steps, end.instructions, end.accesses, end.code, end.number)
        text += fault_of(end.fault)
        for it in code[: min(end.instructions, most)]:
            text += " |" + told(it.step, it.pc, it.word, it.unused)
        for at in data[: min(end.accesses, room)]:
            text += " >" + told(at.step, at.pc, at.addr, *at.value, at.size, at.kind)
        return text

    def disassemble(self, words: Words) -> str:
        """The text of a word."""
        word, pc, room = number(words), number(words), number(words)
        text = ctypes.create_string_buffer(b"\xee" * max(room, 1), max(room, 1))
        return told(LIBRARY.tb_disassemble(word, pc, text, room)) + hexed(text.raw[:room])

    def session(self, words: Words) -> str:
        """A session."""
        frames, room, script = number(words), number(words), raw(words)
        files = [raw(words) for _ in range(number(words))]
        lent = (abi._Bytes * max(len(files), 1))(*map(abi._lend, files))
        end, lines = abi._SessionEnd(), abi._lend(script)
        report = ctypes.create_string_buffer(b"\xee" * max(room, 1), max(room, 1))
        code = LIBRARY.tb_session(
            frames, lines.bytes, lines.length, lent, len(files), report, room, byref(end)
        )
        return told(code, end.length, end.line, end.code, end.fault) + hexed(report.raw[:room])

    def alone(self, words: Words) -> str:
        """A tenant alone."""
        image, given = raw(words), raw(words)
        seed, pages, out, asynchronous = (number(words) for _ in range(4))
        room, call_room, count = (number(words) for _ in range(3))
        slices = (ctypes.c_uint32 * max(count, 1))(*(int(it, 0) for it in words))
        program, data = abi._lend(image), abi._lend(given)
        terms = abi._Terms(
            program.bytes, program.length, data.bytes, data.length, ctypes.addressof(slices), count,
            seed, pages, out, asynchronous, 0,
        )
        end, calls = abi._AloneEnd(), (abi._KeptCall * max(call_room, 1))()
        output = ctypes.create_string_buffer(max(room, 1))
        code = LIBRARY.tb_alone(byref(terms), output, room, calls, call_room, byref(end))
        it = end.status
        text = told(code, end.steps, end.output, end.calls, end.kept, end.code, end.refusal)
        text += told(it.status, it.number, it.pc, it.pointer) + fault_of(it.fault)
        text += hexed(output.raw[:room])
        return text + "".join(
            " |" + told(it.service, it.first, it.second, it.answer) for it in calls[:call_room]
        )

    def machine(self, words: Words) -> str:
        """A tenant's machine."""
        terms, kept = terms_of(words)
        acts, count = acts_of(words)
        end, calls = abi._MachineEnd(), (abi._KeptCall * 4)()
        output = ctypes.create_string_buffer(16)
        code = LIBRARY.tb_machine_acts(byref(terms), acts, count, output, 16, calls, 4, byref(end))
        it, regs = end.alone, end.regs
        text = told(code, it.steps, it.output, it.calls, it.kept, it.code, it.refusal)
        text += told(it.status.status, it.status.number, it.status.pc, it.status.pointer)
        text += fault_of(it.status.fault) + told(regs.x[0], regs.x[30], regs.sp, regs.pc)
        del kept
        return text + hexed(output.raw) + "".join(
            " |" + told(act.code, act.answer) + fault_of(act.fault) for act in acts[:count]
        )

    def mapped(self, words: Words) -> str:
        """The pages of a tenant's machine."""
        terms, kept = terms_of(words)
        room = number(words)
        acts, count = acts_of(words)
        pages, found = (abi._PageEntry * max(room, 1))(), ctypes.c_uint64(0xEE)
        code = LIBRARY.tb_machine_pages(byref(terms), acts, count, pages, room, byref(found))
        del kept
        some = pages[: min(room, found.value)]
        return told(code, found.value, sum(it.number * 16 + it.attrs for it in some))

    def texts(self, words: Words) -> str:
        """The texts of a number."""
        it = number(words)
        names = (tb.text, tb.fault_kind_name, tb.heap_abort_name, tb.script_fault_name,
                 tb.refusal_name, tb.tenant_status_name, tb.trespass_name,
                 tb.comparison_name)
        return " " + "; ".join(name(it) for name in names)


def terms_of(words: Words) -> tuple[Any, object]:
    """What a tenant begins with, without slices, and what has to be kept for it."""
    held = raw(words), raw(words)
    image, given = map(abi._lend, held)
    none = (ctypes.c_uint32 * 1)()
    seed, pages, out, asynchronous = (number(words) for _ in range(4))
    terms = abi._Terms(
        image.bytes, image.length, given.bytes, given.length, ctypes.addressof(none), 0, seed,
        pages, out, asynchronous, 0,
    )
    return terms, (held, none)


def steps_of(words: Words, count: int) -> Any:
    """Steps of a replay."""
    steps = (abi._HeapStep * max(count, 1))()
    for it in steps[:count]:
        call = it.call
        call.op, call.first, call.second = number(words), number(words), number(words)
        it.first_of, it.second_of = number(words), number(words)
    return steps


def acts_of(words: Words) -> tuple[Any, int]:
    """Acts, and how many they are."""
    count = number(words)
    acts = (abi._MachineAct * max(count, 1))()
    for it in acts[:count]:
        it.act, it.number, it.addr, it.value = (number(words) for _ in range(4))
    return acts, count


def number(words: Words) -> int:
    """The next number of a line."""
    return int(next(words), 0)


def raw(words: Words) -> bytes:
    """The next bytes of a line."""
    it = next(words)
    return b"" if it == "-" else bytes.fromhex(it)


def told(*numbers: int) -> str:
    """Numbers as calls.c writes them."""
    return "".join(f" {it:x}" for it in numbers)


def hexed(data: bytes) -> str:
    """Bytes as calls.c writes them."""
    return f" {data.hex() or '-'}"


def fault_of(it: Any) -> str:
    """A fault as calls.c writes it."""
    return told(it.addr, it.kind, it.write, it.ptr_tag, it.mem_tag)


def error_of(it: Any) -> str:
    """The fault that an exception of the module has, or none."""
    if it is None:
        return told(0, 0, 0, 0, 0)
    return told(it.address, it.kind.number, it.write, it.pointer_tag, it.memory_tag)


def stop_of(code: int, it: Any) -> str:
    """A stop as calls.c writes it."""
    return told(code, it.left, it.code, it.number) + fault_of(it.fault)


def main() -> None:
    """Answers the lines of standard input."""
    calls = Calls()
    for line in sys.stdin:
        what, *words = line.split()
        answer: Callable[[Words], str] = getattr(calls, what)
        print(f"{what}:{answer(iter(words))}")


if __name__ == "__main__":
    main()
