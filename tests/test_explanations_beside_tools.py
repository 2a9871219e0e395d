"""What mte_run tells of the tenants of tests/images, beside what other tools say of the same images
and runs: llvm-nm, llvm-symbolizer and llvm-objdump, mte_host, AddressSanitizer, and small models of
calls, registers, memory and chunks that are written by the pages of docs/ alone."""

import pathlib
import re
from collections.abc import Sequence
from typing import Any, Optional

import pytest

from tests.support import asan, binutils
from tests.support.acts import (
    BUILDS, CHECKS, CHUNKS, EXACT, FAMILIES, FORGOTTEN, MANY, TRAPS, Act, image,
)
from tests.support.chunk_model import Chunk, ChunkModel, bytes_of
from tests.support.counts import NAMES, counted, draws, draws_of_services
from tests.support.explained import Explained, ImageActs, run_act
from tests.support.pictures import Picture, Row, read_svg, read_text
from tests.support.places import EXAMPLES, IMAGES
from tests.support.running import run
from tests.support.told import Frame, explain, input_file, read_told
from tests.support.tools import give_up, need
from tests.support.traces import Step, check_trace, read_services

# How many frame records are read at most: at the end, and of a heap call.
RECORDS, RECORDS_OF_CALL = 16, 7
# Where the stack was written over, the records beyond are gone.
SMASHED = {("stack", "f")}


def test_calls_have_the_names_and_lines_of_other_tools(acts: ImageActs) -> None:
    """NAME+OFFSET by the symbols that llvm-nm lists, FILE:LINE and what was inlined by
    llvm-symbolizer."""
    need("llvm-nm", "llvm-symbolizer")
    path = image(acts.source, acts.build)
    table = binutils.symbols(path)
    found = [
        (number, frame, address) for one in acts.runs
        for frames, addresses in zip(one.lists, one.addresses)
        for number, (frame, address) in enumerate(zip(frames, addresses, strict=True))
    ]
    origins = binutils.sources(path, (address for _, _, address in found))
    for number, frame, address in found:
        check_label(frame, address, number > 0, table)
        check_chain(frame, origins.get(address))


def check_label(
    frame: Frame, address: int, is_call: bool, table: list[binutils.Symbol]
) -> None:
    """A call is told by the symbol of its instruction, and by its return address's distance."""
    near = binutils.nearest(table, address)
    if not near:
        assert frame.function is None and frame.offset == address + 4 * is_call
        return
    assert frame.function in [symbol.name for symbol in near], f"{frame} is in {near}"
    assert frame.offset == address + 4 * is_call - near[0].value, f"{frame} at {address:#x}"


def check_chain(frame: Frame, origin: Optional[binutils.Source]) -> None:
    """The functions that were inlined, and the lines of all."""
    chain = origin.chain if origin else (("", None),)
    assert [it.label for it in frame.inlined] == [name for name, _ in chain[:-1]], frame
    assert [place_of(it) for it in (*frame.inlined, frame)] == [line for _, line in chain], frame


def place_of(frame: Frame) -> Optional[tuple[str, int]]:
    """The file and the line of a frame."""
    return (frame.file, frame.line) if frame.file and frame.line else None


def test_calls_are_those_of_the_trace(acts: ImageActs) -> None:
    """Each list has the calls that BL and BLR made and no RET took back, as far as is told."""
    for one in acts.runs:
        if not one.told.end:
            continue
        steps = [one.steps[call.step - 1] for call in one.told.calls]
        if one.told.store_step:
            steps.append(one.steps[one.told.store_step - 1])
        for step, addresses in zip(steps, one.addresses[1:], strict=True):
            check_calls(addresses, calls_at(step), RECORDS_OF_CALL)
        if one.has_failed_last:
            check_end(one, acts)


def calls_at(step: Step) -> list[int]:
    """The address of an instruction, and those of the calls that led to it."""
    return [step.pc, *(address - 4 for address in step.callers)]


def check_end(one: Explained, acts: ImageActs) -> None:
    """The same of the instruction that ended the tenant."""
    made = calls_at(one.steps[-1])
    is_smashed = (acts.source, one.act.input) in SMASHED
    check_calls(one.addresses[0], made, 1 if is_smashed else RECORDS)


def check_calls(addresses: list[int], made: list[int], records: int) -> None:
    """The told calls are the innermost ones, and all as far as records are read."""
    assert addresses == made[: len(addresses)], [hex(it) for it in addresses]
    assert len(addresses) >= min(len(made), records + 1)


def test_json_has_the_calls_of_the_text(acts: ImageActs) -> None:
    """Addresses, names, offsets, files, paths and lines of JSON; paths by llvm-symbolizer."""
    need("llvm-symbolizer")
    addresses = [address for one in acts.runs for calls in one.addresses for address in calls]
    origins = binutils.sources(image(acts.source, acts.build), addresses)
    for one in acts.runs:
        stacks = [one.json["stack"]]
        for chunk in one.json["chunks"]:
            stacks += [chunk[did]["stack"] for did in ("allocated", "freed") if chunk[did]]
        if "last_store" in one.json:
            stacks.append(one.json["last_store"]["stack"])
            assert one.json["last_store"]["step"] == one.told.store_step
        if one.told.end:
            for frames, calls, listed in zip(one.lists, one.addresses, stacks, strict=True):
                check_objects(frames, calls, listed, origins)


def check_objects(
    frames: list[Frame], calls: list[int], listed: list[dict[str, Any]],
    origins: dict[int, binutils.Source],
) -> None:
    """The objects of a list of calls are its lines."""
    inner: list[dict[str, Any]] = []
    groups = []
    for entry in listed:
        inner.append(entry)
        if "inlined" not in entry:
            groups.append(inner)
            inner = []
    for number, (frame, call, group) in enumerate(zip(frames, calls, groups, strict=True)):
        assert {int(entry["address"], 16) for entry in group} == {call + 4 * (number > 0)}
        for told, entry in zip((*frame.inlined, frame), group, strict=True):
            assert (entry.get("file"), entry.get("line")) == (told.file, told.line)
        assert [entry.get("function") for entry in group[:-1]] == [
            told.label for told in frame.inlined]
        assert (group[-1].get("function"), group[-1].get("offset", 0)) == named(frame)
        path = group[0].get("path", "")
        known = origins[call].file
        assert path == known or not path.startswith("/") and known.endswith(path.lstrip("./"))


def named(frame: Frame) -> tuple[Optional[str], int]:
    """The function of a frame, and the distance from it."""
    return frame.function, frame.offset if frame.function else 0


def test_instructions_are_those_of_a_disassembler(acts: ImageActs) -> None:
    """Each word and its text, of the trace, of the last instructions and of the one at the end."""
    need("llvm-objdump")
    known = binutils.instructions(image(acts.source, acts.build))
    for one in acts.runs:
        for step in one.steps:
            check_instruction(step, known)
        traced = one.trace.splitlines()
        assert all(line in traced for line in one.told.last)
        assert len(one.told.last) == (min(16, len(one.steps)) if one.told.end else 0)
        if one.told.instruction:
            check_next(one.told.instruction, known)


def check_instruction(step: Step, known: dict[int, tuple[int, str]]) -> None:
    """A word is that of the image, and its text is what the disassembler has."""
    if step.word is None:
        return
    word, text = known[step.pc]
    assert step.word == word, hex(step.pc)
    if step.text != "no instruction of the table":
        assert binutils.normal(step.text) == binutils.normal(text), hex(step.pc)


def check_next(line: str, known: dict[int, tuple[int, str]]) -> None:
    """The line `instruction at ..`."""
    found = re.match(r"instruction at (0x\w+)(?: \(.*?\))?: (\w{8})  (.*)$", line)
    assert found, line
    check_instruction(Step(1, int(found[1], 16), int(found[2], 16), found[3]), known)


def test_a_trace_agrees_with_a_model(acts: ImageActs) -> None:
    """Registers change from what they were, stores leave the registers of their text at the address
    of their text, loads bring what was stored; the registers at the end are those of the trace."""
    for one in acts.runs:
        # After --exact found something, registers are told as they were before that access.
        steps = one.steps[:-1] if one.act.status == EXACT else one.steps
        model = check_trace(steps).registers
        listed = one.json["registers"]
        held = {f"x{number}": int(value, 16) for number, value in enumerate(listed["x"])}
        assert model == {**held, "sp": int(listed["sp"], 16)}
        pc = int(listed["pc"], 16)
        assert not one.has_failed_last or pc == one.steps[-1].pc
        if one.told.end:
            shown = {name: value for name, value in model.items() if value or name == "sp"}
            assert one.told.registers == {**shown, "pc": pc}
            assert one.told.flags == listed["flags"]


def test_calls_and_returns_are_those_of_the_trace(acts: ImageActs) -> None:
    """--calls: each BL, BLR and RET, with its step and where it went."""
    need("llvm-nm")
    table = binutils.symbols(image(acts.source, acts.build))
    for one in acts.runs:
        going = [
            (step, following) for step, following in zip(one.steps, one.steps[1:])
            if step.mnemonic in ("bl", "blr", "ret")
        ]
        if not one.told.end:
            continue
        assert len(one.told.turns) >= len(going)
        for line, (step, following) in zip(one.told.turns, going):
            went = "returns to" if step.mnemonic == "ret" else "calls"
            found = re.match(rf" *(\d+)  (\S+)(?: at \S+)? {went} (\S+)(?: at \S+)?$", line)
            assert found and int(found[1]) == step.number, line
            assert found[2] in labels(table, step.pc) and found[3] in labels(table, following.pc)


def labels(table: list[binutils.Symbol], address: int) -> list[str]:
    """How an address may be told."""
    near = binutils.nearest(table, address)
    return [f"{it.name}+{address - it.value:#x}" for it in near] or [f"{address:#x}"]


def option_of(act: Act, name: str, default: str) -> str:
    """The value of an option of an act."""
    words = act.options
    return words[words.index(name) + 1] if name in words else default


def test_json_says_what_the_host_reports(
    acts: ImageActs, host: pathlib.Path, tmp_path: pathlib.Path
) -> None:
    """Status, steps, output and heap calls of the same tenant in a session."""
    for one in acts.runs:
        if one.act.status == EXACT:
            continue
        script = tmp_path / "script"
        script.write_text(script_of(one.act))
        files = [str(path) for path in (script, image(acts.source, acts.build),
                                        input_file(tmp_path, one.act.input))]
        check_report(one, run([str(host), "--frames", "8193", *files]).output)


def script_of(act: Act) -> str:
    """The script of a session that has the act's tenant alone."""
    seed, mode = option_of(act, "--seed", "1"), " async" if "--async" in act.options else ""
    pages, room = option_of(act, "--pages", "4096"), option_of(act, "--out", "65536")
    limit = option_of(act, "--steps", "1048576")
    slices = option_of(act, "--slices", ",".join([limit] * (3 if limit == "1048576" else 1)))
    lines = [f"admit 1 image 1 input 2 seed {seed.zfill(16)} frames {pages} out {room}{mode}",
             *(f"slice 1 {steps}" for steps in slices.split(","))]
    return "\n".join(lines) + "\n"


def check_report(one: Explained, report: str) -> None:
    """The lines of a report that has one tenant."""
    lines = report.splitlines()
    assert lines[0] == "tenant 1" and lines[-1] == "end"
    assert lines[1] == "status " + reported(one.status)
    assert lines[2] == f"steps {one.json['steps']}"
    output = f" {one.ran.out.hex()}" if one.ran.out else ""
    assert lines[3] == f"output {len(one.ran.out)}{output}"
    assert lines[4] == f"heap {len(one.model.calls)}"
    listed = []
    for call in one.model.calls[-64:]:
        first, second = (*call.arguments, 0)[:2]
        listed.append(f"call {call.name} {first:#018x} {second:#018x} = {call.result:#018x}")
    assert lines[5:-1] == listed


def reported(status: dict[str, Any]) -> str:
    """A status of JSON as a report writes it."""
    kind, pc = status["kind"], f"pc {int(status.get('pc', '0'), 16):#018x}"
    if kind == "exit":
        return f"exit {status['code']}"
    if kind == "fault":
        way = "write" if status["write"] else "read"
        tags = f"ptr {status['pointer_tag']} mem {status['memory_tag']}"
        return f"fault {status['name']} {way} addr {int(status['address'], 16):#018x} {tags} {pc}"
    if kind == "illegal":
        return f"illegal {int(status['word'], 16):#010x} {pc}"
    if kind == "breakpoint":
        return f"break {status['number']} {pc}"
    if kind == "abort":
        return f"abort {status['name']} ptr {int(status['pointer'], 16):#018x} {pc}"
    return f"async {pc}" if kind == "async" else str(kind)


def test_statistics_count_the_trace(acts: ImageActs) -> None:
    """Steps, loads, stores, compared tags, services, heap calls, tags drawn and pages."""
    for one in acts.runs:
        tagged = [range(first, last + 1) for first, last, attributes in pages_of(one)
                  if "t" in attributes]
        wanted, told = counted(one.steps, tagged), one.told.statistics
        assert {name: told[name] for name in wanted} == wanted, one.act
        # A generator of zeros stays so, and its draws are not seen.
        is_still = not int(one.json["seed"], 16) & 0xFFFF
        assert told["tags drawn"] == (0 if is_still else draws_of_services(one.steps))
        if one.told.end:
            drawn = draws(int(one.json["seed"], 16), one.told.generator[1])
            assert told["tags drawn"] == drawn
        assert told["reserved"] == int(option_of(one.act, "--pages", "4096"))
        mapped = sum(last + 1 - first for first, last, _ in pages_of(one)) // 4096
        assert told["pages mapped at most"] == mapped or has_unmapped(one)
        assert list(one.json["statistics"].values()) == in_order_of_json(told)


def pages_of(one: Explained) -> list[tuple[int, int, str]]:
    """The page map at the end."""
    return [(int(it["first"], 16), int(it["last"], 16), it["attributes"])
            for it in one.json["pages"]]


def has_unmapped(one: Explained) -> bool:
    """Whether a chunk with pages of its own was freed, and more were mapped before."""
    gone = any(chunk.freed and chunk.start >= 0x3D000000 for chunk in one.model.chunks)
    mapped = sum(last + 1 - first for first, last, _ in pages_of(one)) // 4096
    return gone and one.told.statistics["pages mapped at most"] > mapped


def in_order_of_json(told: dict[str, int]) -> list[int]:
    """The numbers in the order in which docs/MTE_RUN.md lists the keys."""
    head = [*NAMES[:4], "tags drawn", NAMES[4]]
    calls = ["malloc", "free", "calloc", "realloc", "memalign", "usable_size"]
    return [told[name] for name in [*head, *calls, "pages mapped at most", "reserved"]]


def cause_by_model(one: Explained, model: ChunkModel) -> tuple[Optional[str], list[Chunk]]:
    """The cause of an end, by docs/REPORT.md alone, and the chunks that it names."""
    status = one.status
    found: tuple[Optional[str], Optional[Chunk], Optional[Chunk]] = (None, None, None)
    if status["kind"] == "abort":
        is_free = int(one.json["registers"]["x"][8], 16) == 4
        found = model.of_pointer(int(status["pointer"], 16), is_free)
    elif status["kind"] == "fault" and status["address"] == status["pc"]:
        found = ("Wild Jump: the address is no code", None, None)
    elif status["kind"] == "fault" and status["name"] in ("Translation", "TagCheck"):
        address, tag = int(status["address"], 16), status["pointer_tag"]
        found = model.of_fault(address, tag, one.json["steps"], status["write"])
    elif status["kind"] == "fault":
        is_constant = status["name"] == "Permission" and status["write"]
        text = "Read-only Memory: code or constants of the image are written"
        found = (text if is_constant else "unknown", None, None)
    return found[0], [chunk for chunk in found[1:] if chunk]


def test_causes_are_those_of_the_list_of_heap_calls(acts: ImageActs) -> None:
    """The cause, its chunks, their calls and the distance, by a model of live chunks."""
    for one in acts.runs:
        if one.act.status == EXACT:
            continue
        cause, chunks = cause_by_model(one, one.model)
        assert (one.told.cause, one.json["cause"]) == (cause, cause), one.act
        check_chunks(one, chunks)
        check_hints(one, cause, one.model)


def check_chunks(one: Explained, chunks: list[Chunk]) -> None:
    """The chunks of JSON and the lines of the text have the calls that made and freed them."""
    calls = []
    for chunk, listed in zip(chunks, one.json["chunks"], strict=True):
        assert (int(listed["pointer"], 16), listed["size"]) == (chunk.pointer, chunk.size)
        for did, call in (("allocated", chunk.made), ("freed", chunk.freed)):
            entry = listed[did]
            assert (entry is None) == (call is None), f"{one.act}: {did}"
            if call:
                assert (entry["number"], entry["call"], entry["step"], int(entry["result"], 16)) \
                    == (call.number, call.text, call.step, call.result)
                calls.append((did, call.number, call.text, call.result, call.step))
    told = [(it.did, it.number, it.text, it.result, it.step) for it in one.told.calls]
    assert told == calls
    young = chunks[1] if len(chunks) > 1 else None
    assert (one.told.young is None) == (young is None) and str(young or "") in (
        one.told.young or "")


def check_hints(one: Explained, cause: Optional[str], model: ChunkModel) -> None:
    """What led to a null pointer or to a jump, where it is known."""
    hints, refused = one.told.hints, model.refused()
    if cause == "Null Pointer" and refused:
        call = f"call {refused.number}, {refused.text} = {0:#018x}, step {refused.step}"
        why = "a chunk has at most 1,048,576 bytes"
        assert hints == [f"the newest call without a chunk is {call}: {why}"]
    elif (cause or "").startswith("Wild Jump"):
        jump = one.steps[-2]
        assert hints[0].startswith(f"jumped by {jump.text} in ")
        assert hints[0].endswith(f", step {jump.number}")
        load = load_of(one.steps, jump.text.split()[1])
        register = jump.text.split()[1]
        if load and load.loaded:
            place = load.loaded.address
            assert hints[1] == f"{register} was loaded from [{place:#018x}], step {load.number}"
            check_store(hints[2:], one.steps[:load.number - 1], place & (1 << 56) - 1)
    else:
        assert hints == [] or model.is_short


def check_store(hints: Sequence[str], steps: Sequence[Step], place: int) -> None:
    """The newest store to the place of a jump's target, before it was loaded."""
    stores = [step for step in steps if step.stored
              and place - step.stored.length < step.stored.address & (1 << 56) - 1 < place + 8]
    if stores:
        assert hints[0].startswith(f"the target at {place:#018x} was last written by ")
        assert hints[0].endswith(f", step {stores[-1].number}")
    assert len(hints) == (1 if stores else 0)


def load_of(steps: Sequence[Step], register: str) -> Optional[Step]:
    """The newest load into a register among the last instructions."""
    loads = [step for step in steps[-16:] if step.loaded and register in step.changes]
    return loads[-1] if loads else None


def test_the_place_and_its_tags_are_those_of_the_chunks(acts: ImageActs) -> None:
    """Whose granule an address is in, and which tags are around it: its own stands in brackets."""
    for one in acts.runs:
        status = one.status
        named = status.get("address") or status.get("pointer")
        if not named:
            assert one.told.place == "" and one.json["tags"] is None
            continue
        address = int(named, 16) & (1 << 56) - 1
        check_place(one, address)
        tags = one.json["tags"]
        assert int(tags["from"], 16) == one.told.tags_from == max(address // 16 * 16 - 128, 0)
        shown = [tag.strip("[]") for tag in one.told.tags]
        assert shown == ["-" if tag is None else f"{tag:x}" for tag in tags["tags"]]
        own = (address - one.told.tags_from) // 16
        assert [at for at, tag in enumerate(one.told.tags) if tag[0] == "["] == [own]
        if status.get("name") == "TagCheck":
            assert tags["tags"][own] == status["memory_tag"]
        check_tags(one, tags["tags"])


def check_place(one: Explained, address: int) -> None:
    """The line of the address: in its block, in its chunk."""
    model = one.model
    place = one.told.place
    assert place.startswith(f"{address:#018x} is in ")
    around = model.newest(
        it for it in model.chunks if it.start <= address < it.granules_end
    )
    if around:
        chunk = f"{'freed' if around.freed else 'live'} {around}"
        assert place.endswith(f", {address - around.start} bytes from the start of a {chunk}")
    else:
        assert ", of no chunk" in place
    if found := re.search(r"the block of (\d+) bytes at (0x\w+) \(class (\d+)\)", place):
        size, start, number = int(found[1]), int(found[2], 16), int(found[3])
        region = 0x10000000 + number * 0x1000000
        assert start <= address < start + size and (start - region) % size == 0


def check_tags(one: Explained, tags: list[Optional[int]]) -> None:
    """A live chunk of a size class has its pointer's tag on all of its granules, and none more."""
    if (one.act.source, one.act.input) == ("chunks", "v"):
        return
    for at, tag in enumerate(tags):
        address = one.told.tags_from + 16 * at
        for chunk in one.model.live.values():
            if chunk.start <= address < chunk.granules_end and chunk.start < 0x3D000000:
                assert tag == chunk.tag, hex(address)
            elif chunk.granules_end == address:
                assert tag != chunk.tag, hex(address)


def test_leaks_are_the_chunks_that_are_live(acts: ImageActs) -> None:
    """--leaks: by the calls that the trace has for the heap calls that made them."""
    need("llvm-nm", "llvm-symbolizer")
    found = []
    for one in acts.runs:
        live = sorted(one.model.live.values(), key=lambda chunk: chunk.start)
        count = "1 chunk" if len(live) == 1 else f"{len(live)} chunks"
        total = bytes_of(sum(chunk.size for chunk in live))
        assert one.told.live == f"live at the end: {count}, {total}"
        places = places_of(one, live)
        wanted = [(len(it), sum(chunk.size for chunk in it), it[0].made.number)
                  for it in places.values()]
        assert [(it.chunks, it.size, it.first) for it in one.told.leaks] == wanted
        found += list(zip([leak.frames for leak in one.told.leaks], places, strict=True))
    check_leaks(found, image(acts.source, acts.build))


def places_of(one: Explained, live: list[Chunk]) -> dict[tuple[int, ...], list[Chunk]]:
    """Live chunks by the calls that led to the heap calls that made them."""
    places: dict[tuple[int, ...], list[Chunk]] = {}
    for chunk in live:
        calls = calls_at(one.steps[chunk.made.step - 1])
        places.setdefault(tuple(calls[: RECORDS_OF_CALL + 1]), []).append(chunk)
    return places


def check_leaks(found: list[tuple[list[Frame], tuple[int, ...]]], path: pathlib.Path) -> None:
    """The lines of places."""
    table = binutils.symbols(path)
    origins = binutils.sources(path, (address for _, calls in found for address in calls))
    pairs = [(number, *pair) for frames, calls in found
             for number, pair in enumerate(zip(frames, calls))]
    for number, frame, address in pairs:
        check_label(frame, address, number > 0, table)
        check_chain(frame, origins.get(address))


def test_pictures_show_the_chunks(
    acts: ImageActs, alone: pathlib.Path, tmp_path: pathlib.Path
) -> None:
    """SVG and text have the tags and the chunks of the model, and a red frame where it ended."""
    for one in acts.runs:
        path = tmp_path / "heap.svg"
        explain(alone, one.act, one.build, tmp_path, "--map", str(path))
        picture = read_svg(path.read_text(encoding="utf-8"))
        assert len(set(picture.colours)) == 16
        cause = one.told.cause or ""
        assert picture.title.startswith(f"{acts.source}.{acts.build}.elf: {cause}")
        assert f", step {one.json['steps']}, seed {one.json['seed']}" in picture.title
        rows = read_text(one.ran.errors.splitlines())
        for row, shown in zip(rows, picture.rows, strict=True):
            assert (row.address, row.tags) == (shown.address, shown.tags)
            assert row.marked == shown.marked
            check_owners(row, one.model, row.live, row.freed, row.marked)
            check_owners(row, one.model, shown.live, shown.freed, None)
        check_mark(one, picture)


def check_owners(
    row: Row, model: ChunkModel, live: set[int], freed: set[int], marked: Optional[int]
) -> None:
    """Frames and hatches are those of the model's chunks, but for the granule that is marked."""
    granules = {at: row.address + 16 * at for at in range(64) if at != marked}

    def covered(chunks: Sequence[Chunk]) -> set[int]:
        return {at for at, address in granules.items()
                if any(it.start <= address < it.granules_end for it in chunks)}

    wanted = covered(list(model.live.values()))
    assert live == wanted, hex(row.address)
    assert freed == covered([it for it in model.chunks if it.freed]) - wanted, hex(row.address)


def check_mark(one: Explained, picture: Picture) -> None:
    """The red frame is around the granule of the address, and says the address and the tags; a thin
    one is around the chunk that the cause names."""
    status = one.status
    marked = [(row.address + 16 * row.marked, row.says) for row in picture.rows
              if row.marked is not None]
    named = status.get("address") or status.get("pointer")
    if not named:
        assert marked == []
        return
    address = int(named, 16) & (1 << 56) - 1
    assert [place for place, _ in marked] == [address // 16 * 16]
    assert f" at {address:#010x}" in marked[0][1] or f" {address:#x}" in marked[0][1]
    if status.get("name") == "TagCheck":
        tags = f" with tag {status['pointer_tag']:#x}, memory has {status['memory_tag']:#x}"
        assert marked[0][1].endswith(tags)
    chunks = one.json["chunks"]
    if chunks and len(chunks) == 1:
        check_cause_frame(one, picture, int(chunks[0]["pointer"], 16))


def check_cause_frame(one: Explained, picture: Picture, pointer: int) -> None:
    """All granules of the chunk that are in rows are framed, unless its block was given again."""
    chunk = next(it for it in one.model.chunks if it.pointer == pointer)
    drawn = {row.address for row in picture.rows}
    granules = {at for at in range(chunk.start, chunk.granules_end, 16)
                if at // 1024 * 1024 in drawn}
    assert picture.cause == granules or not one.model.has_block(chunk)


def test_words_are_of_the_family_that_a_disassembler_says(
    alone: pathlib.Path, tmp_path: pathlib.Path
) -> None:
    """The family of a word, by the mnemonic that llvm-objdump has for it."""
    need("llvm-objdump")
    for build in BUILDS:
        known = binutils.instructions(image("words", build))
        for letter, (mnemonic, family) in FAMILIES.items():
            ran = explain(alone, Act("words", letter, 0), build, tmp_path)
            found = re.match(r"illegal word (0x\w{8}) at (0x\w{16}) ", read_told(ran.errors).first)
            assert found, letter
            word, text = known[int(found[2], 16)]
            assert (int(found[1], 16), text.split()[0]) == (word, mnemonic)
            advice = "" if mnemonic == "udf" else " (docs/TENANTS.md has what avoids it)"
            first = ran.errors.splitlines()[0]
            assert first.endswith(f": no instruction of the table, but {family}{advice}")


def test_breakpoints_say_what_their_number_stands_for(
    alone: pathlib.Path, tmp_path: pathlib.Path
) -> None:
    """The numbers of BRK by hand, of __builtin_trap, and of clang's checks of behavior."""
    for build, source, letter, number, words in traps():
        ran = explain(alone, Act(source, letter, 0), build, tmp_path)
        first = ran.errors.splitlines()[0]
        assert first.startswith(f"mte_run: breakpoint {number}"), first
        assert first.endswith(f": {words}" if words else ")"), first


def traps() -> list[tuple[str, str, str, str, str]]:
    """Build, tenant and act of each breakpoint, its number, and what has to be said of it."""
    found = []
    for build in BUILDS:
        is_clang = build.startswith("clang")
        trap = ("1" if is_clang else "1000", "__builtin_trap, as clang and gcc write it")
        found += [(build, "words", letter, *it) for letter, it in {**TRAPS, "A": trap}.items()]
        found += [(build, "sums", letter, *(("", words) if is_clang else trap))
                  for letter, words in CHECKS.items()]
    return found


EXACTLY = re.compile(
    r"exact: a (read|write) of (\d+) bytes? from (0x\w{16}) by the instruction at (0x\w{16}) "
    r"\(\S+\): the byte at (0x\w{16}) (.*)$"
)


@pytest.mark.parametrize("build", ("clang-O2", "gcc-O0"))
@pytest.mark.parametrize("option", ("--exact", "--exact=writes"))
def test_exact_ends_at_the_first_access_beyond_live_bytes(
    alone: pathlib.Path, tmp_path: pathlib.Path, build: str, option: str
) -> None:
    """The access that a model of chunks to the byte finds in the trace of a run without it."""
    for letter in sorted({act.input for act in CHUNKS}):
        act = Act("chunks", letter, 0)
        plain = run_act(alone, act, build, tmp_path)
        exact = run_act(alone, act, build, tmp_path, option)
        wanted = first_trespass(plain.steps, option == "--exact=writes")
        if wanted is None:
            assert (exact.ran.status, exact.told.first) == (plain.ran.status, plain.told.first)
            continue
        found = EXACTLY.match(exact.told.first)
        assert found and exact.ran.status == EXACT, f"{letter}: {exact.told.first}"
        step, *parts = wanted
        told = [found[1], int(found[2]), *(int(found[at], 16) for at in (3, 4, 5)), found[6]]
        assert told == parts, letter
        assert exact.json["steps"] == step.number


def first_trespass(steps: Sequence[Step], writes_alone: bool) -> Optional[tuple[Any, ...]]:
    """The first access to bytes of the heap that no live chunk has: its step, what it is, its
    bytes, its address, the instruction's, the first wrong byte, and what is wrong with that."""
    model = ChunkModel([])
    for step in steps:
        span = None if model.take(step.number, step.service or "") else span_of(step)
        if span is None or writes_alone and span[0] == "read":
            continue
        way, address, length = span
        bad = next((at for at in range(address, address + length) if model.trespass(at)), None)
        if bad is not None:
            return step, way, length, address, step.pc, bad, model.trespass(bad)
    return None


def span_of(step: Step) -> Optional[tuple[str, int, int]]:
    """What an instruction or its service reads or writes: the plain address and the bytes."""
    access, plain = step.stored or step.loaded, (1 << 56) - 1
    if access:
        return "write" if step.stored else "read", access.address & plain, access.length
    found = re.match(r"(write|read)\((0x\w+), \d+\) = (\d+)$", step.service or "")
    if not found:
        return None
    return "read" if found[1] == "write" else "write", int(found[2], 16) & plain, int(found[3])


# The seeds of docs/MTE_RUN.md, which are run behind the given one.
SEEDS = """
17c45f42f3ec9932 57c53a70950ac3fb bef731cd19754a08 0155e42110dd6130
0e3cb6225c186a21 24532f19f3b4b699 3af6bf43bdececd0 407fa8ec4f79331a
5910f5c429e72b4f 620e95d9497cd547 67c339d8212ad635 84a95bec490896b7
8a0c7574a2f4c7f8 9787184ec39dcc58 a52c0dc3f433fba6 b4679692b072ff83
""".split()
MASK = (1 << 64) - 1


def split_mix(count: int) -> int:
    """SplitMix64 of a number (Steele, Lea, Flood)."""
    mixed = count * 0x9E3779B97F4A7C15 & MASK
    mixed = (mixed ^ mixed >> 30) * 0xBF58476D1CE4E5B9 & MASK
    mixed = (mixed ^ mixed >> 27) * 0x94D049BB133111EB & MASK
    return mixed ^ mixed >> 31


@pytest.mark.parametrize("first", ("0000000000000001", "0e3cb6225c186a21"))
@pytest.mark.parametrize("count", (2, 5, 20))
def test_seeds_tell_the_first_run_that_does_not_exit(
    alone: pathlib.Path, tmp_path: pathlib.Path, first: str, count: int
) -> None:
    """The counts and the told run are those of runs under each seed by itself."""
    act, build = Act("many", "x", 0), "gcc-O2"
    listed = [first, *SEEDS, *(f"{split_mix(number):016x}" for number in range(17, count))][:count]
    runs = {seed: explain(alone, act, build, tmp_path, "--seed", seed) for seed in listed}
    bad = [seed for seed in listed if runs[seed].status]
    ways = [(count - len(bad), "exit"), (len(bad), "fault")]
    counts = "".join(f" {number} ended by {way}," for number, way in ways if number)
    line = f"mte_run: {count} seeds:{counts} told is seed {bad[0]}\n"
    ran = explain(alone, act, build, tmp_path, "--seed", first, "--seeds", str(count))
    assert ran.errors == line + runs[bad[0]].errors and ran.status == runs[bad[0]].status


def test_seeds_say_where_all_runs_exit(alone: pathlib.Path, tmp_path: pathlib.Path) -> None:
    """No run is told then but the first, which exits."""
    act = Act("services", "e77", 77)
    ran = explain(alone, act, "gcc-O0", tmp_path, "--seeds", "4")
    assert ran.errors == "mte_run: 4 seeds: 4 ended by exit, none is told\n" and ran.status == 77


def test_more_heap_calls_than_are_kept(alone: pathlib.Path, tmp_path: pathlib.Path) -> None:
    """Of 65,605 heap calls the last 65,536 are known, so that nobody knows of the chunk."""
    services = tmp_path / "services"
    words = ("--services", "--trace-file", str(services), "--leaks")
    ran = explain(alone, FORGOTTEN, "clang-O2", tmp_path, *words)
    model, told = ChunkModel(read_services(services.read_text())), read_told(ran.errors)
    assert len(model.calls) == 65605 and model.is_short
    assert told.cause == "unknown" and told.hints == ["(older heap calls are no longer kept)"]
    assert told.live == "live at the end: 0 chunks, 0 bytes"


def test_a_chunk_is_known_behind_many_heap_calls(
    alone: pathlib.Path, tmp_path: pathlib.Path
) -> None:
    """More calls than a report lists lie between a chunk and the access to it."""
    for act in MANY[:2]:
        one = run_act(alone, act, "gcc-O0", tmp_path)
        assert len(one.model.calls) > 64 + max(it.number for it in one.told.calls)
        cause, chunks = cause_by_model(one, one.model)
        assert one.told.cause == cause and len(chunks) == 1


@pytest.fixture(scope="module", params=("chunks", "many"))
def sanitized(
    request: pytest.FixtureRequest, tmp_path_factory: pytest.TempPathFactory
) -> tuple[str, pathlib.Path]:
    """A tenant's source, compiled for this machine under AddressSanitizer."""
    compiler = asan.compiler()
    if compiler is None:
        give_up("no compiler of this machine has AddressSanitizer")
    source = str(request.param)
    program = tmp_path_factory.mktemp("asan") / source
    place = f"-I{EXAMPLES / 'c'}"
    asan.compile_natively(str(compiler), IMAGES / f"{source}.c", program, place)
    return source, program


# Where AddressSanitizer has another chunk in mind, far from one or with pages of its own; and where
# it ends the program earlier, at the write to the header.
OTHERWISE = {("chunks", letter) for letter in "cLMh"} | {("many", "x")}


@pytest.mark.parametrize("build", BUILDS)
def test_calls_are_those_of_address_sanitizer(
    alone: pathlib.Path, tmp_path: pathlib.Path, sanitized: tuple[str, pathlib.Path], build: str
) -> None:
    """The functions that led to the end, to the allocation and to the free, natively."""
    need("llvm-symbolizer")
    source, program = sanitized
    compared = 0
    for act in (*CHUNKS, *MANY):
        if act.source != source or not act.made or act.options or (source, act.input) in OTHERWISE:
            continue
        theirs = asan.names_by_sanitizer(asan.run_natively(program, act.input).errors)
        if "end" in theirs:
            ran = explain(alone, act, build, tmp_path)
            ours = asan.names_told(ran.errors, IMAGES)
            assert {kind: ours[kind] for kind in theirs} == theirs, act
            compared += 1
    assert compared >= (9 if source == "chunks" else 2)
