"""What a tenant did, counted by its trace."""

import re
from collections import Counter
from collections.abc import Iterable

from tests.support.chunk_model import HEAP_CALLS, PLAIN
from tests.support.traces import Step

# Loads and stores of tags alone are none of bytes.
TAGS_ALONE = ("ldg", "stg", "st2g")
IN_CLASSES = range(0x11000000, 0x3D000000)
MOST_DRAWS = 1 << 16


def is_load(step: Step) -> bool:
    """Whether an instruction loads bytes."""
    return step.mnemonic.startswith("ld") and step.mnemonic not in TAGS_ALONE


def is_store(step: Step) -> bool:
    """Whether an instruction stores bytes."""
    return step.mnemonic.startswith("st") and step.mnemonic not in TAGS_ALONE


def compares_tags(step: Step) -> bool:
    """Whether an access compares its pointer's tag (Arm ARM DDI 0487, "Tag Checked and Tag
    Unchecked accesses"): not relative to PC, nor by SP at a constant offset without writeback, nor
    a store of a pair that stores a tag too."""
    if "[" not in step.text or step.mnemonic == "stgp":
        return False
    is_constant = re.search(r"\[sp(?:, #-?\w+)?\]$", step.text)
    return not is_constant


def counted(steps: list[Step], tagged: Iterable[range]) -> dict[str, int]:
    """The numbers of a run, by the words of --statistics. `tagged` are the pages with tags."""
    numbers = Counter({"steps attempted": len(steps)})
    pages = list(tagged)
    for step in steps:
        access = step.stored or step.loaded
        if access and (is_load(step) or is_store(step)):
            numbers["loads" if is_load(step) else "stores"] += 1
            has_tags = any(access.address & PLAIN in page for page in pages)
            numbers["accesses with a tag compared"] += compares_tags(step) and has_tags
        if step.service and not step.service.endswith("which ends it"):
            numbers["services answered"] += 1
            name = step.service.partition("(")[0]
            numbers[name] += name in HEAP_CALLS
    return {name: numbers[name] for name in (*NAMES, *HEAP_CALLS)}


NAMES = ("steps attempted", "loads", "stores", "accesses with a tag compared", "services answered")


def draws(seed: int, last: int) -> int:
    """How many tags were drawn between two states of the generator (AArch64.RandomTag): each is
    of four bits, and a bit is the exclusive or of bits 5, 3, 2 and 0."""
    state = seed & 0xFFFF
    for count in range(MOST_DRAWS):
        if state == last:
            return count
        for _ in range(4):
            top = (state >> 5 ^ state >> 3 ^ state >> 2 ^ state) & 1
            state = top << 15 | state >> 1
    raise AssertionError(f"the generator never comes from {seed:#x} to {last:#x}")


def draws_of_services(steps: Iterable[Step]) -> int:
    """How many tags the heap draws by its calls, and IRG: one for each chunk of a size class that
    is made, one for each that is freed."""
    count = 0
    for step in steps:
        found = re.match(r"(\w+)\((.*)\) = (\S+)$", step.service or "")
        count += step.mnemonic == "irg"
        if found and found[1] in HEAP_CALLS and found[1] != "usable_size":
            first, result = int(found[2].split(", ")[0], 0), int(found[3], 0)
            has_moved = found[1] != "realloc" or first != result
            count += has_moved and result & PLAIN in IN_CLASSES
            is_freed = found[1] in ("free", "realloc") and has_moved
            count += is_freed and first & PLAIN in IN_CLASSES
    return count
