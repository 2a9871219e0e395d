"""What `--statistics` counts, by the table of docs/MTE_RUN.md, from the lines of a trace.

Tags that the heap draws and pages that are mapped are not in a trace, so they are not counted.
"""

from collections.abc import Iterable

from tests.reference.accesses import access_of
from tests.reference.decode import SP
from tests.reference.moments import PLAIN, Moment

CALLS = {3: "malloc", 4: "free", 5: "calloc", 6: "realloc", 7: "memalign", 8: "usable_size"}
# The heap and the stack have tags; an image of the tests has none.
TAGGED = range(0x10000000, 0x40000000)


def is_compared(moment: Moment) -> bool:
    """Whether an access compares the tag of its pointer (Arm ARM DDI 0487, "Tag Checked and Tag
    Unchecked accesses")."""
    it, access = moment.instruction, access_of(moment.instruction)
    done = moment.step.loaded or moment.step.stored
    if access is None or done is None or access.base is None or it.row == "st_g_p":
        return False
    is_plain_stack = access.base == SP and access.index is None and not access.write_back
    return not is_plain_stack and done.address & PLAIN in TAGGED


def counted(all_moments: Iterable[Moment]) -> dict[str, int]:
    """The numbers by their names in --json."""
    names = ("steps", "loads", "stores", "tags_compared", "services", *CALLS.values())
    found = dict.fromkeys(names, 0)
    for moment in all_moments:
        found["steps"] += 1
        found["loads"] += moment.step.loaded is not None
        found["stores"] += moment.step.stored is not None
        found["tags_compared"] += is_compared(moment)
        service = moment.service
        if service and service.result is not None:
            found["services"] += 1
            if service.number in CALLS:
                found[CALLS[service.number]] += 1
    return found
