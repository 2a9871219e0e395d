"""The slices that lead a tenant on to a total of steps, over its yields: found by the library, in
which a tenant alone has any number of slices. What it does there it does in a session with these
slices (`tenants_are_alone`)."""

import itertools
from collections.abc import Callable, Iterable, Sequence
from typing import TYPE_CHECKING

from batch.scripts import MOST_STEPS, Own, tenants_of

if TYPE_CHECKING:
    from tombolopan import Tenant

# So many slices of one length.
Run = tuple[int, int]
# More slices than this are not tried: they take 4 bytes each here, and some 30 in a list.
MOST_SLICES = 1 << 24


def filling(steps: int, length: int = MOST_STEPS) -> list[Run]:
    """Slices of a length, and what is left over, for so many steps."""
    runs = [(length, steps // length), (steps % length, 1)]
    return [it for it in runs if all(it)]


def slices_of(runs: Iterable[Run]) -> list[int]:
    """The slices themselves."""
    return list(itertools.chain.from_iterable([length] * count for length, count in runs))


def count_of(runs: Iterable[Run]) -> int:
    """How many slices there are."""
    return sum(count for _, count in runs)


def lead(run: Callable[[list[Run]], "Tenant"], total: int) -> tuple[list[Run], "Tenant"]:
    """The further slices of a tenant up to a total of steps, and what it is then.

    All that is left is allowed at a time, in slices of one length. Where not more than half of it
    is used the slices are too long, and halved; else what is left is halved. So it is run some
    twenty times and once for each halving of the total, never for more steps than that has."""
    found: list[Run] = []
    length, tenant = MOST_STEPS, run([])
    while tenant.status == "running" and tenant.steps < total:
        left = total - tenant.steps
        length = min(length, left)
        more = [*found, *filling(left, length)]
        if count_of(more) > MOST_SLICES:
            break
        after = run(more)
        used = after.steps - tenant.steps
        if after.status != "running":
            return [*found, *trimmed(lambda it: run([*found, *it]), more[len(found):], used)], after
        if 2 * used <= left:
            length = max(length // 2, 1)
        found, tenant = more, after
    return found, tenant


def trimmed(run: Callable[[list[Run]], "Tenant"], last: list[Run], used: int) -> list[Run]:
    """Slices in which a tenant ends after so many steps, without those that come after its end: the
    number of the slice is doubled until the tenant ends by it, and then halved in."""
    length, most = last[0]
    few = max(used - 1, 0) // length
    many = few + 1
    while many < most and run([(length, many)]).status == "running":
        few, many = many, 2 * many
    if many >= most:
        if run([(length, most)]).status == "running":
            return last
        many = most
    while many - few > 1:
        middle = (many + few) // 2
        if run([(length, middle)]).status == "running":
            few = middle
        else:
            many = middle
    return [(length, many)]


def alone(own: Own, files: Sequence[bytes]) -> Callable[[list[Run]], "Tenant"]:
    """What runs a tenant alone by its own slices and further ones."""
    import tombolopan
    return lambda runs: tombolopan.alone(*own.terms(files, slices_of(runs)))


def found_for(script: bytes, files: Sequence[bytes], total: int) -> bytes:
    """The further slices of the only tenant of a script, and then its report."""
    (number, own), = tenants_of(script, ()).items()
    runs, tenant = lead(alone(own, files), total)
    return text_of(total, {number: runs}) + report_of(number, tenant)


def text_of(total: int, runs: dict[int, list[Run]]) -> bytes:
    """The lines of the further slices of tenants for a total of steps."""
    return b"total %d\n" % total + b"".join(
        b"further %d %d %d\n" % (number, *it) for number, its in runs.items() for it in its)


def runs_of(text: bytes) -> dict[int, list[Run]]:
    """The further slices of tenants, by their lines."""
    found: dict[int, list[Run]] = {}
    for line in text.splitlines():
        if line.startswith(b"further "):
            number, length, count = map(int, line.split()[1:])
            found.setdefault(number, []).append((length, count))
    return found


def lines_of(runs: dict[int, list[Run]]) -> bytes:
    """The lines of a script that has these slices."""
    return b"".join(b"slice %d %d\n" % (number, length) * count
                    for number, its in runs.items() for length, count in its)


def status_of(tenant: "Tenant") -> str:
    """The words of a status, as a report has them."""
    import tombolopan
    name, at, fault = str(tenant.status), f"pc 0x{tenant.pc:016x}", tenant.fault
    if fault is not None:
        way = "write" if fault.write else "read"
        return (f"fault {fault.kind} {way} addr 0x{fault.address:016x} ptr {fault.pointer_tag} "
                f"mem {fault.memory_tag} {at}")
    words = {
        "exit": f"exit {tenant.number}", "illegal": f"illegal 0x{tenant.number:08x} {at}",
        "break": f"break {tenant.number} {at}", "async": f"async {at}",
        "abort": f"abort {tombolopan.heap_abort_name(tenant.number)} "
                 f"ptr 0x{tenant.pointer:016x} {at}"}
    return words.get(name, name)


def report_of(number: int, tenant: "Tenant") -> bytes:
    """The lines of a tenant as a report has them."""
    output = f"{len(tenant.output)} {tenant.output.hex()}".rstrip()
    calls = [f"call {it.service} 0x{it.first:016x} 0x{it.second:016x} = 0x{it.answer:016x}"
             for it in tenant.calls]
    lines = [f"tenant {number}", f"status {status_of(tenant)}", f"steps {tenant.steps}",
             f"output {output}", f"heap {tenant.heap}", *calls, "end"]
    return "".join(f"{it}\n" for it in lines).encode()
