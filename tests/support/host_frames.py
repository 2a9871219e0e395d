"""Which page of which tenant a frame holds, by the moves that the page gets of a session."""

from collections.abc import Sequence
from typing import Any

PAGE = 4096
Held = dict[int, tuple[str, int]]


def holders(moves: Sequence[dict[str, Any]], event: int) -> Held:
    """For each frame that is out after an event the tenant and the page. No frame holds two pages,
    no page is in two frames, and what leaves a frame was there."""
    held: Held = {}
    for move in moves:
        own = (move["id"], move["page"])
        if move["event"] > event:
            break
        if move["comes"]:
            assert move["frame"] not in held and own not in held.values(), move
            held[move["frame"]] = own
        else:
            assert held.pop(move["frame"]) == own, move
    return held


def only_own_move(moves: Sequence[dict[str, Any]], script: str) -> None:
    """An event moves no frame of a tenant but its own."""
    words = [line.split() for line in script.splitlines() if line and line[0] in "as"]
    wrong = [move for move in moves if words[move["event"] - 1][1] != move["id"]]
    assert not wrong, wrong


def pages_of(run: dict[str, Any]) -> set[int]:
    """The numbers of the pages that a tenant has at the end of a run of its own, by its JSON."""
    found: set[int] = set()
    for row in run["pages"]:
        found |= set(range(int(row["first"], 16) // PAGE, int(row["last"], 16) // PAGE + 1))
    return found


def drawn_cells(held: Held) -> set[tuple[int, str, int]]:
    """What the picture says of them: frame, tenant, and address."""
    return {(frame, tenant, page * PAGE) for frame, (tenant, page) in held.items()}
