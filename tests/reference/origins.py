"""Which chunks a value is a pointer into: sums and differences of pointers, and parts of them."""

from dataclasses import dataclass
from typing import Optional, Union

# A pointer is the number of the heap call that made its chunk; a sum has each with how often.
Terms = frozenset[tuple[int, int]]
# The most pointers of a sum.
MOST = 4


@dataclass(frozen=True)
class Sum:
    """A sum of pointers and numbers; without a pointer it is a number."""

    terms: Terms = frozenset()

    @property
    def is_number(self) -> bool:
        """Whether no pointer is left."""
        return not self.terms

    @property
    def chunk(self) -> Optional[int]:
        """The chunk, where one pointer is left."""
        if len(self.terms) == 1:
            (chunk, times), = self.terms
            return chunk if times == 1 else None
        return None


@dataclass(frozen=True)
class Part:
    """Some bytes of a sum, from one on."""

    whole: Sum
    first: int
    size: int


@dataclass(frozen=True)
class Lost:
    """A value that was made of pointers in a way that the page calls lost (a product): an access
    by it is judged by its address. Or one of which the page says nothing."""

    is_by_page: bool = False


Origin = Union[Sum, Part, Lost]
NUMBER, LOST, UNSAID = Sum(), Lost(True), Lost(False)


def pointer(chunk: int) -> Sum:
    """A pointer into a chunk."""
    return Sum(frozenset({(chunk, 1)}))


def is_number(origin: Origin) -> bool:
    """Whether it is made of no pointer."""
    return isinstance(origin, Sum) and origin.is_number


def added(x: Origin, y: Origin, sign: int = 1) -> Origin:
    """A sum or a difference."""
    if not isinstance(x, Sum) or not isinstance(y, Sum):
        return LOST if LOST in (x, y) and (is_number(x) or is_number(y)) else UNSAID
    found = dict(x.terms)
    for chunk, times in y.terms:
        found[chunk] = found.get(chunk, 0) + sign * times
    terms = frozenset((chunk, times) for chunk, times in found.items() if times)
    return Sum(terms) if sum(abs(times) for _, times in terms) <= MOST else UNSAID


class WordMemory:
    """What each byte of the memory is a part of; bytes that are not kept are numbers."""

    def __init__(self) -> None:
        self.bytes: dict[int, tuple[Origin, int]] = {}

    def forget(self, start: int, size: int) -> None:
        """The bytes are numbers."""
        for at in range(start, start + size):
            self.bytes.pop(at, None)

    def unsay(self, start: int, size: int) -> None:
        """The bytes are what was there before: the page does not say from where."""
        for at in range(start, start + size):
            self.bytes[at] = (UNSAID, 0)

    def store(self, start: int, size: int, origin: Origin) -> None:
        """The lowest bytes of a register."""
        self.forget(start, size)
        if is_number(origin):
            return
        first = origin.first if isinstance(origin, Part) else 0
        whole = origin.whole if isinstance(origin, Part) else origin
        is_too_short = isinstance(origin, Part) and origin.size < size
        for at in range(size):
            self.bytes[start + at] = (UNSAID if is_too_short else whole, first + at)

    def load(self, start: int, size: int) -> Origin:
        """Bytes as a register: a whole pointer, a part of one, or a number."""
        found = [self.bytes.get(start + at) for at in range(size)]
        if not any(found):
            return NUMBER
        whole, first = found[0] or (UNSAID, 0)
        is_unsaid = any(it and it[0] == UNSAID for it in found)
        if is_unsaid or found != [(whole, first + at) for at in range(size)]:
            return UNSAID
        if not isinstance(whole, Sum):
            return whole if size == 8 and first == 0 else UNSAID
        if size == 8:
            # A word is kept where it is aligned.
            return whole if first == 0 and start % 8 == 0 else UNSAID
        return Part(whole, first, size)

    def copy(self, source: int, target: int, size: int) -> None:
        """What a `realloc` moves."""
        moved = [self.bytes.get(source + at) for at in range(size)]
        for at, it in enumerate(moved):
            if it is None:
                self.bytes.pop(target + at, None)
            else:
                self.bytes[target + at] = it
