"""A memory with tags, of pages that are mapped one by one."""
from __future__ import annotations

import ctypes
import heapq
from collections.abc import Iterable, Iterator
from ctypes import byref, c_uint8
from typing import Any, NamedTuple

from .abi import ALREADY_MAPPED, NO_ROOM, NOT_MAPPED, OK
from .abi import _Fault, _lend, _library, _Page, _TagState, _TagStore
from .enums import Attrs, Code, FaultKind
from .faults import Fault, MappingError
from .ranges import as_bytes, in_bits, in_range

PAGE = 4096
# The most pages of a memory: 1 GiB. A search goes through them one by one.
MOST_PAGES = 1 << 18
_PLAIN = (1 << 56) - 1
_PLACE, _BYTES, _TAGS = ctypes.sizeof(_Page), _Page.bytes.offset, _Page.tags.offset
# So many places are searched at no cost worth a thought; those behind them come forward at need.
_FRONT = 16


class Region(NamedTuple):
    """Neighbouring pages with the same attributes: the address of the first, how many bytes they
    have, and what may be done with them."""

    address: int
    length: int
    attrs: Attrs

    def __repr__(self) -> str:
        names = "|".join(it.name or "" for it in Attrs if it in self.attrs)
        return f"Region({self.address:#x}, {self.length:#x}, {names or 0})"


def _regions_of(pages: Iterable[tuple[int, int]]) -> list[Region]:
    """The regions of pages, the lowest first; each page its number and its attributes."""
    found: list[Region] = []
    for number, attrs in sorted(pages):
        last = found[-1] if found else None
        if last and last.address + last.length == number * PAGE and last.attrs == attrs:
            found[-1] = Region(last.address, last.length + PAGE, last.attrs)
        else:
            found.append(Region(number * PAGE, PAGE, Attrs(attrs)))
    return found


def _page_numbers(address: int, length: int) -> range:
    """The numbers of pages from an address on; both are multiples of 4096."""
    in_range("address", address, 0, 1 << 56)
    in_range("length", length, 0, (1 << 56) - address)
    if address % PAGE or length % PAGE:
        raise ValueError(
            f"address {address:#x} and length {length:#x} are multiples of 4096"
        )
    return range(address // PAGE, (address + length) // PAGE)


class Memory:
    """A memory with tags. It grows as pages are mapped, up to `places` pages (at most 262,144, and
    so many where it is not given). `asynchronous` chooses the mode in which a tag that differs sets
    `pending` and fails no access. Calls that use one at once are the caller's to keep apart.

    >>> memory = Memory()
    >>> memory.map(0x10000, 0x2000, Attrs.READ | Attrs.WRITE)
    >>> memory.write(0x10ffe, b"over a border")
    >>> memory.protect(0x11000, 0x1000, Attrs.READ)
    >>> memory
    Memory(0x10000..0x11000 READ|WRITE, 0x11000..0x12000 READ)
    >>> memory.regions()
    [Region(0x10000, 0x1000, READ|WRITE), Region(0x11000, 0x1000, READ)]
    >>> memory.write(0x10ffe, b"over a border")
    Traceback (most recent call last):
        ...
    tombolopan.Fault: Permission: a write at 0x11000
    >>> memory.read(0x10ffe, 13)
    b'over a border'
    >>> memory.peek(0x20000, 1)
    Traceback (most recent call last):
        ...
    tombolopan.Fault: Translation: a read at 0x20000
    >>> memory.map(0x11000, 0x1000, Attrs.READ)
    Traceback (most recent call last):
        ...
    tombolopan.MappingError: page already mapped at 0x11000
    """

    def __init__(self, places: int | None = None, asynchronous: bool = False) -> None:
        self._limit = MOST_PAGES if places is None else in_range("places", places, 0, MOST_PAGES)
        self._places = (_Page * max(min(self._limit, _FRONT), 1))()
        self._state = _TagState()
        # Of each page the place; how many places are searched; which of them are free.
        self._index: dict[int, int] = {}
        self._used = 0
        self._free: list[int] = []
        _library.tb_memory_init(self._places, self._limit and 1, byref(self._state), asynchronous)

    def _lent(self) -> tuple[ctypes.Array[_Page], int, Any]:
        return self._places, self._used, byref(self._state)

    @property
    def pending(self) -> bool:
        """Whether a tag differed in the asynchronous mode."""
        return bool(self._state.pending)

    @property
    def asynchronous(self) -> bool:
        """Whether a tag that differs sets `pending` and fails no access."""
        return bool(self._state.asynchronous)

    def _grow(self, pages: int) -> None:
        """Makes room for so many more pages."""
        wanted = self._used + pages - len(self._free)
        if wanted <= len(self._places):
            return
        room = min(max(wanted, 2 * len(self._places)), self._limit)
        places = (_Page * room)()
        ctypes.memmove(places, self._places, self._used * _PLACE)
        self._places = places

    def _take(self) -> int:
        """A place that is free: the first."""
        if self._free:
            return heapq.heappop(self._free)
        self._used += 1
        return self._used - 1

    def map(self, address: int, length: int, attrs: int) -> None:
        """Maps pages of zero bytes and tag 0, all of them or none; attrs is a sum of READ, WRITE,
        EXEC and TAGGED. MappingError where one of them is mapped, or where no place is left."""
        numbers = _page_numbers(address, length)
        in_range("attrs", attrs, 0, 15)
        few = numbers if len(numbers) <= len(self._index) else sorted(self._index)
        taken = next((it for it in few if it in numbers and it in self._index), None)
        if taken is not None:
            raise MappingError(Code.of(ALREADY_MAPPED), taken * PAGE)
        if len(numbers) > self._limit - len(self._index):
            raise MappingError(Code.of(NO_ROOM), address)
        self._grow(len(numbers))
        for number in numbers:
            at = self._take()
            _library.tb_map(byref(self._places[at]), 1, number, attrs)
            self._index[number] = at

    def _mapped(self, address: int, length: int) -> range:
        """The numbers of pages that are all mapped; else MappingError."""
        numbers = _page_numbers(address, length)
        missing = next((it for it in numbers if it not in self._index), None)
        if missing is not None:
            raise MappingError(Code.of(NOT_MAPPED), missing * PAGE)
        return numbers

    def unmap(self, address: int, length: int) -> None:
        """Unmaps pages, all of them or none. MappingError where one is not mapped."""
        for number in self._mapped(address, length):
            at = self._index.pop(number)
            _library.tb_unmap(byref(self._places[at]), 1, number)
            heapq.heappush(self._free, at)
        if not self._index:
            self._used, self._free = 0, []

    def protect(self, address: int, length: int, attrs: int) -> None:
        """Gives mapped pages other attributes, all of them or none; bytes and tags stay, also where
        a page is without TAGGED for a while."""
        in_range("attrs", attrs, 0, 15)
        for number in self._mapped(address, length):
            self._places[self._index[number]].attrs = attrs

    def regions(self) -> list[Region]:
        """What is mapped, by ascending addresses."""
        return _regions_of((number, self._places[at].attrs & 15)
                           for number, at in self._index.items())

    def read(self, address: int, length: int, check: bool = True) -> bytes:
        """Bytes of pages with READ, tags compared where `check` is set. Fault tells what failed."""
        in_bits("address", address, 64)
        # More than there is fails where all that there is has failed, and needs no larger buffer.
        size = min(in_bits("length", length, 64), len(self._index) * PAGE + 1)
        buffer, fault = ctypes.create_string_buffer(max(size, 1)), _Fault()
        if _library.tb_read(*self._lent(), address, buffer, size, check, byref(fault)) != OK:
            raise Fault.of(fault)
        return buffer.raw[:size]

    def write(self, address: int, data: bytes, check: bool = True) -> None:
        """Writes bytes to pages with WRITE, all of them or none."""
        in_bits("address", address, 64)
        held, fault = as_bytes("data", data), _Fault()
        lent = _lend(held)
        code = _library.tb_write(
            *self._lent(), address, lent.bytes, lent.length, check, byref(fault)
        )
        if code != OK:
            raise Fault.of(fault)

    def load(self, address: int, data: bytes) -> None:
        """Writes bytes to mapped pages, whatever their attributes and tags, all of them or none."""
        in_bits("address", address, 64)
        held = as_bytes("data", data)
        lent = _lend(held)
        if _library.tb_load(*self._lent(), address, lent.bytes, lent.length) != OK:
            pieces = self._pieces(address, len(held))
            missing = next(at for at, _, place in pieces if place is None)
            raise MappingError(Code.of(NOT_MAPPED), missing & -PAGE)

    def _pieces(self, address: int, length: int) -> Iterator[tuple[int, int, int | None]]:
        """A range page by page: the plain address and the length of each piece, and the place of
        its page."""
        done = 0
        while done < length:
            at = (address + done) & _PLAIN
            size = min(PAGE - at % PAGE, length - done)
            yield at, size, self._index.get(at // PAGE)
            done += size

    def _held(self, place: int, at: int, size: int) -> bytes:
        """Bytes of one place, from the address in its page on."""
        begin = ctypes.addressof(self._places) + place * _PLACE + _BYTES
        return ctypes.string_at(begin + at % PAGE, size)

    def peek(self, address: int, length: int) -> bytes:
        """Bytes whatever the attributes and tags of their pages. Fault where one is not mapped."""
        in_bits("address", address, 64)
        found = []
        for at, size, place in self._pieces(address, in_bits("length", length, 64)):
            if place is None:
                raise Fault(FaultKind.TRANSLATION, at)
            found.append(self._held(place, at, size))
        return b"".join(found)

    def _peek_or_zero(self, address: int, length: int) -> int:
        """The number of some bytes, the lowest first; one that is not mapped is 0."""
        place = self._index.get((address & _PLAIN) // PAGE)
        if place is not None and address % PAGE + length <= PAGE:
            return int.from_bytes(self._held(place, address, length), "little")
        found = b"".join(
            bytes(size) if place is None else self._held(place, at, size)
            for at, size, place in self._pieces(address, length)
        )
        return int.from_bytes(found, "little")

    def _page_of(self, address: int) -> _Page | None:
        place = self._index.get((address & _PLAIN) // PAGE)
        return None if place is None else self._places[place]

    def load_tag(self, address: int) -> int:
        """The allocation tag of the granule that holds an address."""
        tag, fault = c_uint8(), _Fault()
        in_bits("address", address, 64)
        if _library.tb_load_tag(*self._lent(), address, byref(tag), byref(fault)) != OK:
            raise Fault.of(fault)
        return tag.value

    def store_tags(self, address: int, granules: int, tag: int, zero: bool = False) -> None:
        """Replaces the tags of granules, and makes their bytes zero where `zero` is set. A tag is 0
        to 15."""
        fault = _Fault()
        store = _TagStore(
            in_bits("address", address, 64), in_bits("granules", granules, 64),
            in_range("tag", tag, 0, 15), zero,
        )
        code = _library.tb_store_tags(*self._lent(), byref(store), byref(fault))
        if code != OK:
            raise Fault.of(fault)

    def _bring_forward(self, addresses: Iterable[int]) -> None:
        """Exchanges places, so that the pages of these addresses are among the first. No search
        finds another page by it."""
        if self._used <= _FRONT:
            return
        wanted = {(it & _PLAIN) // PAGE for it in addresses} & self._index.keys()
        far = [it for it in wanted if self._index[it] >= _FRONT]
        near = (it for it in self._places[:_FRONT] if it.mapped and it.number not in wanted)
        for number, it in zip(far, near):
            self._exchange(number, it.number)

    def _exchange(self, one: int, other: int) -> None:
        """Exchanges the places of two pages."""
        first, second = self._places[self._index[one]], self._places[self._index[other]]
        kept = _Page.from_buffer_copy(first)
        ctypes.memmove(byref(first), byref(second), _PLACE)
        ctypes.memmove(byref(second), byref(kept), _PLACE)
        self._index[one], self._index[other] = self._index[other], self._index[one]

    def copy(self) -> Memory:
        """A copy, which shares nothing."""
        other = Memory()
        other.restore(self)
        return other

    __copy__ = copy

    def __deepcopy__(self, memo: dict[int, Any]) -> Memory:
        return self.copy()

    def restore(self, saved: Memory) -> None:
        """Makes it what another one is: its pages, mode and flag."""
        places = type(saved._places).from_buffer_copy(saved._places)
        self._places, self._state = places, _TagState.from_buffer_copy(saved._state)
        self._limit, self._used = saved._limit, saved._used
        self._index, self._free = dict(saved._index), list(saved._free)

    def __getstate__(self) -> dict[str, Any]:
        """What is pickled: the mapped pages, with no place that is free."""
        pages = [(number, *self._content(at)) for number, at in sorted(self._index.items())]
        return {"limit": self._limit, "asynchronous": self.asynchronous, "pending": self.pending,
                "pages": pages}

    def _content(self, at: int) -> tuple[int, bytes, bytes]:
        attrs = self._places[at].attrs & 15
        begin = ctypes.addressof(self._places) + at * _PLACE
        return attrs, ctypes.string_at(begin + _BYTES, PAGE), ctypes.string_at(begin + _TAGS, 256)

    def __setstate__(self, state: dict[str, Any]) -> None:
        limit, pages = state["limit"], state["pages"]
        self.__init__(limit if limit != MOST_PAGES else None, state["asynchronous"])  # type: ignore
        self._state.pending = state["pending"]
        for number, attrs, data, tags in pages:
            self.map(number * PAGE, PAGE, attrs)
            begin = ctypes.addressof(self._places) + self._index[number] * _PLACE
            ctypes.memmove(begin + _BYTES, data, PAGE)
            ctypes.memmove(begin + _TAGS, tags, 256)

    def __repr__(self) -> str:
        """The first of its regions."""
        shown = [f"{it.address:#x}..{it.address + it.length:#x} {repr(it).split(', ')[2][:-1]}"
                 for it in self.regions()]
        more = [f"and {len(shown) - 8} more"] if len(shown) > 8 else []
        mode = ["asynchronous"] if self.asynchronous else []
        return f"Memory({', '.join(shown[:8] + more + mode)})"
