"""Worked calls of a heap with tags and accesses to its memory, and what each answers. The cookie is
0; the generator begins with the seed 1 and the tag 0, as a tenant's with the seed 1.

A row is `[N *] NAME NUMBER.. [= ANSWER | ! WHY]`: how often it is made, and what it answers the
last time. `read` and `write` compare tags; `peek` and `poke` do not; `free_row ADDRESS N` frees
chunks that are 64 bytes from each other; `flag` is whether an access has set the flag.
"""

import re
from dataclasses import dataclass
from typing import NamedTuple

QUIET = ("free", "poke", "write", "store_tags")


class Row(NamedTuple):
    """A call or an access, how often it is made, and its last answer or why it is refused."""

    times: int
    name: str
    numbers: tuple[int, ...]
    answer: int
    refusal: str


def row_of(line: str) -> Row:
    """A row by its line."""
    found = re.fullmatch(r"(?:(\d+) \* )?(\w+)((?: \w+)*)(?: = (\w+)| ! (\w+))?", line.strip())
    assert found and (found[4] or found[5] or found[2] in QUIET), line
    numbers = tuple(int(it, 0) for it in found[3].split())
    return Row(int(found[1] or 1), found[2], numbers, int(found[4] or "0", 0), found[5] or "")


@dataclass(frozen=True)
class Table:
    """Rows, how many pages the memory has, and its mode."""

    text: str
    pages: int = 512
    asynchronous: bool = False

    @property
    def rows(self) -> list[Row]:
        """Its rows."""
        return [row_of(it) for it in self.text.strip().splitlines()]

    @property
    def stores_tags(self) -> bool:
        """Whether it has what a list of heap calls has not."""
        return any(it.name in ("store_tags", "flag") for it in self.rows)


# What each call answers.
TABLES = {
    # A freed chunk's granules get another tag, and so does the chunk that takes its block.
    # Neighbours' tags are odd and even in turn.
    "reuse": Table("""
        malloc 24 = 0x100000012000010
        free 0x12000010
        tag 0x12000010 = 3
        read 0x100000012000010 ! TagCheck
        malloc 24 = 0x500000012000010
        malloc 24 = 0x200000012000050
        read 0x500000012000050 ! TagCheck
    """),
    # Each kind of operation once, and what a chunk that was freed is kept from.
    "operations": Table("""
        malloc 24 = 0x100000012000010
        usable_size 0x100000012000010 = 24
        write 0x100000012000010 0x102030405060708
        read 0x100000012000010 = 0x102030405060708
        tag 0x100000012000010 = 1
        free 0x100000012000010
        tag 0x100000012000010 = 3
        read 0x100000012000010 ! TagCheck
        free 0x100000012000010 ! InvalidState
        calloc 3 8 = 0x500000012000010
        realloc 0x500000012000010 32 = 0x500000012000010
        usable_size 0x500000012000010 = 32
        memalign 24 8 = 0
        realloc 0x500000012000010 0 = 0
    """),
    # A shorter chunk leaves tag 0 on the granule after it, where the block had another.
    "shorter": Table("""
        malloc 40 = 0x100000012000010
        free 0x100000012000010
        malloc 24 = 0x500000012000010
        tag 0x12000030 = 0
    """),
    # The largest class holds 131056 bytes. One more gets pages of its own, which a free unmaps at
    # once.
    "largest": Table("""
        malloc 131056 = 0x10000003c000010
        malloc 131057 = 0x3d002000
        usable_size 0x3d002000 = 131057
        peek 0x3d001ff0 = 0xc85300000000f100
        free 0x3d002000
        free 0x3d002000 ! Unmapped
        malloc 131057 = 0x3d002000
        pages_left = 447
    """),
    # Requests over the limit, of nothing, and the null pointer.
    "edges": Table("""
        malloc 1048577 = 0
        calloc 0x8000000000000000 2 = 0
        calloc 3 8 = 0x100000012000010
        free 0
        usable_size 0 = 0
        realloc 0 1048577 = 0
        realloc 0x100000012000010 1048577 = 0
        usable_size 0x100000012000010 = 24
        realloc 0x100000012000010 0 = 0
        free 0x100000012000010 ! InvalidState
        pages_left = 511
    """),
    # No bytes are one byte.
    "nothing": Table("""
        malloc 0 = 0x100000011000010
        usable_size 0x11000010 = 1
    """),
    # Where a page is left, a request that needs more changes nothing.
    "last pages": Table("""
        malloc 24 = 0x100000012000010
        malloc 5000 = 0
        calloc 5 1000 = 0
        memalign 4096 5000 = 0
        realloc 0x100000012000010 5000 = 0
        malloc 131057 = 0
        realloc 0x100000012000010 131057 = 0
        pages_left = 1
        usable_size 0x100000012000010 = 24
        malloc 300 = 0x100000019000010
        pages_left = 0
    """, pages=2),
    # Where none is left, there is none for a second class. The heap's accesses set no flag.
    "no page": Table("""
        malloc 24 = 0x100000012000010
        malloc 300 = 0
        calloc 1 300 = 0
        memalign 4096 100 = 0
        realloc 0x100000012000010 300 = 0
        usable_size 0x100000012000010 = 24
        realloc 0x100000012000010 40 = 0x100000012000010
        malloc 24 = 0x200000012000050
        flag = 0
    """, pages=1, asynchronous=True),
    # The first check that fails, in its order, whatever the size.
    "wild pointers": Table("""
        malloc 24 = 0x100000012000010
        free 8 ! Misaligned
        free 0x12000011 ! Misaligned
        free 16 ! Unmapped
        free 0x100000000000000 ! Unmapped
        free 0x30000010 ! Unmapped
        free 0x12000100 ! HeaderCorrupt
        realloc 8 0 ! Misaligned
        realloc 0x100000000000000 24 ! Unmapped
        realloc 0x12000100 24 ! HeaderCorrupt
        realloc 0x12000018 1048577 ! Misaligned
        usable_size 0x12000100 ! HeaderCorrupt
        usable_size 0x100000012000010 = 24
        free 0x100000012000010
        free 0x100000012000010 ! InvalidState
        realloc 0x100000012000010 24 ! InvalidState
        usable_size 0x100000012000010 ! InvalidState
    """),
    # Headers with the right checksum, written by hand: of the states Available and Quarantined,
    # of the classes 45, 1 and 0, with the offset 1, with the sizes 0, 49 and 48, and of a free
    # block.
    "forged headers": Table("""
        malloc 24 = 0x100000012000010
        poke 0x12000000 0xd42000000018002
        free 0x100000012000010 ! InvalidState
        poke 0x12000000 0x1542000000018202
        free 0x100000012000010 ! InvalidState
        poke 0x12000000 0x674200000001812d
        free 0x100000012000010 ! NotABlock
        poke 0x12000000 0xf42000000018101
        realloc 0x100000012000010 40 ! NotABlock
        poke 0x12000000 0xd42000000018100
        free 0x100000012000010 ! NotABlock
        poke 0x12000000 0x3142000100018102
        free 0x100000012000010 ! NotABlock
        poke 0x12000000 0x940000000000102
        free 0x100000012000010 ! NotABlock
        poke 0x12000000 0x6140000000031102
        free 0x100000012000010 ! NotABlock
        poke 0x12000000 0x2140000000030102
        free 0x100000012000010
        poke 0x12000040 0x11c2000000018102
        realloc 0x12000050 40 ! AlreadyFree
    """),
    # A block of 64 bytes holds 48 after the header. The granule that comes has the chunk's tag.
    "in place": Table("""
        realloc 0 24 = 0x100000012000010
        realloc 0x100000012000010 48 = 0x100000012000010
        usable_size 0x100000012000010 = 48
        read 0x100000012000030 = 0
    """),
    # It does not hold 49: the 24 bytes go to a block of the next class.
    "to another class": Table("""
        malloc 24 = 0x100000012000010
        write 0x100000012000020 0x5a5a5a5a5a5a5a5a
        realloc 0x100000012000010 49 = 0x100000013000010
        peek 0x13000020 = 0x5a5a5a5a5a5a5a5a
        peek 0x13000028 = 0
        free 0x100000012000010 ! InvalidState
    """),
    # A granule that comes to a chunk is zero and has its tag, and the one after it has tag 0.
    "a granule comes": Table("""
        malloc 288 = 0x100000019000010
        free 0x19000010
        tag 0x19000120 = 3
        poke 0x19000118 0xffffffffffffffff
        poke 0x19000120 0xffffffffffffffff
        malloc 241 = 0x500000019000010
        realloc 0x19000010 257 = 0x500000019000010
        tag 0x19000110 = 5
        tag 0x19000120 = 0
        peek 0x19000118 = 0
        peek 0x19000120 = 0xffffffffffffffff
    """),
    # The granules that a chunk gives up have tag 0 and keep their bytes.
    "granules go": Table("""
        malloc 241 = 0x100000019000010
        poke 0x19000100 0xffffffffffffffff
        realloc 0x19000010 17 = 0x100000019000010
        tag 0x19000020 = 1
        tag 0x19000030 = 0
        tag 0x19000100 = 0
        peek 0x19000100 = 0xffffffffffffffff
        usable_size 0x19000010 = 17
    """),
    # In place the header keeps its origin, and the answer has nothing of the pointer's bits
    # 63:56.
    "alignments": Table("""
        memalign 0 100 = 0
        memalign 24 100 = 0
        memalign 0x2000 100 = 0
        memalign 4096 100 = 0x100000029001000
        write 0x10000002900105c 0xffffffffffffffff
        peek 0x29000ff0 = 0x78f100ff00064d19
        realloc 0xf200000029001000 99 = 0x100000029001000
        peek 0x29000ff0 = 0x38f100ff00063d19
    """),
    # A chunk with pages of its own gets others, whether it grows or shrinks.
    "to other pages": Table("""
        malloc 131057 = 0x3d002000
        realloc 0x3d002000 131058 = 0x3d024000
        free 0x3d002000 ! Unmapped
        realloc 0x3d024000 131057 = 0x3d002000
    """),
    # The first place that is large enough, with a page between two mappings.
    "first fit": Table("""
        malloc 131057 = 0x3d002000
        malloc 135169 = 0x3d023ff0
        malloc 139265 = 0x3d046ff0
        free 0x3d002000
        malloc 143361 = 0x3d06aff0
        malloc 131057 = 0x3d002000
    """),
    # From pages of its own into a block, as many bytes as the block's chunk has.
    "into a block": Table("""
        malloc 131057 = 0x3d002000
        write 0x3d0023e0 0xffffffffffffffff
        write 0x3d0023e8 0xffffffffffffffff
        realloc 0x3d002000 1000 = 0x100000020000010
        peek 0x200003f0 = 0xffffffffffffffff
        peek 0x200003f8 = 0
    """),
    # From a block to pages of its own.
    "out of a block": Table("""
        malloc 1000 = 0x100000020000010
        write 0x1000000200003f0 0xffffffffffffffff
        write 0x1000000200003f8 0xffffffffffffffff
        realloc 0x20000010 131057 = 0x3d002000
        peek 0x3d0023e0 = 0xffffffffffffffff
        peek 0x3d0023e8 = 0
    """),
    # The block that was freed last is used first.
    "last first": Table("""
        29 * malloc 24 = 0x900000012000710
        free_row 0x12000010 29 = 29
        malloc 24 = 0x100000012000710
        27 * malloc 24 = 0x600000012000050
        malloc 24 = 0x500000012000010
    """),
    # So it is of a class whose cache holds eight blocks.
    "last first of nine": Table("""
        9 * malloc 600 = 0x30000001d001410
        free 0x1d000010
        free 0x1d000290
        free 0x1d000510
        free 0x1d000790
        free 0x1d000a10
        free 0x1d000c90
        free 0x1d000f10
        free 0x1d001190
        free 0x1d001410
        malloc 600 = 0x30000001d001410
        malloc 600 = 0x40000001d001190
        7 * malloc 600 = 0xd0000001d000010
    """),
    # A page has twelve blocks of 320 bytes; the thirteenth begins in it and ends in the next.
    "over two pages": Table("""
        13 * malloc 300 = 0x500000019000f10
    """),
    # A region holds 128 blocks of the largest class.
    "a whole region": Table("""
        17 * malloc 131056 = 0xd0000003c200010
        111 * malloc 131056 = 0xa0000003cfe0010
        malloc 131056 = 0
    """, pages=4096),
}
# What the laws of careful runs say, each by a run that is careful.
CAREFUL = {
    # Each byte of a live chunk's granules may be used, also past its size; the granules just
    # before and just after them may not.
    "live chunk": Table("""
        malloc 40 = 0x100000012000010
        write 0x100000012000010 0xffffffffffffffff
        write 0x100000012000038 0xffffffffffffffff
        read 0x100000012000038 = 0xffffffffffffffff
        read 0x100000012000008 ! TagCheck
        read 0x100000012000040 ! TagCheck
        usable_size 0x100000012000010 = 40
    """),
    # So may each byte of the pages of a chunk that has its own. The page before them and the one
    # after them are not mapped, nor are they after the free.
    "live pages": Table("""
        malloc 131057 = 0x3d002000
        read 0x3d002000 = 0
        write 0x3d021ff8 0xffffffffffffffff
        read 0x3d022000 ! Translation
        read 0x3d000ff8 ! Translation
        free 0x3d002000
        read 0x3d021ff8 ! Translation
    """),
    # The bytes that a call asks for may be used through what it answers: the last eight, here.
    "answered chunks": Table("""
        calloc 5 8 = 0x100000012000010
        write 0x100000012000030 0xffffffffffffffff
        realloc 0x100000012000010 24 = 0x100000012000010
        write 0x100000012000020 0xffffffffffffffff
        realloc 0x100000012000010 48 = 0x100000012000010
        write 0x100000012000038 0xffffffffffffffff
        realloc 0 24 = 0x200000012000050
        write 0x200000012000060 0xffffffffffffffff
        realloc 0x200000012000050 49 = 0x100000013000010
        write 0x100000013000039 0xffffffffffffffff
        malloc 131057 = 0x3d002000
        write 0x3d021fe9 0xffffffffffffffff
    """),
    # Calls leave the bytes and the header of a chunk that they do not name.
    "other chunk": Table("""
        malloc 24 = 0x100000012000010
        write 0x100000012000020 0xffffffffffffffff
        malloc 24 = 0x200000012000050
        realloc 0x200000012000050 49 = 0x100000013000010
        free 0x13000010
        malloc 131057 = 0x3d002000
        free 0x3d002000
        read 0x100000012000020 = 0xffffffffffffffff
        usable_size 0x100000012000010 = 24
    """),
    # A new chunk is zero to its last granule, whatever its free block held.
    "zero again": Table("""
        malloc 24 = 0x100000012000010
        free 0x100000012000010
        poke 0x12000028 0xffffffffffffffff
        calloc 3 8 = 0x500000012000010
        peek 0x12000028 = 0
    """),
    # A second free aborts, also after other calls, while the block is free and its header stays.
    "second free": Table("""
        malloc 24 = 0x100000012000010
        free 0x100000012000010
        free 0x100000012000010 ! InvalidState
        malloc 300 = 0x300000019000010
        free 0x100000012000010 ! InvalidState
        realloc 0x100000012000010 24 ! InvalidState
    """),
    # Three blocks apart the tags differ. Two blocks apart they may be the same, as here.
    "three blocks apart": Table("""
        malloc 24 = 0x100000012000010
        3 * malloc 24 = 0xc000000120000d0
        read 0x1000000120000d0 ! TagCheck
        read 0x100000012000090 = 0
    """),
}
# What the laws deny, each by a run that is not careful.
NOT_CAREFUL = {
    # The header of a chunk of 24 bytes is copied before one of 48 whose checksum is the same: a
    # free leaves the old tag on the last granule, which still may be read through the freed
    # pointer.
    "freed by a copied header": Table("""
        malloc 48 = 0x100000012000010
        malloc 48 = 0x200000012000050
        127 * malloc 24 = 0x100000012002010
        peek 0x12002000 = 0x11c2000000018102
        read 0x200000012000070 = 0
        poke 0x12000040 0x11c2000000018102
        free 0x200000012000050
        tag 0x200000012000050 = 6
        read 0x200000012000070 = 0
    """),
    # The chunk before a reallocation: the granule after the chunk keeps its tag.
    "resized by a copied header": Table("""
        malloc 48 = 0x100000012000010
        malloc 48 = 0x200000012000050
        poke 0x12000040 0x11c2000000018102
        realloc 0x200000012000050 24 = 0x200000012000050
        usable_size 0x200000012000050 = 24
        read 0x200000012000070 = 0
    """),
    # A header inside a live chunk's own data: its block is freed, and used again while it lives.
    "freed from within": Table("""
        malloc 48 = 0x100000012000010
        write 0x100000012000010 0x3162000100018102
        free 0x12000020
        malloc 24 = 0x500000012000010
    """),
    # A tag is stored to a freed chunk, which may be read again.
    "tag of a freed chunk": Table("""
        malloc 24 = 0x100000012000010
        free 0x100000012000010
        store_tags 0x12000010 2 1
        read 0x100000012000010 = 0
    """),
    # A tag is stored between a free and an allocation, which draws the one that the free gave.
    "tag before reuse": Table("""
        malloc 24 = 0x100000012000010
        free 0x100000012000010
        tag 0x100000012000010 = 3
        store_tags 0x12000010 2 0
        malloc 24 = 0x300000012000010
    """),
    # A tag is stored to a neighbour, which may be read through the other's pointer.
    "tag of a neighbour": Table("""
        malloc 24 = 0x100000012000010
        malloc 24 = 0x200000012000050
        read 0x100000012000050 ! TagCheck
        store_tags 0x12000050 2 1
        read 0x100000012000050 = 0
    """),
    # Tags are stored to live chunks, one in a block and one with pages of its own, and the
    # pointers to them have other tags.
    "tags of live chunks": Table("""
        malloc 24 = 0x100000012000010
        store_tags 0x12000010 2 7
        tag 0x100000012000010 = 7
        read 0x100000012000010 ! TagCheck
        malloc 131057 = 0x3d002000
        store_tags 0x3d002000 1 7
        read 0x3d002000 ! TagCheck
    """),
    # A free finds no header: the next chunk is in another block.
    "freed without a header": Table("""
        malloc 24 = 0x100000012000010
        poke 0x12000000 0
        free 0x100000012000010 ! HeaderCorrupt
        malloc 24 = 0x200000012000050
    """),
}
# More of them.
LAWS_BROKEN = {
    # The header of a freed chunk is written: the second free aborts at another check.
    "freed twice with a header": Table("""
        malloc 24 = 0x100000012000010
        malloc 24 = 0x200000012000050
        free 0x200000012000050
        poke 0x12000040 0x11c2000000018102
        free 0x200000012000050 ! AlreadyFree
    """),
    # A header with another size: a reallocation loses the last bytes.
    "moved by a copied header": Table("""
        malloc 48 = 0x100000012000010
        malloc 48 = 0x200000012000050
        write 0x200000012000078 0xffffffffffffffff
        poke 0x12000040 0x11c2000000018102
        realloc 0x200000012000050 1000 = 0x100000020000010
        peek 0x20000038 = 0
    """),
    # A tag is stored to a chunk three blocks away, which may be read through the other's pointer.
    "tag three blocks apart": Table("""
        malloc 24 = 0x100000012000010
        3 * malloc 24 = 0xc000000120000d0
        read 0x1000000120000d0 ! TagCheck
        store_tags 0x120000d0 2 1
        read 0x1000000120000d0 = 0
    """),
    # A header inside a live chunk's own data: the next chunk takes its block and clears its
    # bytes.
    "cleared from within": Table("""
        malloc 48 = 0x100000012000010
        write 0x100000012000010 0x3162000100018102
        free 0x12000020
        malloc 24 = 0x500000012000010
        peek 0x12000010 = 0
    """),
    # A tag is stored to the second granule of a live chunk: after a reallocation in place it may
    # not be read through the answer, which has the tag of the first.
    "tag of a second granule": Table("""
        malloc 40 = 0x100000012000010
        store_tags 0x12000020 1 7
        realloc 0x100000012000010 48 = 0x100000012000010
        read 0x100000012000020 ! TagCheck
    """),
}
