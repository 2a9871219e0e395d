/* Where the profile's heap is expected to place a chunk. It is a guess by which replay.c names
   chunks in calls that are made at once; what the heap answers is compared with it, so nothing but
   time rests on it. The pages and free blocks of each class, which statistics have, come from it
   too, once all of it is as the heap answered. */
#ifndef HEAP_GUESS_H
#define HEAP_GUESS_H

#include <stdint.h>
#include <string.h>
#include "heap_trace.h"

enum { CLASSES = 44, PAGE = 4096, HEAD = 16, MOST_OF_CLASS = 131072, MOST = 1048576 };
#define REGIONS 0x10000000u
#define REGION 0x01000000u
#define LARGE 0x3D000000u
#define LARGE_END 0x3F000000u
#define PLAIN (((uint64_t)1 << 56) - 1)

/* Free blocks of a class: a stack of those that were freed, and those that were never used. */
struct stack {
    uint64_t *freed;
    uint32_t count, used, pages;
};
/* Pages of a large chunk, without those beside them, which stay unmapped. */
struct mapping {
    uint64_t start, end;
};
static struct stack stacks[CLASSES + 1];
static struct mapping *mappings;
static uint32_t mapping_count, page_limit;

static uint64_t class_size(unsigned class)
{
    const unsigned above = class - 8;
    if (class <= 8)
        return 32 * class;
    return ((uint64_t)256 << above / 4) + ((uint64_t)64 << above / 4) * (above % 4);
}

/* The class of a need, or 0: pages of its own. */
static unsigned class_of(uint64_t need)
{
    unsigned class = 1;
    while (class <= CLASSES && class_size(class) < need)
        class++;
    return class <= CLASSES ? class : 0;
}

static uint64_t round_up(uint64_t number, uint64_t to)
{
    return (number + to - 1) / to * to;
}

/* The class of the chunk at a plain address, or 0. */
static unsigned class_at(uint64_t at)
{
    return at >= REGIONS && at < LARGE ? (unsigned)((at - REGIONS) / REGION) : 0;
}

/* The start of the block of a chunk of a class. */
static uint64_t block_at(uint64_t at)
{
    const unsigned class = class_at(at);
    const uint64_t region = REGIONS + (uint64_t)class * REGION;
    return region + (at - region) / class_size(class) * class_size(class);
}

/* How many blocks a class's pages hold. */
static uint32_t blocks_of(unsigned class)
{
    return (uint32_t)(stacks[class].pages * (uint64_t)PAGE / class_size(class));
}

static uint32_t mapped_pages(void)
{
    uint64_t pages = 0;
    for (unsigned class = 1; class <= CLASSES; class++)
        pages += stacks[class].pages;
    for (uint32_t at = 0; at < mapping_count; at++)
        pages += (mappings[at].end - mappings[at].start) / PAGE;
    return (uint32_t)pages;
}

/* Takes the block on top of a class's stack, which gets pages where it has none; 0 where there are
   none. */
static uint64_t take_block(unsigned class)
{
    struct stack *it = &stacks[class];
    const uint32_t more = (uint32_t)(round_up(class_size(class), PAGE) / PAGE);
    if (it->count > 0)
        return it->freed[--it->count];
    if (it->used == blocks_of(class)) {
        if (mapped_pages() + more > page_limit)
            return 0;
        it->pages += more;
    }
    return REGIONS + (uint64_t)class * REGION + it->used++ * class_size(class);
}

/* The number of the first mapping behind a gap of so many pages and one on either side. */
static uint32_t gap_for(uint64_t size, uint64_t *start)
{
    uint32_t at = 0;
    *start = LARGE + PAGE;
    while (at < mapping_count && mappings[at].start - *start < size + PAGE) {
        *start = mappings[at].end + PAGE;
        at++;
    }
    return at;
}

static uint64_t take_mapping(uint64_t size, uint64_t alignment)
{
    const uint64_t whole = round_up(size + (alignment > HEAD ? alignment : HEAD), PAGE);
    uint64_t start;
    const uint32_t at = gap_for(whole, &start);
    if (start + whole + PAGE > LARGE_END || mapped_pages() + whole / PAGE > page_limit)
        return 0;
    memmove(mappings + at + 1, mappings + at, (mapping_count - at) * sizeof *mappings);
    mappings[at].start = start;
    mappings[at].end = start + whole;
    mapping_count++;
    return (start + whole - size) / alignment * alignment;
}

/* Where a chunk is expected, or 0. */
static uint64_t guess_new(uint64_t size, uint64_t alignment)
{
    const uint64_t asked = size > 0 ? size : 1;
    uint64_t need = round_up(asked, HEAD) + (alignment > HEAD ? alignment : HEAD);
    if (size > MOST)
        return 0;
    if (alignment < HEAD)
        alignment = HEAD;
    if (alignment == HEAD)
        need = asked + HEAD;
    if (!class_of(need))
        return take_mapping(asked, alignment);
    const uint64_t block = take_block(class_of(need));
    return block ? round_up(block + HEAD, alignment) : 0;
}

/* The number of the mapping that holds an address. */
static uint32_t mapping_at(uint64_t at)
{
    uint32_t place = 0;
    while (place < mapping_count && mappings[place].end <= at)
        place++;
    return place;
}

static void guess_freed(uint64_t at)
{
    const unsigned class = class_at(at);
    const uint32_t place = at != 0 ? mapping_at(at) : mapping_count;
    if (class > 0) {
        stacks[class].freed[stacks[class].count++] = block_at(at);
    } else if (place < mapping_count) {
        mapping_count--;
        memmove(mappings + place, mappings + place + 1,
                (mapping_count - place) * sizeof *mappings);
    }
}

/* The bytes from a chunk's address to the end of its block or its pages. */
static uint64_t room_at(uint64_t at)
{
    const uint32_t place = mapping_at(at);
    if (class_at(at) > 0)
        return block_at(at) + class_size(class_at(at)) - at;
    return place < mapping_count ? mappings[place].end - at : 0;
}

/* Where the chunk of a call is expected; `old` is the address of the one that it is about, or 0. */
static uint64_t guess_call(const struct call *it, uint64_t old)
{
    uint64_t made = 0;
    if (it->op == FREE || (it->op == REALLOC && it->first == 0 && old != 0)) {
        guess_freed(old);
        return 0;
    }
    if (old != 0 && it->first <= room_at(old))
        return old;
    made = guess_new(size_of_call(it), it->op == MEMALIGN ? it->first : HEAD);
    if (old != 0 && made != 0)
        guess_freed(old);
    return made;
}

/* A heap without chunks, with room for those of a trace. */
static void start_guess(uint32_t count, uint32_t pages)
{
    mapping_count = 0;
    page_limit = pages;
    if (mappings == NULL)
        mappings = room_for(8193, sizeof *mappings);
    for (unsigned class = 1; class <= CLASSES; class++) {
        uint64_t *freed = stacks[class].freed;
        if (freed == NULL)
            freed = room_for(count + 1u, sizeof *freed);
        stacks[class] = (struct stack){freed, 0, 0, 0};
    }
}

#endif
