/* The three heap functions that a program of Rattle needs, for wasm64, where there is no C library:
   blocks of size classes, four to a doubling, with a list of free ones each, over memory.grow. No
   proof covers this, as none covers the C library of Linux. */
#include "small.h"

enum { HEAD = 16, CLASSES = 256, PAGE = 65536, STEP_PAGES = 64 };
#define MOST ((size_t)1 << 40)

/* What lies in front of each block. */
struct head {
    uint64_t size, class;
};

extern uint8_t __heap_base;
static uint8_t *next, *end;
static void *first_free[CLASSES];
static uint8_t nothing;

/* Rounds a size up to that of its class, at least 16, and answers the class. */
static unsigned class_of(size_t *size)
{
    size_t least = *size < HEAD ? HEAD : *size;
    unsigned high = 63 - (unsigned)__builtin_clzll((least - 1) | 15);
    size_t step = (size_t)1 << (high - 2);
    size_t mask = (step < HEAD ? HEAD : step) - 1;
    *size = (least + mask) & ~mask;
    unsigned top = 63 - (unsigned)__builtin_clzll(*size);
    return top * 4 + (unsigned)(*size >> (top - 2) & 3);
}

static bool grow(size_t pages)
{
    if (__builtin_wasm_memory_grow(0, pages) == (size_t)-1)
        return 0;
    end += pages * PAGE;
    return 1;
}

static uint8_t *cut(size_t size)
{
    if (!next) {
        next = (uint8_t *)(((uintptr_t)&__heap_base + 15) & ~(uintptr_t)15);
        end = (uint8_t *)(__builtin_wasm_memory_size(0) * PAGE);
    }
    if ((size_t)(end - next) < size) {
        size_t pages = (size - (size_t)(end - next) + PAGE - 1) / PAGE;
        if ((pages >= STEP_PAGES || !grow(STEP_PAGES)) && !grow(pages))
            return 0;
    }
    uint8_t *made = next;
    next += size;
    return made;
}

EXPORT(page_alloc) uint8_t *page_alloc(size_t size)
{
    if (size > MOST)
        return 0;
    unsigned class = class_of(&size);
    void **kept = first_free[class];
    if (kept) {
        first_free[class] = *kept;
        return (uint8_t *)kept;
    }
    struct head *head = (struct head *)cut(size + HEAD);
    if (!head)
        return 0;
    head->size = size;
    head->class = class;
    return (uint8_t *)(head + 1);
}

EXPORT(page_free) void page_free(uint8_t *block)
{
    struct head *head = (struct head *)block - 1;
    *(void **)block = first_free[head->class];
    first_free[head->class] = block;
}

/* A pair is returned through a pointer that comes first: whether there is a block, and which. */
static void answer(uint64_t *pair, uint8_t *block)
{
    pair[0] = block != 0;
    pair[1] = (uint64_t)(uintptr_t)(block ? block : &nothing);
}

/* An alignment is at most 16, which all blocks have. */
void rattle_alloc(uint64_t *pair, size_t size, size_t alignment)
{
    (void)alignment;
    answer(pair, page_alloc(size));
}

void rattle_dealloc(uint8_t *block)
{
    page_free(block);
}

void rattle_realloc(uint64_t *pair, uint8_t *block, size_t kept, size_t size, size_t alignment)
{
    (void)alignment;
    uint8_t *made = block;
    if (size > ((struct head *)block - 1)->size) {
        made = page_alloc(size);
        if (made) {
            __builtin_memcpy(made, block, kept);
            page_free(block);
        }
    }
    answer(pair, made);
}
