/* malloc and its kin of a program that tenant-cc linked with --large-blocks. A request of more than
   1 MiB, which the heap's services refuse, is a block of an area of the image; each other one is a
   service's, as in heap.c. A block has whole pages, at whose start is a head with tag 0. It has
   another tag than those beside it and than what its pages had last; what is free has tag 0, which
   no block has. A pointer into the area that is handed back, and is none of a block in use, ends
   the tenant by its breakpoint 9. */
#include <errno.h>
#include <stdlib.h>
#include <string.h>
#include "tenant.h"

enum { MOST_OF_SERVICE = 1048576, GRANULE = 16, STEP = 256, ALL_TAGS = 0xFFFF, PAGE = 4096 };
enum { MOST_PAGES = 3584 };
#define PLAIN (((uintptr_t)1 << 56) - 1)
#define TAG_BIT 56

/* What is in front of a block: the bytes up to the next head, those that were asked for (0 where it
   is free), its tag, and where it begins behind the head's own address. */
struct head {
    _Alignas(GRANULE) size_t room;
    size_t asked;
    uint32_t tag, offset;
};

/* The area, which tenant-cc makes: whole pages of zero bytes with tag 0. */
extern char tenant_large_area[], tenant_large_end[];
/* The tag of the block that each page was of last, or 0. */
static unsigned char past[MOST_PAGES];

/* The first head; at the first call the whole area is free. */
static struct head *first_head(void)
{
    struct head *first = (struct head *)tenant_large_area;
    if (!first->room)
        first->room = (size_t)(tenant_large_end - tenant_large_area);
    return first;
}

static char *bytes_of(struct head *it)
{
    return (char *)it + it->offset;
}

/* The head behind a block, or null. */
static struct head *next_of(struct head *it)
{
    char *behind = (char *)it + it->room;
    return behind == tenant_large_end ? NULL : (struct head *)behind;
}

static size_t round_up(size_t size, size_t to)
{
    return (size + to - 1) & -to;
}

/* The bytes of a request's granules. */
static size_t whole(size_t size)
{
    return round_up(size, GRANULE);
}

static unsigned char *past_of(char *at)
{
    return past + (at - tenant_large_area) / PAGE;
}

/* The address with a random tag that is none of `excluded`, a bit each, nor 0. */
static char *with_new_tag(char *at, uint64_t excluded)
{
    __asm__ volatile(".arch_extension memtag\n\tirg %0, %0, %1" : "+r"(at) : "r"(excluded));
    return at;
}

/* Makes whole granules zero, with the pointer's tag. */
static void clear(char *at, size_t size)
{
    char *end = at + size;
    for (; end - at >= STEP;)
        __asm__ volatile(".arch_extension memtag\n\t"
                         "stz2g %0, [%0], #32\n\tstz2g %0, [%0], #32\n\t"
                         "stz2g %0, [%0], #32\n\tstz2g %0, [%0], #32\n\t"
                         "stz2g %0, [%0], #32\n\tstz2g %0, [%0], #32\n\t"
                         "stz2g %0, [%0], #32\n\tstz2g %0, [%0], #32"
                         : "+r"(at) : : "memory");
    while (at < end)
        __asm__ volatile(".arch_extension memtag\n\tstzg %0, [%0], #16" : "+r"(at) : : "memory");
}

/* Leaves a block so many bytes, whole pages; the rest is a free one. */
static void split(struct head *it, size_t room)
{
    size_t rest = it->room - room;
    it->room = room;
    if (rest)
        *next_of(it) = (struct head){rest, 0, 0, 0};
}

/* Makes one free block of a free one and those behind it. */
static void join(struct head *it)
{
    struct head *next;
    while (!it->asked && (next = next_of(it)) && !next->asked) {
        it->room += next->room;
        clear((char *)next, sizeof *next);
    }
}

static void join_all(void)
{
    for (struct head *it = first_head(); it; it = next_of(it))
        join(it);
}

/* How far behind its head a block begins that has this alignment. */
static size_t offset_for(size_t alignment)
{
    if (alignment <= sizeof(struct head))
        return sizeof(struct head);
    return alignment < PAGE ? alignment : PAGE;
}

/* How many bytes of a free block are in front of one of this size and alignment, or -1 where it
   does not fit. */
static ptrdiff_t place_in(struct head *it, size_t alignment, size_t size)
{
    size_t offset = offset_for(alignment);
    uintptr_t start = (uintptr_t)it + offset;
    size_t front = round_up(start, alignment < PAGE ? PAGE : alignment) - round_up(start, PAGE);
    size_t room = round_up(offset + size, PAGE);
    return front <= it->room && room <= it->room - front ? (ptrdiff_t)front : -1;
}

/* The tags of the blocks beside one, a bit each; the bit of tag 0 besides. */
static uint64_t tags_beside(struct head *it)
{
    struct head *next = next_of(it);
    uint64_t tags = next ? (uint64_t)1 << next->tag : 0;
    for (struct head *before = first_head(); before != it; before = next)
        if ((next = next_of(before)) == it)
            tags |= (uint64_t)1 << before->tag;
    return tags | 1;
}

/* The tags of the blocks that pages were of last. */
static uint64_t past_tags(char *at, size_t room)
{
    uint64_t tags = 0;
    for (size_t i = 0; i < room / PAGE; i++)
        tags |= (uint64_t)1 << past_of(at)[i];
    return tags;
}

/* Gives a free block to a request: its pointer. */
static char *take(struct head *it, size_t alignment, size_t size)
{
    it->offset = offset_for(alignment);
    split(it, round_up(it->offset + size, PAGE));
    uint64_t beside = tags_beside(it), excluded = beside | past_tags((char *)it, it->room);
    char *made = with_new_tag(bytes_of(it), excluded == ALL_TAGS ? beside : excluded);
    it->asked = size;
    it->tag = (uintptr_t)made >> TAG_BIT;
    clear(made, whole(size));
    return made;
}

/* A block of the area, or null: the first free place that it fits in. */
static void *take_large(size_t alignment, size_t size)
{
    if (size > (size_t)(tenant_large_end - tenant_large_area) || alignment & (alignment - 1))
        return NULL;
    for (struct head *it = first_head(); it; it = next_of(it)) {
        ptrdiff_t front = it->asked ? -1 : place_in(it, alignment, size);
        if (front > 0) {
            split(it, (size_t)front);
            it = next_of(it);
        }
        if (front >= 0)
            return take(it, alignment, size);
    }
    return NULL;
}

static int is_large(const void *chunk)
{
    uintptr_t at = (uintptr_t)chunk & PLAIN;
    return at >= (uintptr_t)tenant_large_area && at < (uintptr_t)tenant_large_end;
}

/* The head of a block in use, by the pointer that was returned. */
static struct head *head_of(const void *chunk)
{
    for (struct head *it = first_head(); it; it = next_of(it))
        if (it->asked && ((uintptr_t)bytes_of(it) | (uintptr_t)it->tag << TAG_BIT) ==
                             (uintptr_t)chunk)
            return it;
    __asm__ volatile("brk #9");
    __builtin_unreachable();
}

/* Tag 0 and zero bytes for a part of a block up to its end, of which its pages keep the tag. */
static void give_up(struct head *it, size_t from)
{
    char *pages = (char *)it + (from ? round_up(it->offset + from, PAGE) : 0);
    clear(bytes_of(it) + from, whole(it->asked) - from);
    memset(past_of(pages), it->tag, ((char *)it + it->room - pages) / PAGE);
}

static void free_large(struct head *it)
{
    give_up(it, 0);
    it->asked = it->tag = 0;
    join_all();
}

/* Gives a block another size where it is, if there is room, and none beside it has its tag. */
static int resize(struct head *it, char *bytes, size_t size)
{
    struct head *next = next_of(it), *last = next ? next_of(next) : NULL;
    size_t had = whole(it->asked), room = it->room;
    if (next && !next->asked && !(last && last->tag == it->tag))
        room += next->room;
    if (size <= MOST_OF_SERVICE || size > room || it->offset + whole(size) > room)
        return 0;
    if (whole(size) < had)
        give_up(it, whole(size));
    it->room = room;
    it->asked = size;
    if (whole(size) > had)
        clear(bytes + had, whole(size) - had);
    split(it, round_up(it->offset + size, PAGE));
    return 1;
}

/* For maps.c and nodes.c: whole blocks of the area. */
__attribute__((__visibility__("hidden"))) void *__tenant_take_large(size_t alignment, size_t size)
{
    return take_large(alignment, size);
}

__attribute__((__visibility__("hidden"))) void __tenant_free_large(void *block)
{
    free_large(head_of(block));
}

static void *checked(void *chunk)
{
    if (!chunk)
        errno = ENOMEM;
    return chunk;
}

void *malloc(size_t size)
{
    return checked(size > MOST_OF_SERVICE ? take_large(GRANULE, size) : tenant_malloc(size));
}

void free(void *chunk)
{
    if (is_large(chunk))
        free_large(head_of(chunk));
    else
        tenant_free(chunk);
}

void *calloc(size_t count, size_t size)
{
    size_t bytes;
    if (__builtin_mul_overflow(count, size, &bytes) || bytes <= MOST_OF_SERVICE)
        return checked(tenant_calloc(count, size));
    return malloc(bytes);
}

/* A block moves to another one, or to a chunk of the heap. */
static void *move_large(char *chunk, struct head *it, size_t size)
{
    void *made = size ? malloc(size) : NULL;
    if (made)
        memcpy(made, chunk, size < it->asked ? size : it->asked);
    if (made || !size)
        free_large(it);
    return made;
}

void *realloc(void *chunk, size_t size)
{
    if (is_large(chunk)) {
        struct head *it = head_of(chunk);
        return resize(it, chunk, size) ? chunk : move_large(chunk, it, size);
    }
    if (!chunk || size <= MOST_OF_SERVICE)
        return chunk ? checked(tenant_realloc(chunk, size)) : malloc(size);
    size_t had = tenant_usable_size(chunk);
    void *made = malloc(size);
    if (made) {
        memcpy(made, chunk, had);
        tenant_free(chunk);
    }
    return made;
}

void *memalign(size_t alignment, size_t size)
{
    if (size <= MOST_OF_SERVICE)
        return checked(tenant_memalign(alignment, size));
    return checked(take_large(alignment ? alignment : GRANULE, size));
}

void *aligned_alloc(size_t alignment, size_t size)
{
    return memalign(alignment, size);
}

int posix_memalign(void **result, size_t alignment, size_t size)
{
    int before = errno;
    if (alignment < sizeof(void *))
        return EINVAL;
    void *chunk = memalign(alignment, size);
    errno = before;
    if (!chunk)
        return ENOMEM;
    *result = chunk;
    return 0;
}

size_t malloc_usable_size(void *chunk)
{
    if (is_large(chunk))
        return head_of(chunk)->asked;
    return chunk ? tenant_usable_size(chunk) : 0;
}

/* The names by which musl calls its own. */
void *__libc_malloc(size_t size)
{
    return malloc(size);
}

void *__libc_calloc(size_t count, size_t size)
{
    return calloc(count, size);
}

void *__libc_realloc(void *chunk, size_t size)
{
    return realloc(chunk, size);
}

void __libc_free(void *chunk)
{
    free(chunk);
}
