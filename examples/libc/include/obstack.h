/* Stacks of objects of which the last one grows, with the names of GNU's C library. */
#ifndef _OBSTACK_H
#define _OBSTACK_H

#include <stdarg.h>
#include <stddef.h>
#include <string.h>

#ifdef __cplusplus
extern "C" {
#endif

/* The bytes of objects, which end at `limit`. */
struct _obstack_chunk {
    char *limit;
    struct _obstack_chunk *prev;
};

/* The last object is from object_base to next_free; chunk_limit is the end of its chunk. */
struct obstack {
    size_t chunk_size;
    struct _obstack_chunk *chunk;
    char *object_base, *next_free, *chunk_limit;
    size_t alignment_mask;
    void *(*chunkfun)(size_t);
    void (*freefun)(void *);
    void *(*chunkfun_extra)(void *, size_t);
    void (*freefun_extra)(void *, void *);
    void *extra_arg;
    int maybe_empty_object;
};

/* A size or alignment of 0 is the usual one. The result is 1. */
int _obstack_begin(
    struct obstack *stack, size_t size, size_t alignment, void *(*make)(size_t),
    void (*drop)(void *));
int _obstack_begin_1(
    struct obstack *stack, size_t size, size_t alignment, void *(*make)(void *, size_t),
    void (*drop)(void *, void *), void *extra);
/* Moves the last object to a new chunk with room for so many bytes more. */
void _obstack_newchunk(struct obstack *stack, size_t more);
/* Frees an object and all after it; with null all, and then the stack has to begin again. */
void _obstack_free(struct obstack *stack, void *object);
int _obstack_allocated_p(struct obstack *stack, void *object);
size_t _obstack_memory_used(struct obstack *stack);
/* Appends to the last object: the number of bytes. */
int obstack_printf(struct obstack *stack, const char *form, ...)
    __attribute__((__format__(__printf__, 2, 3)));
int obstack_vprintf(struct obstack *stack, const char *form, va_list words)
    __attribute__((__format__(__printf__, 2, 0)));

/* What is called where a chunk can't be made, and the exit status of the usual one. */
extern void (*obstack_alloc_failed_handler)(void);
extern int obstack_exit_failure;

#define obstack_init(h) obstack_begin(h, 0)
#define obstack_begin(h, size) \
    obstack_specify_allocation(h, size, 0, obstack_chunk_alloc, obstack_chunk_free)
#define obstack_specify_allocation(h, size, alignment, make, drop) \
    _obstack_begin(h, size, alignment, (void *(*)(size_t))(make), (void (*)(void *))(drop))
#define obstack_specify_allocation_with_arg(h, size, alignment, make, drop, extra) \
    _obstack_begin_1(h, size, alignment, (void *(*)(void *, size_t))(make), \
                     (void (*)(void *, void *))(drop), extra)
#define obstack_chunkfun(h, make) ((void)((h)->chunkfun = (void *(*)(size_t))(make)))
#define obstack_freefun(h, drop) ((void)((h)->freefun = (void (*)(void *))(drop)))
#define obstack_chunk_size(h) ((h)->chunk_size)
#define obstack_alignment_mask(h) ((h)->alignment_mask)
#define obstack_base(h) ((void *)(h)->object_base)
#define obstack_next_free(h) ((void *)(h)->next_free)
#define obstack_object_size(h) ((size_t)((h)->next_free - (h)->object_base))
#define obstack_room(h) ((size_t)((h)->chunk_limit - (h)->next_free))
#define obstack_memory_used(h) _obstack_memory_used(h)
#define obstack_free(h, object) _obstack_free(h, object)
#define obstack_1grow_fast(h, byte) ((void)(*(h)->next_free++ = (char)(byte)))
#define obstack_ptr_grow_fast(h, value) _obstack_put_pointer(h, value)
#define obstack_int_grow_fast(h, value) _obstack_put_int(h, value)
#define obstack_blank_fast(h, size) ((void)((h)->next_free += (size)))

static inline void obstack_make_room(struct obstack *stack, size_t size)
{
    if (obstack_room(stack) < size)
        _obstack_newchunk(stack, size);
}

/* Bytes of any value; where the size is negative the object gets smaller. */
static inline void obstack_blank(struct obstack *stack, ptrdiff_t size)
{
    if (size > 0)
        obstack_make_room(stack, (size_t)size);
    stack->next_free += size;
}

static inline void obstack_grow(struct obstack *stack, const void *bytes, size_t size)
{
    obstack_make_room(stack, size);
    memcpy(stack->next_free, bytes, size);
    stack->next_free += size;
}

static inline void obstack_1grow(struct obstack *stack, char byte)
{
    obstack_make_room(stack, 1);
    *stack->next_free++ = byte;
}

static inline void obstack_grow0(struct obstack *stack, const void *bytes, size_t size)
{
    obstack_make_room(stack, size + 1);
    memcpy(stack->next_free, bytes, size);
    stack->next_free += size;
    *stack->next_free++ = 0;
}

static inline void _obstack_put_pointer(struct obstack *stack, const void *value)
{
    memcpy(stack->next_free, &value, sizeof value);
    stack->next_free += sizeof value;
}

static inline void _obstack_put_int(struct obstack *stack, int value)
{
    memcpy(stack->next_free, &value, sizeof value);
    stack->next_free += sizeof value;
}

static inline void obstack_ptr_grow(struct obstack *stack, const void *value)
{
    obstack_make_room(stack, sizeof value);
    _obstack_put_pointer(stack, value);
}

static inline void obstack_int_grow(struct obstack *stack, int value)
{
    obstack_make_room(stack, sizeof value);
    _obstack_put_int(stack, value);
}

/* The last object gets no larger: its address. */
static inline void *obstack_finish(struct obstack *stack)
{
    char *object = stack->object_base;
    size_t mask = stack->alignment_mask, rest = -(size_t)stack->next_free & mask;
    if (stack->next_free == object)
        stack->maybe_empty_object = 1;
    stack->next_free += rest < obstack_room(stack) ? rest : obstack_room(stack);
    stack->object_base = stack->next_free;
    return object;
}

static inline void *obstack_alloc(struct obstack *stack, size_t size)
{
    obstack_blank(stack, (ptrdiff_t)size);
    return obstack_finish(stack);
}

static inline void *obstack_copy(struct obstack *stack, const void *bytes, size_t size)
{
    obstack_grow(stack, bytes, size);
    return obstack_finish(stack);
}

static inline void *obstack_copy0(struct obstack *stack, const void *bytes, size_t size)
{
    obstack_grow0(stack, bytes, size);
    return obstack_finish(stack);
}

#ifdef __cplusplus
}
#endif
#endif
