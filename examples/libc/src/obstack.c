/* What <obstack.h> does not do in place. The names are weak, since programs may have their own. */
#include <obstack.h>
#include <stdint.h>
#include <stdio.h>
#include <stdlib.h>
#include <features.h>

enum { USUAL_SIZE = 4064, USUAL_ALIGNMENT = 16, SPARE = 100 };

static void fail(void)
{
    fputs("memory exhausted\n", stderr);
    exit(obstack_exit_failure);
}

weak int obstack_exit_failure = EXIT_FAILURE;
weak void (*obstack_alloc_failed_handler)(void) = fail;

static void drop(struct obstack *stack, struct _obstack_chunk *chunk)
{
    if (stack->freefun_extra)
        stack->freefun_extra(stack->extra_arg, chunk);
    else
        stack->freefun(chunk);
}

static char *aligned(struct obstack *stack, char *at)
{
    return at + (-(uintptr_t)at & stack->alignment_mask);
}

/* A chunk in front of the others, with an empty object. */
static void make(struct obstack *stack, size_t size)
{
    struct _obstack_chunk *made = stack->chunkfun_extra
                                      ? stack->chunkfun_extra(stack->extra_arg, size)
                                      : stack->chunkfun(size);
    if (!made)
        obstack_alloc_failed_handler();
    made->prev = stack->chunk;
    stack->chunk = made;
    stack->chunk_limit = made->limit = (char *)made + size;
    stack->object_base = stack->next_free = aligned(stack, (char *)(made + 1));
}

static int begin(struct obstack *stack, size_t size, size_t alignment)
{
    stack->alignment_mask = (alignment ? alignment : USUAL_ALIGNMENT) - 1;
    stack->chunk_size = size ? size : USUAL_SIZE;
    stack->chunk = NULL;
    stack->maybe_empty_object = 0;
    make(stack, stack->chunk_size);
    return 1;
}

weak int _obstack_begin(
    struct obstack *stack, size_t size, size_t alignment, void *(*make)(size_t),
    void (*drop)(void *))
{
    stack->chunkfun = make;
    stack->freefun = drop;
    stack->chunkfun_extra = NULL;
    stack->freefun_extra = NULL;
    return begin(stack, size, alignment);
}

weak int _obstack_begin_1(
    struct obstack *stack, size_t size, size_t alignment, void *(*make)(void *, size_t),
    void (*drop)(void *, void *), void *extra)
{
    stack->chunkfun_extra = make;
    stack->freefun_extra = drop;
    stack->extra_arg = extra;
    return begin(stack, size, alignment);
}

/* The chunk that the object was in is freed, if nothing else is. */
weak void _obstack_newchunk(struct obstack *stack, size_t more)
{
    struct _obstack_chunk *old = stack->chunk;
    char *object = stack->object_base;
    size_t had = obstack_object_size(stack), head = sizeof *old + stack->alignment_mask;
    size_t size = had + (had >> 3) + head + SPARE;
    int is_alone = object == aligned(stack, (char *)(old + 1)) && !stack->maybe_empty_object;
    if (more > PTRDIFF_MAX - size) {
        obstack_alloc_failed_handler();
        return;
    }
    size += more;
    make(stack, size < stack->chunk_size ? stack->chunk_size : size);
    memcpy(stack->object_base, object, had);
    stack->next_free = stack->object_base + had;
    if (is_alone) {
        stack->chunk->prev = old->prev;
        drop(stack, old);
    }
    stack->maybe_empty_object = 0;
}

static int is_in(struct _obstack_chunk *chunk, void *object)
{
    return (char *)object > (char *)chunk && (char *)object <= chunk->limit;
}

weak int _obstack_allocated_p(struct obstack *stack, void *object)
{
    struct _obstack_chunk *chunk = stack->chunk;
    while (chunk && !is_in(chunk, object))
        chunk = chunk->prev;
    return chunk != NULL;
}

weak void _obstack_free(struct obstack *stack, void *object)
{
    struct _obstack_chunk *chunk = stack->chunk;
    while (chunk && !is_in(chunk, object)) {
        struct _obstack_chunk *before = chunk->prev;
        drop(stack, chunk);
        chunk = before;
        stack->maybe_empty_object = 1;
    }
    stack->chunk = chunk;
    if (!chunk && object)
        abort();
    stack->object_base = stack->next_free = object;
    stack->chunk_limit = chunk ? chunk->limit : NULL;
}

weak size_t _obstack_memory_used(struct obstack *stack)
{
    size_t size = 0;
    for (struct _obstack_chunk *chunk = stack->chunk; chunk; chunk = chunk->prev)
        size += (size_t)(chunk->limit - (char *)chunk);
    return size;
}

weak int obstack_vprintf(struct obstack *stack, const char *form, va_list words)
{
    va_list again;
    va_copy(again, words);
    int size = vsnprintf(NULL, 0, form, again);
    va_end(again);
    if (size < 0)
        return size;
    obstack_make_room(stack, (size_t)size + 1);
    vsnprintf(stack->next_free, (size_t)size + 1, form, words);
    stack->next_free += size;
    return size;
}

weak int obstack_printf(struct obstack *stack, const char *form, ...)
{
    va_list words;
    va_start(words, form);
    int size = obstack_vprintf(stack, form, words);
    va_end(words);
    return size;
}
