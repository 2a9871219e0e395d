/* Obstacks: objects that grow over chunks, of any sizes, freed in order; and those of a pool. */
#define _GNU_SOURCE
#include <obstack.h>
#include <stdint.h>
#include <stdio.h>
#include <stdlib.h>
#include <string.h>

#define obstack_chunk_alloc take
#define obstack_chunk_free give
static int chunks;

static void *take(size_t size)
{
    chunks++;
    return malloc(size);
}

static void give(void *chunk)
{
    chunks--;
    free(chunk);
}

static void words(void)
{
    struct obstack stack;
    char *kept[100];
    obstack_init(&stack);
    void *first = obstack_alloc(&stack, 0);
    for (int i = 0; i < 100; i++) {
        for (int j = 0; j < i * 3; j++)
            obstack_1grow(&stack, 'a' + (i + j) % 26);
        obstack_grow0(&stack, "-end", 4);
        kept[i] = obstack_finish(&stack);
    }
    int sum = 0, is_aligned = 1;
    for (int i = 0; i < 100; i++) {
        sum += (int)strlen(kept[i]) * (i + kept[i][0]);
        is_aligned &= ((uintptr_t)kept[i] & (uintptr_t)obstack_alignment_mask(&stack)) == 0;
    }
    printf("%d %d %d %s\n", sum, is_aligned, chunks > 2, kept[3]);
    obstack_free(&stack, kept[50]);
    char *again = obstack_copy0(&stack, "again", 5);
    printf("%d %s %s\n", again == kept[50], again, kept[49] + 140);
    obstack_free(&stack, first);
    printf("%d ", chunks);
    obstack_free(&stack, NULL);
    printf("%d\n", chunks);
}

static void growth(void)
{
    struct obstack stack;
    obstack_begin(&stack, 256);
    for (int i = 0; i < 1000; i++)
        obstack_int_grow(&stack, i * i);
    printf("%d ", chunks);
    int size = (int)obstack_object_size(&stack);
    int *squares = obstack_finish(&stack);
    obstack_ptr_grow(&stack, squares);
    obstack_blank(&stack, 24);
    memset((char *)obstack_base(&stack) + 8, 7, 24);
    obstack_blank(&stack, -16);
    printf("%d %d %d ", size, squares[999], (int)obstack_object_size(&stack));
    char *object = obstack_finish(&stack);
    printf("%d %d\n", *(int **)object == squares, object[15]);
    obstack_make_room(&stack, 40);
    for (int i = 0; i < 40; i++)
        obstack_1grow_fast(&stack, 'x');
    printf("%d ", obstack_printf(&stack, "<%s %d>", "formatted", 42));
    for (int i = 0; i < 100; i++)
        obstack_printf(&stack, "%d,", i);
    obstack_1grow(&stack, 0);
    puts(obstack_finish(&stack));
    printf("%d\n", strcmp(obstack_copy(&stack, "copied", 7), "copied"));
    obstack_free(&stack, NULL);
    printf("%d\n", chunks);
}

struct pool {
    int made, dropped;
};

static void *from_pool(void *pool, size_t size)
{
    ((struct pool *)pool)->made++;
    return malloc(size);
}

static void to_pool(void *pool, void *chunk)
{
    ((struct pool *)pool)->dropped++;
    free(chunk);
}

static _Noreturn void no_memory(void)
{
    puts("no memory");
    exit(0);
}

static void *none(size_t size)
{
    (void)size;
    return NULL;
}

int main(void)
{
    struct pool pool = {0, 0};
    struct obstack stack;
    words();
    growth();
    obstack_specify_allocation_with_arg(&stack, 512, 64, from_pool, to_pool, &pool);
    for (int i = 0; i < 50; i++)
        if ((uintptr_t)obstack_alloc(&stack, 100) % 64)
            puts("not aligned");
    obstack_free(&stack, NULL);
    printf("%d %d\n", pool.made > 5, pool.made == pool.dropped);
    obstack_alloc_failed_handler = no_memory;
    obstack_specify_allocation(&stack, 0, 0, none, free);
    return 1;
}
