/* Blocks of more than 1 MiB: made, grown, shrunk, moved to the heap and from it, aligned, freed and
   made again, as natively; and what is refused.
   flags: --large-blocks=8388608 */
#include <errno.h>
#include <malloc.h>
#include <stdint.h>
#include <stdio.h>
#include <stdlib.h>
#include <string.h>

enum { MIB = 1048576 };

/* Writes all bytes of a block, a different one at each place. */
static void fill(unsigned char *bytes, size_t size)
{
    for (size_t i = 0; i < size; i += 509)
        bytes[i] = (unsigned char)(i / 509 + size);
    bytes[size - 1] = 7;
}

/* Whether the first bytes are those that fill wrote to a block of `had` bytes. */
static int is_filled(const unsigned char *bytes, size_t size, size_t had)
{
    for (size_t i = 0; i < size && i < had - 1; i += 509)
        if (bytes[i] != (unsigned char)(i / 509 + had))
            return 0;
    return size < had || bytes[had - 1] == 7;
}

static int is_zero(const unsigned char *bytes, size_t size)
{
    for (size_t i = 0; i < size; i += 509)
        if (bytes[i])
            return 0;
    return bytes[size - 1] == 0;
}

/* A block through sizes that stay, grow, shrink, and leave the area and come back. */
static void resize(void)
{
    static const size_t sizes[] = {
        100, 2 * MIB, 2 * MIB + 5, 3 * MIB, MIB + 1, MIB, 20, 4 * MIB, 4 * MIB - 16, 5000,
    };
    unsigned char *it = NULL;
    size_t had = 0;
    for (size_t i = 0; i < sizeof sizes / sizeof *sizes; i++) {
        unsigned char *made = realloc(it, sizes[i]);
        printf("%zu %d %d\n", sizes[i], made != NULL, !it || is_filled(made, sizes[i], had));
        it = made;
        had = sizes[i];
        fill(it, had);
    }
    free(it);
}

/* Volatile, since compilers leave out an allocation that nobody uses. */
static void *volatile made;

static void refuse(void)
{
    void *other = &other, *small = malloc(10);
    errno = 0;
    made = calloc(SIZE_MAX / 2, 3);
    printf("%d", made == NULL);
    made = malloc(SIZE_MAX - 100);
    printf("%d", made == NULL && errno == ENOMEM);
    made = realloc(small, SIZE_MAX - 100);
    printf("%d", made == NULL);
    printf("%d", posix_memalign(&other, 64, SIZE_MAX - 100) == ENOMEM && other == &other);
    printf("%d\n", posix_memalign(&other, 4, 2 * MIB) == EINVAL && other == &other);
    free(small);
}

static void align(void)
{
    void *first = memalign(65536, 2 * MIB), *second = aligned_alloc(64, 2 * MIB), *third = NULL;
    const int code = posix_memalign(&third, 1048576, MIB + MIB / 2);
    printf("%d%d%d%d\n", (uintptr_t)first % 65536 == 0, (uintptr_t)second % 64 == 0, code,
           (uintptr_t)third % 1048576 == 0);
    fill(first, 2 * MIB);
    fill(second, 2 * MIB);
    fill(third, MIB + MIB / 2);
    printf("%d", is_filled(first, 2 * MIB, 2 * MIB) && is_filled(second, 2 * MIB, 2 * MIB));
    printf("%d\n", malloc_usable_size(third) >= MIB + MIB / 2);
    free(second);
    free(first);
    free(third);
}

int main(void)
{
    unsigned char *blocks[3];
    for (int turn = 0; turn < 4; turn++) {
        for (int i = 0; i < 3; i++) {
            blocks[i] = calloc(3 * MIB / 2 + (size_t)(turn * i), 1);
            printf("%d", is_zero(blocks[i], 3 * MIB / 2));
            fill(blocks[i], 3 * MIB / 2);
        }
        printf("%d\n", is_filled(blocks[turn % 3], 3 * MIB / 2, 3 * MIB / 2));
        for (int i = 0; i < 3; i++)
            free(blocks[(i + turn) % 3]);
    }
    resize();
    align();
    refuse();
    /* All is one free block again. */
    made = malloc(8 * MIB - 32);
    printf("%d\n", made != NULL);
    free(made);
    return 0;
}
