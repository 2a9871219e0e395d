/*
 * Tells what LLVM's Scudo does, as lines "NAME VALUES": it is linked with
 * libclang_rt.scudo_standalone. beside_scudo.py builds and reads it.
 *     scudo_probe             all that ends
 *     scudo_probe few         what options of Scudo's change
 *     scudo_probe MISTAKE     one call that Scudo refuses, which ends the program
 */
#define _GNU_SOURCE
#include <errno.h>
#include <malloc.h>
#include <stdint.h>
#include <stdio.h>
#include <stdlib.h>
#include <string.h>
#include <sys/mman.h>
#include <unistd.h>

void *_Znwm(size_t);
void _ZdlPv(void *);

enum { MANY = 200, LARGEST = 131072 - 32 };

static uint64_t divisor(uint64_t a, uint64_t b) {
    while (b) {
        uint64_t rest = a % b;
        a = b;
        b = rest;
    }
    return a;
}

/* The size of the blocks that requests of a size get: the greatest common divisor of distances. */
static uint64_t block_size(size_t size) {
    static char *chunks[MANY];
    uint64_t found = 0;
    for (int i = 0; i < MANY; i++)
        chunks[i] = malloc(size);
    for (int i = 1; i < MANY; i++) {
        int64_t apart = chunks[i] - chunks[0];
        uint64_t distance = (uint64_t)(apart < 0 ? -apart : apart);
        if (distance < 1 << 26)
            found = divisor(found, distance);
    }
    for (int i = 0; i < MANY; i++)
        free(chunks[i]);
    return found;
}

static void tell_classes(void) {
    uint64_t last = 0;
    printf("classes");
    for (size_t size = 1; size <= LARGEST; size += size < 600 ? 1 : 16) {
        uint64_t found = block_size(size);
        if (found != last)
            printf(" %zu:%lu", size, (unsigned long)found);
        last = found;
    }
    printf("\n");
}

/* The header of a chunk: the eight bytes 16 before it. */
static uint64_t word_of(const void *chunk) {
    return *(const volatile uint64_t *)((const char *)chunk - 16);
}

static void tell_header(const char *name, const void *chunk) {
    uint64_t word = word_of(chunk);
    printf("header_%s %lu %lu %lu %lu %lu\n", name, (unsigned long)(word & 255),
           (unsigned long)(word >> 8 & 3), (unsigned long)(word >> 10 & 3),
           (unsigned long)(word >> 12 & 0xfffff), (unsigned long)(word >> 32 & 0xffff));
    printf("word %lx %lx\n", (unsigned long)chunk, (unsigned long)word);
}

static void tell_headers(void) {
    char *chunk = malloc(24);
    tell_header("malloc_24", chunk);
    free(chunk);
    tell_header("freed_24", chunk);
    tell_header("malloc_1000", malloc(1000));
    tell_header("calloc_10_100", calloc(10, 100));
    tell_header("memalign_64_100", memalign(64, 100));
    tell_header("memalign_4096_24", memalign(4096, 24));
    tell_header("malloc_200000", malloc(200000));
    tell_header("malloc_300001", malloc(300001));
    chunk = _Znwm(24);
    tell_header("new_24", chunk);
    _ZdlPv(chunk);
}

/* In which order so many freed chunks come back: the number that each had when it was freed. */
static void tell_reuse(size_t size, int count) {
    static char *old[MANY];
    for (int i = 0; i < count; i++)
        old[i] = malloc(size);
    for (int i = 0; i < count; i++)
        free(old[i]);
    printf("reuse_%zu_%d", size, count);
    for (int i = 0; i < count; i++) {
        char *chunk = malloc(size);
        int at = 0;
        while (at < count && old[at] != chunk)
            at++;
        printf(" %d", at < count ? at : -1);
    }
    printf("\n");
}

/* Distances of fresh chunks of a class from the one before, in blocks. */
static void tell_fresh(void) {
    char *last = malloc(3000);
    printf("fresh");
    for (int i = 0; i < 12; i++) {
        char *chunk = malloc(3000);
        printf(" %ld", (long)(chunk - last) / 3072);
        last = chunk;
    }
    printf("\n");
}

static void tell_zeroing(void) {
    char *chunk = malloc(24), *again;
    int left = 0;
    memset(chunk, 0x5a, 24);
    free(chunk);
    again = malloc(24);
    for (int i = 0; i < 24; i++)
        left += again[i] == 0x5a;
    printf("left_of_freed %s %s\n", again == chunk ? "reused" : "elsewhere",
           left ? "some" : "none");
    chunk = calloc(1, 24);
    for (int i = left = 0; i < 24; i++)
        left += chunk[i] != 0;
    printf("left_in_calloc %d\n", left);
}

static void tell_alignments(void) {
    static const size_t alignments[] = {0, 1, 2, 8, 16, 24, 32, 64, 1024, 4096, 8192};
    printf("alignments");
    for (size_t i = 0; i < sizeof alignments / sizeof *alignments; i++) {
        size_t least = alignments[i] < 16 ? 16 : alignments[i];
        uintptr_t chunk = (uintptr_t)memalign(alignments[i], 40);
        printf(" %zu:%s", alignments[i], !chunk ? "null" : chunk % least ? "less" : "aligned");
    }
    printf("\n");
}

static void tell_limits(void) {
    static const size_t sizes[] = {0, 1, 131056, 1048576, 1048577, 16777216, (size_t)-1};
    size_t first = 1;
    printf("sizes");
    for (size_t i = 0; i < sizeof sizes / sizeof *sizes; i++) {
        char *volatile chunk = malloc(sizes[i]);
        printf(" %zu:%s", sizes[i], chunk ? "chunk" : "null");
        free(chunk);
    }
    printf("\ncalloc_overflow %s\n", calloc((size_t)1 << 33, (size_t)1 << 33) ? "chunk" : "null");
    for (first = 131000; (word_of(malloc(first)) & 255) != 0; first++) {
    }
    printf("first_without_class %zu\n", first);
}

static void tell_usable(void) {
    static const size_t sizes[] = {1, 16, 17, 24, 100, 1000, 131056};
    printf("usable");
    for (size_t i = 0; i < sizeof sizes / sizeof *sizes; i++)
        printf(" %zu:%zu", sizes[i], malloc_usable_size(malloc(sizes[i])));
    printf(" null:%zu\n", malloc_usable_size(0));
}

static void tell_realloc(void) {
    static const size_t sizes[][2] = {{24, 40}, {24, 16}, {24, 48}, {24, 49}, {100, 112},
        {100, 113}, {1000, 500}, {1000, 1008}, {1000, 1009}, {20000, 8000}, {20000, 17000}};
    printf("realloc");
    for (size_t i = 0; i < sizeof sizes / sizeof *sizes; i++) {
        char *chunk = malloc(sizes[i][0]);
        uintptr_t old = (uintptr_t)chunk;
        int stays = (uintptr_t)realloc(chunk, sizes[i][1]) == old;
        printf(" %zu>%zu:%s", sizes[i][0], sizes[i][1], stays ? "stays" : "moves");
    }
    printf(" 24>0:%s\n", realloc(malloc(24), 0) ? "chunk" : "null");
}

/* Whether a page is mapped. */
static const char *state_of(char *at) {
    uintptr_t page = (uintptr_t)at & ~(uintptr_t)4095;
    return msync((void *)page, 1, MS_ASYNC) && errno == ENOMEM ? "unmapped" : "mapped";
}

static long resident(void) {
    long all = 0, now = 0;
    FILE *file = fopen("/proc/self/statm", "r");
    if (!file || fscanf(file, "%ld %ld", &all, &now) != 2)
        exit(3);
    fclose(file);
    return now;
}

/* What becomes of the pages of chunks that are freed. */
static void tell_pages(void) {
    static char *chunks[4096];
    char *large = malloc(400000);
    memset(large, 1, 400000);
    free(large);
    printf("freed_pages_of_large %s\n", state_of(large));
    for (int i = 0; i < 4096; i++)
        memset(chunks[i] = malloc(4000), 1, 4000);
    long most = resident();
    for (int i = 0; i < 4096; i++)
        free(chunks[i]);
    mallopt(-101 /* M_PURGE */, 0);
    printf("freed_pages_of_blocks %s\n", most - resident() > 2048 ? "released" : "kept");
}

static void make_mistake(const char *name) {
    char *volatile chunk = malloc(24);
    char *volatile other = chunk;
    int freed = strstr(name, "freed") != 0, corrupt = strstr(name, "corrupt") != 0;
    if (freed)
        free(chunk);
    if (corrupt)
        chunk[-16] ^= 0x40;
    if (strstr(name, "misaligned"))
        other = chunk + 8;
    if (strstr(name, "within"))
        other = chunk + 16;
    if (strstr(name, "unmapped"))
        other = (char *)0x10000;
    if (strstr(name, "realloc"))
        printf("%p\n", realloc(other, 10));
    else if (strstr(name, "usable"))
        printf("%zu\n", malloc_usable_size(other));
    else
        free(other);
    printf("nothing\n");
}

int main(int count, char **words) {
    setvbuf(stdout, 0, _IOFBF, 1 << 16);
    if (count > 1 && strcmp(words[1], "few") != 0) {
        make_mistake(words[1]);
        return 0;
    }
    tell_reuse(24, 3);
    tell_zeroing();
    if (count > 1)
        return 0;
    tell_headers();
    tell_reuse(72, 28);
    tell_reuse(136, 64);
    tell_reuse(600, 64);
    tell_fresh();
    tell_alignments();
    tell_usable();
    tell_realloc();
    tell_classes();
    tell_limits();
    tell_pages();
    return 0;
}
