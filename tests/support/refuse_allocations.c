/* Refuses one allocation of the program that it is preloaded into (LD_PRELOAD): that with the
   number REFUSE, counted from 1. How many there were goes into the file that COUNT names. It is for
   the GNU C library. */
#include <errno.h>
#include <stddef.h>
#include <stdio.h>
#include <stdlib.h>

extern void *__libc_malloc(size_t);
extern void *__libc_calloc(size_t, size_t);
extern void *__libc_realloc(void *, size_t);
extern void *__libc_memalign(size_t, size_t);

static unsigned long calls;

static int refuses(void) {
    const char *number = getenv("REFUSE");
    calls++;
    return number && strtoul(number, NULL, 10) == calls;
}

#define ALLOCATED(memory) (refuses() ? (errno = ENOMEM, NULL) : (memory))

void *malloc(size_t size) { return ALLOCATED(__libc_malloc(size)); }

void *calloc(size_t count, size_t size) { return ALLOCATED(__libc_calloc(count, size)); }

void *realloc(void *old, size_t size) { return ALLOCATED(__libc_realloc(old, size)); }

void *aligned_alloc(size_t align, size_t size) {
    return ALLOCATED(__libc_memalign(align, size));
}

int posix_memalign(void **out, size_t align, size_t size) {
    void *memory = ALLOCATED(__libc_memalign(align, size));
    if (memory) {
        *out = memory;
    }
    return memory ? 0 : ENOMEM;
}

__attribute__((destructor)) static void tell(void) {
    const char *name = getenv("COUNT");
    unsigned long made = calls;
    FILE *file = name ? fopen(name, "w") : NULL;
    if (file) {
        fprintf(file, "%lu\n", made);
        fclose(file);
    }
}
