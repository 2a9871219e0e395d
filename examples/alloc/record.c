/* Records the heap calls of a program of this machine, as docs/ALLOCATORS.md describes them:

       cc -O2 -shared -fPIC -o record.so record.c
       HEAP_TRACE=calls.txt LD_PRELOAD=$PWD/record.so program

   A call and its line are made under one lock, so the lines are in the order of the calls whatever
   threads make them. Programs that it starts are not recorded, nor is a copy that fork makes. What
   ends by _exit or a signal loses its last lines, 64 KiB at most. */
#define _GNU_SOURCE
#include <dlfcn.h>
#include <errno.h>
#include <fcntl.h>
#include <pthread.h>
#include <stdint.h>
#include <stdlib.h>
#include <string.h>
#include <unistd.h>

enum { ROOM = 65536, LONGEST_LINE = 128, FIRST_ROOM = 65536 };

static void *(*real_malloc)(size_t), *(*real_calloc)(size_t, size_t);
static void *(*real_realloc)(void *, size_t), *(*real_memalign)(size_t, size_t);
static void (*real_free)(void *);
static pthread_mutex_t lock = PTHREAD_MUTEX_INITIALIZER;
static char text[ROOM], *text_end = text;
static int file = -1;
/* What is asked for while the real calls are looked for. */
static _Alignas(16) char first[FIRST_ROOM];
static size_t first_used;
static __thread int is_looking;

static void *take_first(size_t size)
{
    size_t at = first_used;
    first_used += (size + 15) / 16 * 16;
    return first_used <= FIRST_ROOM ? first + at : NULL;
}

static int is_first(const void *chunk)
{
    return (const char *)chunk >= first && (const char *)chunk < first + FIRST_ROOM;
}

/* Writes out what is kept. Where that fails nothing is recorded from then on. */
static void write_out(void)
{
    for (char *at = text; at < text_end && file >= 0;) {
        ssize_t written = write(file, at, (size_t)(text_end - at));
        if (written < 0 && errno != EINTR)
            file = -1;
        at += written > 0 ? written : 0;
    }
    text_end = text;
}

static void put(const char *word)
{
    while (*word)
        *text_end++ = *word++;
}

static void put_number(uint64_t number, unsigned base)
{
    char digits[24], *at = digits + sizeof digits - 1;
    *at = '\0';
    do
        *--at = "0123456789abcdef"[number % base];
    while (number /= base);
    put(base == 16 ? " 0x" : " ");
    put(at);
}

/* The line of a call: its name, its arguments, the pointer that it returned (but of free). */
static void note(const char *name, const void *chunk, const size_t *numbers, const void *made)
{
    int saved = errno;
    if (file < 0)
        return;
    if (text_end - text > ROOM - LONGEST_LINE)
        write_out();
    put(name);
    if (chunk)
        put_number((uintptr_t)chunk, 16);
    for (; numbers && *numbers != SIZE_MAX; numbers++)
        put_number(*numbers, 10);
    if (*name != 'f') {
        put(" =");
        put_number((uintptr_t)made, 16);
    }
    put("\n");
    errno = saved;
}

static void forget(void)
{
    file = -1;
    pthread_mutex_init(&lock, NULL);
}

/* Looks for the real calls, and opens the file. */
static void start(void)
{
    const char *path = getenv("HEAP_TRACE");
    is_looking = 1;
    real_malloc = dlsym(RTLD_NEXT, "malloc");
    real_calloc = dlsym(RTLD_NEXT, "calloc");
    real_realloc = dlsym(RTLD_NEXT, "realloc");
    real_memalign = dlsym(RTLD_NEXT, "memalign");
    real_free = dlsym(RTLD_NEXT, "free");
    if (path)
        file = open(path, O_WRONLY | O_CREAT | O_TRUNC | O_CLOEXEC, 0644);
    put("tombolopan heap calls 1\n");
    is_looking = 0;
}

__attribute__((constructor)) static void start_once(void)
{
    static pthread_once_t once = PTHREAD_ONCE_INIT;
    static int has_forgetter;
    if (is_looking)
        return;
    pthread_once(&once, start);
    if (!has_forgetter) {
        has_forgetter = 1;
        unsetenv("LD_PRELOAD");
        pthread_atfork(NULL, NULL, forget);
    }
}

__attribute__((destructor)) static void end(void)
{
    pthread_mutex_lock(&lock);
    write_out();
    file = -1;
    pthread_mutex_unlock(&lock);
}

/* Whether a call is made while the real ones are looked for. */
static int is_early(void)
{
    if (!real_free && !is_looking)
        start_once();
    return is_looking;
}

void *malloc(size_t size)
{
    if (is_early())
        return take_first(size);
    pthread_mutex_lock(&lock);
    void *made = real_malloc(size);
    note("malloc", NULL, (size_t[]){size, SIZE_MAX}, made);
    pthread_mutex_unlock(&lock);
    return made;
}

void *calloc(size_t count, size_t size)
{
    if (is_early())
        return take_first(count * size);
    pthread_mutex_lock(&lock);
    void *made = real_calloc(count, size);
    note("calloc", NULL, (size_t[]){count, size, SIZE_MAX}, made);
    pthread_mutex_unlock(&lock);
    return made;
}

void free(void *chunk)
{
    if (!chunk || is_first(chunk) || is_early())
        return;
    pthread_mutex_lock(&lock);
    note("free", chunk, NULL, NULL);
    real_free(chunk);
    pthread_mutex_unlock(&lock);
}

void *realloc(void *chunk, size_t size)
{
    if (!chunk || is_first(chunk)) {
        void *made = malloc(size);
        size_t left = chunk ? (size_t)(first + FIRST_ROOM - (char *)chunk) : 0;
        return made && left ? memcpy(made, chunk, left < size ? left : size) : made;
    }
    pthread_mutex_lock(&lock);
    void *made = real_realloc(chunk, size);
    note("realloc", chunk, (size_t[]){size, SIZE_MAX}, made);
    pthread_mutex_unlock(&lock);
    return made;
}

void *memalign(size_t alignment, size_t size)
{
    if (is_early())
        return NULL;
    pthread_mutex_lock(&lock);
    void *made = real_memalign(alignment, size);
    note("memalign", NULL, (size_t[]){alignment, size, SIZE_MAX}, made);
    pthread_mutex_unlock(&lock);
    return made;
}

void *aligned_alloc(size_t alignment, size_t size)
{
    return memalign(alignment, size);
}

int posix_memalign(void **result, size_t alignment, size_t size)
{
    if (alignment < sizeof(void *) || alignment & (alignment - 1))
        return EINVAL;
    int saved = errno;
    void *made = memalign(alignment, size);
    errno = saved;
    if (!made)
        return ENOMEM;
    *result = made;
    return 0;
}
