/* Calls of functions of C with arguments that they do not allow, one a build: BUG says which. IDIOM
   says which calls that they allow. */
#include "tenant.h"

#ifdef __aarch64__

/* The functions, by their names; start.c has the others. */
#define NAMED(name) __asm__(name) __attribute__((noinline, used))

static char *put(char *to, const char *from, size_t most)
{
    while (most-- && (*to = *from++))
        to++;
    return to;
}

static size_t length(const char *text)
{
    size_t count = 0;
    while (text[count])
        count++;
    return count;
}

void *c_malloc(size_t size) NAMED("malloc");
void *c_malloc(size_t size) { return tenant_malloc(size); }
void *c_memmove(void *to, const void *from, size_t count) NAMED("memmove");
void *c_memmove(void *to, const void *from, size_t count)
{
    char *at = to;
    const char *next = from;
    for (size_t i = 0; i < count; i++)
        if (at < next)
            at[i] = next[i];
        else
            at[count - 1 - i] = next[count - 1 - i];
    return to;
}
char *c_strcpy(char *to, const char *from) NAMED("strcpy");
char *c_strcpy(char *to, const char *from) { return put(to, from, -1ul), to; }
char *c_stpcpy(char *to, const char *from) NAMED("stpcpy");
char *c_stpcpy(char *to, const char *from) { return put(to, from, -1ul); }
char *c_strncpy(char *to, const char *from, size_t most) NAMED("strncpy");
char *c_strncpy(char *to, const char *from, size_t most)
{
    for (size_t i = 0; i < most; i++)
        to[i] = *from ? *from++ : 0;
    return to;
}
char *c_strcat(char *to, const char *from) NAMED("strcat");
char *c_strcat(char *to, const char *from) { return put(to + length(to), from, -1ul), to; }
char *c_strncat(char *to, const char *from, size_t most) NAMED("strncat");
char *c_strncat(char *to, const char *from, size_t most)
{
    *put(to + length(to), from, most) = 0;
    return to;
}

#define malloc c_malloc
#define memmove c_memmove
#define strcpy c_strcpy
#define stpcpy c_stpcpy
#define strncpy c_strncpy
#define strcat c_strcat
#define strncat c_strncat
void *memset(void *, int, size_t);
void *memcpy(void *restrict, const void *restrict, size_t);

#else
#define _GNU_SOURCE
#include <string.h>
#endif

static volatile long one = 1, five = 5;
static char text[64] = "a text of the image", other[64] = "another";
static void *(*volatile copy)(void *restrict, const void *restrict, size_t) = memcpy;

static char *make(size_t size)
{
    char *chunk = tenant_malloc(size);
    for (size_t i = 0; i < size; i++)
        chunk[i] = i + 1 < size ? 'x' : 0;
    return chunk;
}

/* At -O2 it ends by a jump. */
__attribute__((noinline)) static void *pass_on(char *to, const char *from, size_t count)
{
    return memcpy(to + one, from, count);
}

static void call(void)
{
    char buffer[80], *chunk;
    for (int i = 0; i < 80; i++)
        buffer[i] = i < 20 ? 'b' : 0;
#if BUG == 1 /* malloc of -5 bytes */
    malloc(-five);
#elif BUG == 2 /* the heap is asked for -64 bytes */
    tenant_malloc(-64 * one);
#elif BUG == 3 /* calloc of -5 elements */
    tenant_calloc(-five, 8);
#elif BUG == 4 /* a chunk gets -1 bytes */
    tenant_realloc(make(24), -one);
#elif BUG == 5 /* memcpy of -5 bytes */
    memcpy(make(64), buffer, -five);
#elif BUG == 6 /* memmove of -1 bytes */
    memmove(buffer + 1, buffer, -one);
#elif BUG == 7 /* memset of -16 bytes */
    memset(make(64), 0, 48 - 64 * one);
#elif BUG == 8 /* memcpy to 1 byte behind its source */
    memcpy(buffer + one, buffer, 16);
#elif BUG == 9 /* memcpy to 15 bytes in front of its source */
    memcpy(buffer, buffer + 15 * one, 16);
#elif BUG == 10 /* memcpy in a chunk, by a pointer to it */
    chunk = make(64);
    copy(chunk + 8, chunk, 9);
#elif BUG == 11 /* memcpy as the last call of a function */
    pass_on(text, text, 8);
#elif BUG == 12 /* strcpy to the start of its own string */
    strcpy(buffer, buffer + one);
#elif BUG == 13 /* strcpy far into its own chunk */
    chunk = make(200);
    chunk[180] = 0;
    strcpy(chunk + 100 * one, chunk);
#elif BUG == 14 /* stpcpy to the end of its source */
    stpcpy(buffer + 20, buffer);
#elif BUG == 15 /* strncpy whose zeros are written to its source */
    buffer[4] = 0;
    strncpy(buffer + 8, buffer, 16);
    strncpy(buffer, buffer + 8, 16 * one);
#elif BUG == 16 /* strcat of a string to itself */
    strcat(text, text + 4 * one);
#elif BUG == 17 /* strncat of a string to itself */
    strncat(buffer, buffer + 2 * one, 4);
#elif BUG == 18 /* the heap is asked for an aligned chunk of -5 bytes */
#ifdef __aarch64__
    tenant_memalign(64, -five);
#else
    malloc(-five);
#endif
#elif IDIOM == 1 /* memmove in both directions */
    memmove(buffer, buffer + one, 16);
    memmove(buffer + one, buffer, 16);
#elif IDIOM == 2 /* memcpy of bytes to themselves */
    memcpy(buffer, buffer + one - 1, 16);
    copy(text, text, sizeof text);
#elif IDIOM == 3 /* memcpy to what is next to its source, and of 0 bytes */
    memcpy(buffer, buffer + 16 * one, 16);
    copy(buffer + 16, buffer, 16);
    memcpy(buffer + one, buffer, one - 1);
    memcpy(buffer + one, buffer + 2, one);
#elif IDIOM == 4 /* strings next to one another, in one chunk too */
    chunk = make(200);
    chunk[99] = 0;
    strcpy(chunk + 100, chunk);
    strcpy(chunk, chunk + 100);
    strcpy(buffer + 21, buffer);
    strcpy(buffer, buffer + 21);
    stpcpy(buffer + 42, buffer);
#elif IDIOM == 5 /* bounds that are larger than the strings */
    buffer[3] = 0;
    strncpy(buffer + 4, buffer, 16);
    strncat(buffer + 24, buffer, -1ul);
    strncat(buffer + 24, buffer, 1000);
#elif IDIOM == 6 /* strings of the image to one another, and twice the same */
    strcpy(other, text);
    strcat(other, text);
    strncat(other, text, 4);
    strcat(text, other + 60);
#elif IDIOM == 7 /* sizes that are only large, and none */
    tenant_malloc(1ul << 62);
    malloc(-1ul >> 1);
    tenant_calloc(1ul << 40, 1ul << 40);
    tenant_realloc(make(8), 1ul << 50);
    memset(buffer, 0, 0);
#endif
}

int main(void)
{
    call();
    return 0;
}
