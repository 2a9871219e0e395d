/* The C library's functions of bytes and strings, for a tenant: none reads behind the granule of
   16 bytes in which what it may read ends. Words of eight bytes at a time where that pays. */
#ifndef __clang__
/* No loop of a function becomes a call of that function. */
#pragma GCC optimize("no-tree-loop-distribute-patterns")
#endif
#include <stddef.h>
#include <stdint.h>

enum { WORD = sizeof(uint64_t) };
static const uint64_t ONES = 0x0101010101010101u, TOPS = 0x8080808080808080u;

static inline uint64_t load(const void *from)
{
    uint64_t word;
    __builtin_memcpy(&word, from, WORD);
    return word;
}

static inline void store(void *to, uint64_t word)
{
    __builtin_memcpy(to, &word, WORD);
}

/* From the lowest byte on, so `to` may lie below `from` within it. */
static void copy_forward(unsigned char *to, const unsigned char *from, size_t count)
{
    for (; count >= 2 * WORD; count -= 2 * WORD, to += 2 * WORD, from += 2 * WORD) {
        uint64_t first = load(from), second = load(from + WORD);
        store(to, first);
        store(to + WORD, second);
    }
    for (; count >= WORD; count -= WORD, to += WORD, from += WORD)
        store(to, load(from));
    while (count--)
        *to++ = *from++;
}

void *memcpy(void *restrict to, const void *restrict from, size_t count)
{
    copy_forward(to, from, count);
    return to;
}

void *memmove(void *to, const void *from, size_t count)
{
    unsigned char *at = to;
    const unsigned char *next = from;
    if ((uintptr_t)at - (uintptr_t)next >= count) {
        copy_forward(at, next, count);
        return to;
    }
    for (; count >= WORD; count -= WORD)
        store(at + count - WORD, load(next + count - WORD));
    while (count--)
        at[count] = next[count];
    return to;
}

void *memset(void *to, int byte, size_t count)
{
    unsigned char *at = to;
    uint64_t word = (unsigned char)byte * ONES;
    for (; count >= 2 * WORD; count -= 2 * WORD, at += 2 * WORD) {
        store(at, word);
        store(at + WORD, word);
    }
    while (count--)
        *at++ = (unsigned char)byte;
    return to;
}

int memcmp(const void *left, const void *right, size_t count)
{
    const unsigned char *a = left, *b = right;
    for (; count >= WORD && load(a) == load(b); count -= WORD, a += WORD, b += WORD)
        ;
    for (; count; count--, a++, b++)
        if (*a != *b)
            return *a - *b;
    return 0;
}

int bcmp(const void *left, const void *right, size_t count)
{
    return memcmp(left, right, count);
}

void *memchr(const void *bytes, int byte, size_t count)
{
    const unsigned char *at = bytes;
    for (; count; count--, at++)
        if (*at == (unsigned char)byte)
            return (void *)at;
    return NULL;
}

/* An aligned word never crosses a granule. */
size_t strlen(const char *text)
{
    const char *end = text;
    for (; (uintptr_t)end % WORD; end++)
        if (!*end)
            return (size_t)(end - text);
    for (uint64_t word = load(end); !((word - ONES) & ~word & TOPS); word = load(end))
        end += WORD;
    while (*end)
        end++;
    return (size_t)(end - text);
}

int strcmp(const char *left, const char *right)
{
    for (; *left && *left == *right; left++, right++)
        ;
    return (unsigned char)*left - (unsigned char)*right;
}

int strcoll(const char *left, const char *right)
{
    return strcmp(left, right);
}

int strncmp(const char *left, const char *right, size_t count)
{
    for (; count && *left && *left == *right; left++, right++, count--)
        ;
    return count ? (unsigned char)*left - (unsigned char)*right : 0;
}

char *strchr(const char *text, int byte)
{
    for (; *text != (char)byte; text++)
        if (!*text)
            return NULL;
    return (char *)text;
}

char *strcpy(char *restrict to, const char *restrict from)
{
    memcpy(to, from, strlen(from) + 1);
    return to;
}

size_t strspn(const char *text, const char *set)
{
    const char *end = text;
    while (*end && strchr(set, *end))
        end++;
    return (size_t)(end - text);
}

char *strpbrk(const char *text, const char *set)
{
    for (; *text; text++)
        if (strchr(set, *text))
            return (char *)text;
    return NULL;
}

char *strstr(const char *text, const char *part)
{
    size_t count = strlen(part);
    for (; strncmp(text, part, count); text++)
        if (!*text)
            return NULL;
    return (char *)text;
}
