/*
 * The C functions that the toolchain's libraries call on Linux, for a processor for which it has no
 * archives of them: memory, errno, and the words of the command line. Nothing proves C.
 */
#include <errno.h>
#include <stdbool.h>
#include <stddef.h>
#include <stdint.h>
#include <stdlib.h>
#include <string.h>
#include <sys/types.h>

typedef struct memory {
    bool is_there;
    uint8_t *start;
} memory;

static uint8_t nothing;
static int count;
static char **words;

static memory answer(void *start)
{
    return (memory){start != 0, start ? start : &nothing};
}

memory rattle_alloc(size_t size, size_t alignment)
{
    (void)alignment;
    return answer(malloc(size ? size : 1));
}

memory rattle_realloc(uint8_t *start, size_t old, size_t size, size_t alignment)
{
    (void)old, (void)alignment;
    return answer(realloc(start, size ? size : 1));
}

void rattle_dealloc(uint8_t *start)
{
    free(start);
}

int rattle_errno(void)
{
    return errno;
}

void rattle_set_errno(int number)
{
    errno = number;
}

/* glibc gives what starts a program, or loads a library, the words of main. */
__attribute__((constructor)) static void keep(int given, char **list)
{
    count = given;
    words = list;
}

size_t rattle_arg_count(void)
{
    return (size_t)count;
}

/* The length of a word that fits, -1 where there is none, -2 where it is too long. */
ssize_t rattle_arg(size_t number, uint8_t *to, size_t room)
{
    size_t length;
    if (number >= (size_t)count)
        return -1;
    length = strlen(words[number]);
    memcpy(to, words[number], length > room ? room : length);
    return length > room ? -2 : (ssize_t)length;
}

/* No variable of the environment changes what a program does. */
ssize_t rattle_env(const char *name, uint8_t *to, size_t room)
{
    (void)name, (void)to, (void)room;
    return -1;
}

ssize_t rattle_env_at(size_t number, uint8_t *to, size_t room)
{
    (void)number, (void)to, (void)room;
    return -1;
}

/* A program that was proved for x86-64 asks whether its processor is new enough: it is. */
const uint8_t *__x86_get_cpuid_feature_leaf(unsigned leaf)
{
    static uint8_t all[32];
    (void)leaf;
    memset(all, 255, sizeof all);
    return all;
}
