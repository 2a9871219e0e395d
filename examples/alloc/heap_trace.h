/* Reads a trace of heap calls (docs/ALLOCATORS.md, "Recorded heap calls"): each call with the
   number of the call that made the chunk which it is about. All memory comes from mmap, so that
   malloc's own is the trace's alone. */
#ifndef HEAP_TRACE_H
#define HEAP_TRACE_H

#include <stdint.h>
#include <stdio.h>
#include <stdlib.h>
#include <string.h>
#include <sys/mman.h>
#include <sys/stat.h>
#include <fcntl.h>
#include <unistd.h>

enum op { MALLOC, CALLOC, REALLOC, MEMALIGN, FREE, OPS };
static const char *const op_names[OPS] = {"malloc", "calloc", "realloc", "memalign", "free"};
static const char first_line[] = "tombolopan heap calls 1\n";
#define NONE UINT32_MAX

/* A call: the call whose chunk it is about (of realloc and free; NONE is the null pointer), and the
   numbers that it has: a size, or what is in front of it. */
struct call {
    enum op op;
    uint32_t about;
    uint64_t first, second;
};

struct trace {
    struct call *calls;
    uint32_t count, unknown; /* frees and reallocations of what no call had made */
};

/* Which call made the chunk at an address, in a table of a power of two. */
struct owner {
    uint64_t at;
    uint32_t call;
};
static struct owner *owners;
static uint64_t owner_mask;

static void *room_for(uint64_t count, size_t size)
{
    void *made = mmap(NULL, count * size + 1, PROT_READ | PROT_WRITE,
                      MAP_PRIVATE | MAP_ANONYMOUS, -1, 0);
    if (made == MAP_FAILED) {
        fprintf(stderr, "replay: no memory for %llu entries\n", (unsigned long long)count);
        exit(2);
    }
    return made;
}

/* The entry of an address, which may be a new one. */
static struct owner *owner_of(uint64_t at)
{
    uint64_t place = at * 0x9E3779B97F4A7C15u >> 20;
    while (owners[place & owner_mask].at != at && owners[place & owner_mask].at != 0)
        place++;
    return &owners[place & owner_mask];
}

/* A number in decimal or, behind 0x, hexadecimal digits; 0 in `*is_right` where there is none. */
static uint64_t read_number(const char **text, int *is_right)
{
    char *end;
    const uint64_t number = strtoull(*text, &end, 0);
    *is_right &= end != *text;
    *text = end;
    return number;
}

/* Enters that a call's chunk is at an address. */
static void own(uint64_t at, uint32_t number)
{
    struct owner *it;
    if (at == 0)
        return;
    it = owner_of(at);
    it->at = at;
    it->call = number;
}

/* The call that made a chunk, which is given up; NONE where none is known. */
static uint32_t give_up(uint64_t at)
{
    struct owner *it = owner_of(at);
    const uint32_t number = it->at == at && at != 0 ? it->call : NONE;
    if (number != NONE)
        it->call = NONE;
    return number;
}

static int op_of(const char **text)
{
    int op = 0;
    while (op < OPS && strncmp(*text, op_names[op], strlen(op_names[op])) != 0)
        op++;
    *text += op < OPS ? strlen(op_names[op]) : 0;
    return op;
}

/* Enters the call of a line; 0 where it has not the form. A failed call is none. */
static int read_call(struct trace *trace, const char *text)
{
    struct call it = {MALLOC, NONE, 0, 0};
    const int op = op_of(&text);
    int is_right = op < OPS;
    const uint64_t chunk = op == REALLOC || op == FREE ? read_number(&text, &is_right) : 0;
    it.op = is_right ? (enum op)op : MALLOC;
    if (is_right && op != FREE)
        it.first = read_number(&text, &is_right);
    if (is_right && (op == CALLOC || op == MEMALIGN))
        it.second = read_number(&text, &is_right);
    const int has_answer = is_right && strncmp(text, " = ", 3) == 0;
    text += has_answer ? 3 : 0;
    const uint64_t made = has_answer ? read_number(&text, &is_right) : 0;
    if (!is_right || has_answer != (op != FREE) || *text != '\n')
        return 0;
    if (op != FREE && made == 0 && !(op == REALLOC && it.first == 0))
        return 1;
    if (chunk != 0 && (it.about = give_up(chunk)) == NONE) {
        trace->unknown++;
        return 1;
    }
    if (op == FREE && chunk == 0)
        return 1;
    own(made, trace->count);
    trace->calls[trace->count++] = it;
    return 1;
}

/* Enters all lines of a text; the number of the first that has not the form, or 0. */
static uint32_t read_lines(struct trace *trace, const char *text, const char *end)
{
    uint32_t number = 1;
    if (strncmp(text, first_line, sizeof first_line - 1) != 0)
        return 1;
    text += sizeof first_line - 1;
    while (text < end) {
        const char *stop = memchr(text, '\n', (size_t)(end - text));
        number++;
        if (stop == NULL || !read_call(trace, text))
            return number;
        text = stop + 1;
    }
    return 0;
}

/* Reads a trace, or ends the program with a line. */
static struct trace read_trace(const char *path)
{
    struct trace trace = {NULL, 0, 0};
    struct stat about;
    const int file = open(path, O_RDONLY);
    if (file < 0 || fstat(file, &about) != 0) {
        fprintf(stderr, "replay: %s cannot be read\n", path);
        exit(2);
    }
    const uint64_t size = (uint64_t)about.st_size, lines = size / 8 + 1;
    char *text = room_for(size + 64, 1);
    for (uint64_t at = 0, now = 1; at < size && now > 0; at += now)
        now = (uint64_t)read(file, text + at, size - at);
    close(file);
    for (owner_mask = 1023; owner_mask < 2 * lines; owner_mask = 2 * owner_mask + 1)
        ;
    owners = room_for(owner_mask + 1, sizeof *owners);
    trace.calls = room_for(lines, sizeof *trace.calls);
    const uint32_t wrong = read_lines(&trace, text, text + size);
    if (wrong > 0) {
        fprintf(stderr, "replay: %s:%u: it has not the form of a heap call\n", path, wrong);
        exit(2);
    }
    return trace;
}

/* The bytes that a call asks for. */
static uint64_t size_of_call(const struct call *it)
{
    return it->op == CALLOC ? it->first * it->second : it->op == MEMALIGN ? it->second : it->first;
}

#endif
