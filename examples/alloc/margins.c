/* Counts, over the states of the generator of tags, in how many runs a mistake meets another tag:

       margins FIRST COUNT

   from the state FIRST on. There are 1,048,576: RGSR_EL1.SEED is a state's low 16 bits, .TAG the
   four above them, as they are of a tenant's seed. A line for each mistake: its name, a distance or
   how often the block was taken again, 0 or 1 for blocks with odd and with even tags, and under how
   many states it is found. The chunks are of 24 bytes, but for the lines whose names have another
   size. */
#include <stdio.h>
#include <stdlib.h>
#include <string.h>
#include <tombolopan.h>

enum { DISTANCES = 8, TIMES = 8, CALLS = 40, SIZES = 3, STATES = 1048576 };
#define PLAIN (((uint64_t)1 << 56) - 1)

static const uint64_t sizes[SIZES] = {24, 300, 3000};
static uint64_t apart[SIZES][2][DISTANCES + 1], stale[2][TIMES + 1], again[2][TIMES + 1];
static tb_heap_call calls[CALLS];

static void enter(unsigned at, uint32_t op, uint64_t first)
{
    static const tb_heap_call none;
    calls[at] = none;
    calls[at].op = op;
    calls[at].first = first;
}

static void make(uint32_t state, unsigned count)
{
    const tb_heap_setup setup = {1, 16, 0, (uint16_t)state, (uint16_t)(state >> 16)};
    const uint32_t code = tb_heap_calls(&setup, calls, count);
    if (code != TB_OK) {
        fprintf(stderr, "margins: tb_heap_calls answers %s\n", tb_text(code));
        exit(1);
    }
}

static unsigned tag_of(unsigned at)
{
    return calls[at].answer >> 56 & 15;
}

/* Chunks one behind the other: an access that goes so many blocks too far. */
static void count_apart(uint32_t state, unsigned size)
{
    for (unsigned i = 0; i < DISTANCES + 2; i++)
        enter(i, TB_MALLOC, sizes[size]);
    make(state, DISTANCES + 2);
    for (unsigned i = 0; i < 2 * DISTANCES; i++) {
        const unsigned first = i % 2, distance = 1 + i / 2;
        apart[size][first][distance] += tag_of(first) != tag_of(first + distance);
    }
}

/* A chunk of a block that is freed and taken again: the pointer to the first chunk that was there,
   and the one to the chunk before the last. */
static void count_stale(uint32_t state, unsigned half)
{
    const uint64_t block = 0x12000010 + 64 * half;
    enter(0, TB_MALLOC, sizes[0]);
    enter(1, TB_MALLOC, sizes[0]);
    for (unsigned i = 0; i < TIMES; i++) {
        enter(2 + 2 * i, TB_FREE, block);
        enter(3 + 2 * i, TB_MALLOC, sizes[0]);
    }
    make(state, 2 + 2 * TIMES);
    for (unsigned i = 1; i <= TIMES; i++) {
        const unsigned now = 1 + 2 * i, before = i > 1 ? now - 2 : half;
        if ((calls[now].answer & PLAIN) != block)
            exit(1);
        stale[half][i] += tag_of(now) != tag_of(half);
        again[half][i] += tag_of(now) != tag_of(before);
    }
}

static void write_line(const char *name, unsigned number, unsigned half, uint64_t found)
{
    printf("%s %u %u %llu\n", name, number, half, (unsigned long long)found);
}

static void write_counts(unsigned half)
{
    for (unsigned i = 1; i <= DISTANCES; i++) {
        write_line("apart", i, half, apart[0][half][i]);
        write_line("apart_300", i, half, apart[1][half][i]);
        write_line("apart_3000", i, half, apart[2][half][i]);
        write_line("stale", i, half, stale[half][i]);
        write_line("before", i, half, again[half][i]);
    }
}

int main(int count, char **words)
{
    const unsigned long first = count == 3 ? strtoul(words[1], NULL, 10) : 0,
                        states = count == 3 ? strtoul(words[2], NULL, 10) : 0;
    if (states < 1 || first >= STATES || states > STATES - first) {
        fprintf(stderr, "usage: margins FIRST COUNT (states are 0 to %d)\n", STATES - 1);
        return 2;
    }
    for (uint32_t state = first; state < first + states; state++) {
        for (unsigned size = 0; size < SIZES; size++)
            count_apart(state, size);
        count_stale(state, 0);
        count_stale(state, 1);
    }
    write_counts(0);
    write_counts(1);
    return 0;
}
