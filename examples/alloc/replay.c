/* Makes the heap calls of a trace (docs/ALLOCATORS.md, "Recorded heap calls") on the profile's
   heap, by the library's tb_heap_calls, or on this machine's, and writes what became of the heap:

       replay [--native] [--every N] [--seed N] [--pages N] TRACE > statistics.csv

   A row is written behind each N calls (1000), and one at the end. Standard error tells how many
   calls were made, and refused for want of pages or size. tb_heap_calls wants the pointers of all
   calls at once: those of chunks that are still to be made are guessed (heap_guess.h), and the
   calls are made again as long as a guess was wrong, or had another tag. So in the run that counts
   each pointer is the one that the heap had answered. */
#define _GNU_SOURCE
#include <malloc.h>
#include <time.h>
#include <tombolopan.h>
#include "heap_guess.h"
#include "heap_trace.h"

enum { MOST_RUNS = 50, PROBES = 2 * CLASSES };

struct options {
    const char *path;
    uint64_t every, seed, pages;
    int is_native;
};

/* The heap behind some calls: bytes that were asked for, and those of their blocks or pages; blocks
   that had been freed before, and over how many calls. */
struct statistics {
    uint64_t chunks, live, blocks, tags, reused, distance, refused;
};

static struct trace trace;
static tb_heap_call *made;
static uint64_t *answers, *sizes;
static struct statistics now;

/* The profile's heap. */

static uint64_t about(const struct call *it)
{
    return it->about == NONE ? 0 : answers[it->about];
}

static tb_heap_call library_call(const struct call *it)
{
    static const uint32_t ops[OPS] = {TB_MALLOC, TB_CALLOC, TB_REALLOC, TB_MEMALIGN, TB_FREE};
    const uint64_t chunk = about(it);
    tb_heap_call call = {ops[it->op], 0, it->first, it->second, 0, {0, 0, 0, 0, 0}};
    if (it->op == REALLOC && chunk == 0)
        call.op = TB_MALLOC;
    if (it->op == FREE || call.op == TB_REALLOC) {
        call.second = it->first;
        call.first = chunk;
    }
    return call;
}

/* Guesses the answers of all calls behind those that are known. */
static void guess(uint32_t known, uint32_t pages)
{
    start_guess(trace.count, pages);
    for (uint32_t i = 0; i < trace.count; i++) {
        const uint64_t answer = guess_call(&trace.calls[i], about(&trace.calls[i]) & PLAIN);
        if (i >= known)
            answers[i] = answer;
    }
}

/* Behind all calls two loads of a tag for each class: of the last page that it should have, and of
   the one behind it, which should not be mapped. */
static void enter_probes(tb_heap_call *at)
{
    static const tb_heap_call probe = {TB_LOAD_TAG, 0, 0, 0, 0, {0, 0, 0, 0, 0}};
    for (unsigned class = 1; class <= CLASSES; class++) {
        const uint64_t region = REGIONS + (uint64_t)class * REGION;
        const uint64_t end = region + (uint64_t)stacks[class].pages * PAGE;
        at[0] = at[1] = probe;
        at[0].first = end - PAGE;
        at[1].first = end;
        at += 2;
    }
}

/* Whether each class has the pages at the end that it should have. */
static int pages_are_right(const tb_heap_call *at)
{
    unsigned class = 1;
    while (class <= CLASSES && at[1].code == TB_FAULT && at[1].fault.kind == TB_TRANSLATION &&
           (at[0].code == TB_OK || stacks[class].pages == 0)) {
        at += 2;
        class++;
    }
    return class > CLASSES;
}

/* Makes all calls, with the pointers as they are known or guessed. */
static void make_all(const struct options *options)
{
    const tb_heap_setup setup = {1, (uint32_t)options->pages, 0, (uint16_t)options->seed, 0};
    for (uint32_t i = 0; i < trace.count; i++)
        made[i] = library_call(&trace.calls[i]);
    enter_probes(made + trace.count);
    const uint32_t code = tb_heap_calls(&setup, made, trace.count + PROBES);
    if (code != TB_OK) {
        fprintf(stderr, "replay: tb_heap_calls answers %s\n", tb_text(code));
        exit(2);
    }
}

/* The first call whose chunk is not where it was expected, or the number of calls. */
static uint32_t first_other(void)
{
    uint32_t i = 0;
    while (i < trace.count && made[i].code == TB_OK &&
           (trace.calls[i].op == FREE || (made[i].answer & PLAIN) == (answers[i] & PLAIN)))
        i++;
    if (i < trace.count && made[i].code != TB_OK) {
        fprintf(stderr, "replay: the heap refuses call %u of the trace\n", i + 1);
        exit(1);
    }
    return i;
}

/* Takes over the answers of the first calls; whether one is another than it was. */
static int take_over(uint32_t count)
{
    int is_other = 0;
    for (uint32_t i = 0; i < count; i++) {
        is_other |= trace.calls[i].op != FREE && answers[i] != made[i].answer;
        answers[i] = made[i].answer;
    }
    return is_other;
}

/* Makes the calls until each pointer is the one that was answered; how many times that took. */
static uint32_t replay(const struct options *options)
{
    uint32_t runs = 0, known = 0;
    int is_other = 1;
    guess(0, (uint32_t)options->pages);
    while (is_other) {
        if (runs++ == MOST_RUNS) {
            fprintf(stderr, "replay: %d runs do not tell where all chunks are\n", MOST_RUNS);
            exit(1);
        }
        make_all(options);
        const uint32_t other = first_other();
        known = other < trace.count ? other + 1 : other;
        is_other = take_over(known) || other < trace.count;
        if (other < trace.count)
            guess(known, (uint32_t)options->pages);
    }
    return runs;
}

/* Statistics, of either heap. */

static uint64_t room_of(int is_native, uint64_t chunk)
{
    if (chunk == 0)
        return 0;
    return is_native ? malloc_usable_size((void *)chunk) : room_at(chunk & PLAIN);
}

/* A chunk is given up, by a call of this number. */
static void count_freed(int is_native, uint32_t maker, uint32_t number)
{
    const uint64_t chunk = answers[maker];
    if (chunk == 0)
        return;
    now.chunks--;
    now.live -= sizes[maker];
    now.blocks -= room_of(is_native, chunk);
    now.tags += !is_native && class_at(chunk & PLAIN) > 0;
    own(chunk & PLAIN, number);
}

static void count_made(int is_native, uint32_t number)
{
    const uint64_t chunk = answers[number];
    struct owner *freed;
    sizes[number] = size_of_call(&trace.calls[number]);
    now.refused += chunk == 0;
    if (chunk == 0)
        return;
    now.chunks++;
    now.live += sizes[number];
    now.blocks += room_of(is_native, chunk);
    now.tags += !is_native && class_at(chunk & PLAIN) > 0;
    freed = owner_of(chunk & PLAIN);
    if (freed->at != 0) {
        now.reused++;
        now.distance += number - freed->call;
    }
}

/* A chunk gets another size where it is. */
static void count_resized(int is_native, uint32_t maker, uint32_t number, uint64_t had)
{
    sizes[number] = size_of_call(&trace.calls[number]);
    now.live += sizes[number] - sizes[maker];
    now.blocks += room_of(is_native, answers[number]) - had;
}

static void write_head(int is_native)
{
    printf("calls,live_chunks,live_bytes,block_bytes,mapped_bytes,free_bytes,fragmentation,"
           "reused,reuse_distance%s", is_native ? "\n" : ",tags_drawn");
    for (unsigned class = 1; class <= CLASSES && !is_native; class++)
        printf(",free_%llu", (unsigned long long)class_size(class));
    printf("%s", is_native ? "" : "\n");
}

static uint64_t free_blocks(unsigned class)
{
    return stacks[class].count + blocks_of(class) - stacks[class].used;
}

static uint64_t free_bytes(int is_native)
{
    uint64_t bytes = 0;
    if (is_native)
        return (uint64_t)mallinfo2().fordblks;
    for (unsigned class = 1; class <= CLASSES; class++)
        bytes += free_blocks(class) * class_size(class);
    return bytes;
}

/* A row: fragmentation is the part of the mapped bytes that nobody asked for; the distance is the
   mean of those of the blocks that were used again since the last row. */
static void write_row(int is_native, uint32_t calls)
{
    static struct statistics last;
    const struct mallinfo2 info = mallinfo2();
    const uint64_t mapped = is_native ? (uint64_t)(info.arena + info.hblkhd)
                                      : (uint64_t)mapped_pages() * PAGE;
    const uint64_t reused = now.reused - last.reused;
    printf("%u,%llu,%llu,%llu,%llu,%llu,%.4f,%llu,%.1f", calls, (unsigned long long)now.chunks,
           (unsigned long long)now.live, (unsigned long long)now.blocks,
           (unsigned long long)mapped, (unsigned long long)free_bytes(is_native),
           mapped > 0 ? 1 - (double)now.live / (double)mapped : 0.0,
           (unsigned long long)now.reused,
           reused > 0 ? (double)(now.distance - last.distance) / (double)reused : 0.0);
    if (!is_native)
        printf(",%llu", (unsigned long long)now.tags);
    for (unsigned class = 1; class <= CLASSES && !is_native; class++)
        printf(",%llu", (unsigned long long)free_blocks(class));
    printf("\n");
    last = now;
}

/* Counts a call: what it is about is given up, or stays where it is; what it makes is new. */
static void count_call(int is_native, uint32_t number, uint64_t had)
{
    const struct call *it = &trace.calls[number];
    const uint64_t old = it->about == NONE ? 0 : answers[it->about];
    const int is_kept = old != 0 && it->op == REALLOC && answers[number] != 0 &&
                        (answers[number] & PLAIN) == (old & PLAIN);
    if (is_kept)
        count_resized(is_native, it->about, number, had);
    else if (it->op != FREE && !(it->op == REALLOC && it->first == 0 && it->about != NONE))
        count_made(is_native, number);
}

/* Whether a call gives up the chunk that it is about. */
static int gives_up(const struct call *it, uint64_t answer)
{
    const int is_free = it->op == FREE || it->first == 0;
    return it->about != NONE &&
           (is_free || (answer != 0 && (answer & PLAIN) != (answers[it->about] & PLAIN)));
}

/* Writes the rows of the profile's heap, whose answers are known; 0 where a chunk is not where the
   guess has it, so that its pages and free blocks are not known. */
static int write_profile(const struct options *options)
{
    start_guess(trace.count, (uint32_t)options->pages);
    for (uint32_t i = 0; i < trace.count; i++) {
        const struct call *it = &trace.calls[i];
        if (gives_up(it, answers[i]))
            count_freed(0, it->about, i);
        if (guess_call(it, about(it) & PLAIN) != (answers[i] & PLAIN))
            return 0;
        count_call(0, i, it->about == NONE ? 0 : room_of(0, answers[it->about]));
        if ((i + 1) % options->every == 0 || i + 1 == trace.count)
            write_row(0, i + 1);
    }
    return 1;
}

/* Makes a call on this machine's heap. */
static uint64_t make_native(const struct call *it)
{
    void *chunk = (void *)about(it);
    switch (it->op) {
    case CALLOC:
        return (uint64_t)calloc(it->first, it->second);
    case MEMALIGN:
        return (uint64_t)memalign(it->first, it->second);
    case FREE:
        free(chunk);
        return 0;
    case REALLOC:
        return (uint64_t)realloc(chunk, it->first);
    default:
        return (uint64_t)malloc(it->first);
    }
}

static void write_native(const struct options *options)
{
    for (uint32_t i = 0; i < trace.count; i++) {
        const struct call *it = &trace.calls[i];
        const uint64_t had = it->about == NONE ? 0 : malloc_usable_size((void *)about(it));
        const struct statistics before = now;
        if (it->about != NONE)
            count_freed(1, it->about, i);
        answers[i] = make_native(it);
        if (it->about != NONE && !gives_up(it, answers[i]))
            now = before;
        count_call(1, i, had);
        if ((i + 1) % options->every == 0 || i + 1 == trace.count)
            write_row(1, i + 1);
    }
}

/* The number of an option, or 0 where there is none. */
static uint64_t number_of(const char *text)
{
    char *end;
    const uint64_t number = strtoull(text, &end, 10);
    return *text >= '0' && *text <= '9' && *end == '\0' ? number : 0;
}

/* Reads the words; 0 where they are no command line. */
static int read_options(int count, char **words, struct options *it)
{
    int at = 1;
    *it = (struct options){NULL, 1000, 1, 4096, 0};
    for (; at < count && words[at][0] == '-'; at++) {
        const int has_value = at + 1 < count;
        if (strcmp(words[at], "--native") == 0)
            it->is_native = 1;
        else if (strcmp(words[at], "--every") == 0 && has_value)
            it->every = number_of(words[++at]);
        else if (strcmp(words[at], "--seed") == 0 && has_value)
            it->seed = number_of(words[++at]);
        else if (strcmp(words[at], "--pages") == 0 && has_value)
            it->pages = number_of(words[++at]);
        else
            return 0;
    }
    it->path = at + 1 == count ? words[at] : NULL;
    return it->path && it->every > 0 && it->seed > 0 && it->seed < 65536 && it->pages > 0 &&
           it->pages <= 4096;
}

int main(int count, char **words)
{
    static char buffer[65536];
    struct options options;
    if (!read_options(count, words, &options)) {
        fprintf(stderr, "usage: replay [--native] [--every N] [--seed 1 to 65535] "
                        "[--pages 1 to 4096] TRACE\n");
        return 2;
    }
    setvbuf(stdout, buffer, _IOFBF, sizeof buffer);
    trace = read_trace(options.path);
    made = room_for(trace.count + PROBES, sizeof *made);
    answers = room_for(trace.count, sizeof *answers);
    sizes = room_for(trace.count, sizeof *sizes);
    memset(owners, 0, (owner_mask + 1) * sizeof *owners);
    const uint32_t runs = options.is_native ? 1 : replay(&options);
    int is_right = options.is_native || pages_are_right(made + trace.count);
    write_head(options.is_native);
    if (options.is_native)
        write_native(&options);
    else
        is_right = is_right && write_profile(&options);
    fprintf(stderr, "calls %u, unknown %u, refused %llu, runs %u\n", trace.count, trace.unknown,
            (unsigned long long)now.refused, runs);
    if (!is_right)
        fprintf(stderr, "replay: pages and free blocks are not as they were guessed\n");
    return is_right && fflush(stdout) == 0 ? 0 : 1;
}
