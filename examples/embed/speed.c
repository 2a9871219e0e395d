/*
 * Measures calls of the library: a short tenant alone, reads, writes and mapped pages of a memory,
 * what an access costs a traced run, a replay of 257,000 heap calls, and whether many sessions,
 * tenants and heap traces take more memory than few.
 *
 *     speed [TURNS]
 *
 * TURNS (20000) is how many sessions, tenants and heap traces are made in a loop. Times are of the
 * processor, the least of several measurements.
 */
#define _POSIX_C_SOURCE 200809L
#include <stdint.h>
#include <stdio.h>
#include <stdlib.h>
#include <string.h>
#include <sys/resource.h>
#include <time.h>
#include <tombolopan.h>

enum { CODE = 0x10000, DATA = 0x20000, STEPS = 200000, PAGES = 4, CALLS = 257000, ROOM = 4096 };

/* str x2, [x0]; ldr x3, [x0]; ldr x4, [x0, #8]; str x5, [x0, #8]; b to the first */
static const uint32_t loop[] = {0xF9000002, 0xF9400003, 0xF9400404, 0xF9000405, 0x17FFFFFC};
/* mov x1, #33; twice add x0, x0, #1; subs x1, x1, #1; b.ne to the adds; nop; exit: 136 steps */
static const uint32_t shorts[] = {0xD2800421, 0x91000400, 0x91000400, 0xF1000421,
                                  0x54FFFFA1, 0xD503201F, 0xD2800008, 0xD4000001};
static tb_page pages[PAGES];
static tb_tag_state state;
static tb_traced_access accesses[ROOM];
static tb_heap_step calls[CALLS];

static double now(void) {
    struct timespec at;
    clock_gettime(CLOCK_PROCESS_CPUTIME_ID, &at);
    return (double)at.tv_sec + (double)at.tv_nsec / 1e9;
}

static double least(double (*measure)(void), int times) {
    double found = measure();
    for (int i = 1; i < times; i++) {
        const double it = measure();
        found = it < found ? it : found;
    }
    return found;
}

static uint8_t *put(uint8_t *at, uint64_t number, size_t size) {
    memcpy(at, &number, size);
    return at + size;
}

/* The least ELF64 image with code at CODE; how many bytes it has. */
static size_t make_image(uint8_t *image) {
    static const uint8_t magic[16] = {0x7f, 'E', 'L', 'F', 2, 1, 1};
    uint8_t *at = image + sizeof magic;
    memcpy(image, magic, sizeof magic);
    at = put(put(put(put(at, 2, 2), 183, 2), 1, 4), CODE, 8);
    at = put(put(put(put(at, 64, 8), 0, 8), 0, 4), 64, 2);
    at = put(put(put(at, 56, 2), 1, 2), 0, 6);
    at = put(put(put(put(at, 1, 4), 5, 4), 4096, 8), CODE, 8);
    at = put(put(put(put(at, CODE, 8), sizeof shorts, 8), sizeof shorts, 8), 4096, 8);
    memset(at, 0, 4096 + sizeof shorts - 120);
    memcpy(image + 4096, shorts, sizeof shorts);
    return 4096 + sizeof shorts;
}

static uint8_t image[8192];
static tb_terms terms;
static uint32_t slices[1];

static void lone(void) {
    static uint8_t output[16];
    static tb_kept_call kept[4];
    tb_alone_end end;
    tb_alone(&terms, output, sizeof output, kept, 4, &end);
    if (end.code != TB_OK || end.steps != (slices[0] ? 136 : 0))
        exit(1);
}

static double of_lone(void) {
    const double begin = now();
    for (int i = 0; i < 50; i++)
        lone();
    return (now() - begin) / 50;
}

/* A memory with the loop and what it uses, and the registers. */
static tb_regs prepare(void) {
    tb_regs regs;
    memset(&regs, 0, sizeof regs);
    tb_memory_init(pages, PAGES, &state, false);
    tb_map(pages, PAGES, CODE / 4096, TB_READ | TB_EXEC);
    tb_map(pages, PAGES, DATA / 4096, TB_READ | TB_WRITE);
    tb_load(pages, PAGES, &state, CODE, (const uint8_t *)loop, sizeof loop);
    regs.pc = CODE;
    regs.x[0] = DATA;
    return regs;
}

static double of_run(void) {
    tb_regs regs = prepare();
    tb_stop stop;
    const double begin = now();
    if (tb_run(pages, PAGES, &state, &regs, STEPS, &stop) != TB_OK)
        exit(1);
    return now() - begin;
}

static double of_trace(void) {
    static const uint64_t none = 0;
    tb_regs regs = prepare();
    tb_traced_instruction unused;
    tb_trace_report end;
    uint64_t found = 0;
    tb_trace_request request = {&none, 0, STEPS, 0, UINT64_MAX, 0, UINT64_MAX, 15, 0};
    tb_trace_arrays entered = {&unused, 0, accesses, ROOM};
    const double begin = now();
    while (request.steps > 0) {
        tb_run_traced(pages, PAGES, &state, &regs, &request, &entered, &end);
        request.steps -= end.steps;
        found += end.accesses;
    }
    if (found != STEPS / 5 * 4)
        exit(1);
    return now() - begin;
}

/* Of reads or writes of eight bytes, from a place on at seven addresses in turn; two neighbouring
   pages have tags other than 0. */
static uint64_t place;
static bool is_write;

static double of_accesses(void) {
    uint8_t bytes[8] = {0};
    tb_fault fault;
    tb_memory_init(pages, PAGES, &state, false);
    for (int i = 0; i < 2; i++)
        tb_map(pages, PAGES, DATA / 4096 + i, TB_READ | TB_WRITE | TB_TAGGED);
    static const tb_tag_store tags = {DATA, 512, 5, 0};
    tb_store_tags(pages, PAGES, &state, &tags, &fault);
    const double begin = now();
    for (int i = 0; i < 2100; i++) {
        const uint64_t addr = (5ull << 56) + place + i % 7;
        if ((is_write ? tb_write(pages, PAGES, &state, addr, bytes, 8, true, &fault)
                      : tb_read(pages, PAGES, &state, addr, bytes, 8, true, &fault)) != TB_OK)
            exit(1);
    }
    return (now() - begin) / 2100;
}

static double of_access(bool writes, uint64_t first) {
    place = first;
    is_write = writes;
    return least(of_accesses, 100) * 1e9;
}

static double of_mapping(void) {
    tb_memory_init(pages, PAGES, &state, false);
    const double begin = now();
    for (int i = 0; i < 500; i++)
        if (tb_map(pages, PAGES, 19, TB_READ) != TB_OK || tb_unmap(pages, PAGES, 19) != TB_OK)
            exit(1);
    return (now() - begin) / 500;
}

/* Allocations of up to 400 bytes, every other one of which the call behind it frees. */
static void draw(size_t length) {
    uint32_t drawn = 1;
    memset(calls, 0, sizeof calls);
    for (size_t i = 0; i < length; i++) {
        drawn = drawn * 1664525 + 1013904223;
        const bool frees = i > 0 && i % 2 == 0;
        calls[i].call.op = frees ? TB_FREE : TB_MALLOC;
        calls[i].call.first = frees ? 0 : (drawn >> 8) % 400 + 1;
        calls[i].first_of = frees ? (uint32_t)i : 0;
    }
}

static double of_replay(void) {
    static const tb_heap_setup setup = {1, 4096, 0, 1, 0};
    uint64_t bad;
    const double begin = now();
    if (tb_heap_replay(&setup, calls, CALLS, &bad) != TB_OK)
        exit(1);
    return now() - begin;
}

static long most_memory(void) {
    struct rusage used;
    getrusage(RUSAGE_SELF, &used);
    return used.ru_maxrss;
}

/* Sessions, tenants and heap traces in a loop. */
static void turns(long many) {
    static const char script[] =
        "admit 1 image 1 input 0 seed 0000000000000001 frames 24 out 16\nslice 1 200\n";
    static const tb_heap_setup setup = {1, 64, 0, 1, 0};
    static uint8_t report[256];
    const tb_bytes file = {terms.image, terms.image_length};
    for (long i = 0; i < many; i++) {
        tb_session_end end;
        uint64_t bad;
        lone();
        if (tb_session(30, (const uint8_t *)script, sizeof script - 1, &file, 1, report,
                       sizeof report, &end) != TB_OK ||
            tb_heap_replay(&setup, calls, 100, &bad) != TB_OK)
            exit(1);
    }
}

int main(int argc, char **argv) {
    const long many = argc > 1 ? atol(argv[1]) : 20000;
    terms = (tb_terms){image, make_image(image), image, 0, slices, 1, 1, 24, 16, 0, 0};
    const double empty = least(of_lone, 400);
    slices[0] = 1000;
    printf("a tenant of 136 steps and 24 pages: %.2f us, without its steps %.2f us\n",
           least(of_lone, 400) * 1e6, empty * 1e6);
    printf("a read: %.1f ns, over two pages %.1f ns; ", of_access(false, DATA),
           of_access(false, DATA + 4096 - 7));
    printf("a write: %.1f ns, over two pages %.1f ns\n", of_access(true, DATA),
           of_access(true, DATA + 4096 - 7));
    printf("a page that is mapped and unmapped: %.1f ns\n", least(of_mapping, 100) * 1e9);
    printf("a traced access: %.1f ns over the run\n",
           (least(of_trace, 100) - least(of_run, 100)) / (STEPS / 5 * 4) * 1e9);
    draw(CALLS);
    printf("heap calls: %.2f million a second\n", CALLS / least(of_replay, 5) / 1e6);
    draw(100);
    turns(500);
    const long before = most_memory();
    turns(many);
    printf("%ld sessions, tenants and heap traces: %ld KiB more\n", many, most_memory() - before);
    return 0;
}
