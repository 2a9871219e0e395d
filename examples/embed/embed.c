/*
 * A program that embeds the library: it lends it three places for pages, loads five instruction
 * words into one of them, runs them over a tagged buffer, and shows what a tag that differs does.
 * Then it makes heap calls, and runs the tenant of the image that it is given.
 * usage: embed IMAGE
 */
#include <inttypes.h>
#include <stdio.h>
#include <string.h>

#include "tombolopan.h"

enum { PLACES = 3 };

static const uint64_t CODE = 0x10000;
static const uint64_t DATA = 0x20000;

/* Stores x2, x2 + 1, .. at x0, x1 numbers of 8 bytes. */
static const uint32_t WORDS[] = {
    0xf8008402, /* loop: str x2, [x0], #8 */
    0x91000442, /*       add x2, x2, #1 */
    0xf1000421, /*       subs x1, x1, #1 */
    0x54ffffa1, /*       b.ne loop */
    0xd4000001, /*       svc #0 */
};

static tb_page pages[PLACES];
static tb_tag_state state;

/* Zero in all fields, in C and in C++. */
static tb_access no_access;
static tb_fault no_fault;
static tb_regs no_regs;
static tb_stop no_stop;

static uint64_t with_tag(uint64_t address, unsigned tag) {
    return address | (uint64_t)tag << 56;
}

static void tell(const char *what, const tb_stop *stop, const tb_regs *regs) {
    printf("%s: %s, %" PRIu64 " steps left, pc %#" PRIx64 ", x1 %" PRIu64 "\n", what,
           tb_text(stop->code), stop->left, regs->pc, regs->x[1]);
    if (stop->code == TB_FAULT) {
        printf("  fault %s at %#" PRIx64 ", write %" PRIu32 ", pointer tag %" PRIu32
               ", memory tag %" PRIu32 "\n",
               tb_fault_kind_name(stop->fault.kind), stop->fault.addr, stop->fault.write,
               stop->fault.ptr_tag, stop->fault.mem_tag);
    }
}

/* Runs the loop from its start for `count` numbers. */
static void store(const char *what, uint64_t count) {
    tb_regs regs = no_regs;
    tb_stop stop = no_stop;
    regs.pc = CODE;
    regs.x[0] = with_tag(DATA, 5);
    regs.x[1] = count;
    tb_run(pages, PLACES, &state, &regs, 100, &stop);
    tell(what, &stop, &regs);
}

/* Ranges of pages in a memory of their own: all of a range or none. */
static void map_ranges(void) {
    static tb_page own[PLACES];
    printf("ranges: %s", tb_text(tb_map_range(own, PLACES, 16, 2, TB_READ)));
    printf(", %s", tb_text(tb_map_range(own, PLACES, 15, 2, TB_READ)));
    printf(", %s", tb_text(tb_map_range(own, PLACES, 32, 2, TB_READ)));
    printf(", %s", tb_text(tb_map_range(own, PLACES, ((uint64_t)1 << 44) - 1, 2, TB_READ)));
    printf(", %s", tb_text(tb_map_range(own, PLACES, 32, 1, TB_READ)));
    printf(", %s\n", tb_text(tb_unmap(own, PLACES, 15)));
}

/* The loop for three numbers, its stores entered in an array of two: it stops before the third, and
   goes on when the array is empty again. A run over a copy leaves the same. */
static void trace(void) {
    static tb_page copy[PLACES];
    tb_access entries[2] = {no_access, no_access};
    tb_accesses accesses = {entries, 2, 0};
    tb_regs regs = no_regs, others;
    tb_stop stop = no_stop;
    regs.pc = CODE;
    regs.x[0] = with_tag(DATA, 5);
    regs.x[1] = 3;
    regs.x[2] = 70;
    others = regs;
    memcpy(copy, pages, sizeof copy);
    do {
        accesses.count = 0;
        tb_trace(pages, PLACES, &state, &regs, 100, &accesses, &stop);
        printf("trace: %s, %" PRIu64 " steps left\n", tb_text(stop.code), stop.left);
        for (size_t i = 0; i < accesses.count; i++)
            printf("  pc %#" PRIx64 ": word %" PRIx32 ", write %" PRIu32 " of %" PRIu32
                   " bytes at %#" PRIx64 ", memory tag %" PRIu32 ", value %" PRIu64 "\n",
                   entries[i].pc, entries[i].word, entries[i].write, entries[i].size,
                   entries[i].addr, entries[i].mem_tag, entries[i].value[0]);
    } while (stop.code == TB_NO_ROOM);
    tb_run(copy, PLACES, &state, &others, 100, &stop);
    printf("  as a run: %d %d\n", memcmp(copy, pages, sizeof copy) == 0,
           memcmp(&others, &regs, sizeof regs) == 0);
}

/* How many bytes loads and stores access, by their words. */
static void tell_sizes(void) {
    static const uint32_t words[] = {
        0xf9400022, /* ldr x2, [x1] */
        0xb9000022, /* str w2, [x1] */
        0x39400022, /* ldrb w2, [x1] */
        0x79800022, /* ldrsh x2, [x1] */
        0xa9001022, /* stp x2, x4, [x1] */
        0x29401022, /* ldp w2, w4, [x1] */
        0x69401022, /* ldpsw x2, x4, [x1] */
        0x69001022, /* stgp x2, x4, [x1] */
        0x58000102, /* ldr x2, .+32 */
        0x18000102, /* ldr w2, .+32 */
        0x98000102, /* ldrsw x2, .+32 */
        0xd9600022, /* ldg x2, [x1] */
        0xd9600821, /* stzg x1, [x1] */
        0xd9e00821, /* stz2g x1, [x1] */
    };
    printf("sizes:");
    for (size_t i = 0; i < sizeof words / sizeof words[0]; i++)
        printf(" %" PRIu32, tb_access_size(words[i]));
    printf("\n");
}

/* The text of each code, and the names of what codes do not say. */
static void tell_texts(void) {
    for (uint32_t i = 0; i < 16; i++)
        printf("%" PRIu32 ": %s; %s, %s, %s, %s, %s\n", i, tb_text(i), tb_fault_kind_name(i),
               tb_heap_abort_name(i), tb_script_fault_name(i), tb_refusal_name(i),
               tb_tenant_status_name(i));
}

/* A chunk is stored to, loaded, freed, loaded again and freed again. */
static void use_a_heap(void) {
    static const tb_heap_setup setup = {1, 64, 0, 1, 0};
    static const uint64_t CHUNK = 0x0100000012000010;
    static tb_heap_call calls[] = {
        {TB_MALLOC, 0, 24, 0, 0, {0, 0, 0, 0, 0}},
        {TB_STORE, 0, CHUNK, 42, 0, {0, 0, 0, 0, 0}},
        {TB_LOAD, 0, CHUNK, 0, 0, {0, 0, 0, 0, 0}},
        {TB_FREE, 0, CHUNK, 0, 0, {0, 0, 0, 0, 0}},
        {TB_LOAD, 0, CHUNK, 0, 0, {0, 0, 0, 0, 0}},
        {TB_FREE, 0, CHUNK, 0, 0, {0, 0, 0, 0, 0}},
        {0, 0, 0, 0, 0, {0, 0, 0, 0, 0}},
    };
    size_t count = sizeof calls / sizeof calls[0];
    printf("heap calls: %" PRIu32 "\n", tb_heap_calls(&setup, calls, count));
    for (size_t i = 0; i < count; i++)
        printf("  op %" PRIu32 ": code %" PRIu32 ", answer 0x%" PRIx64 ", fault %" PRIu32
               ", memory tag %" PRIu32 "\n",
               calls[i].op, calls[i].code, calls[i].answer, calls[i].fault.kind,
               calls[i].fault.mem_tag);
    tb_heap_setup wrong = setup;
    wrong.pages = 4097;
    printf("too many pages: %" PRIu32 "\n", tb_heap_calls(&wrong, calls, count));
}

/* Runs the tenant of an image alone: with room for its output, without, and of half its image. */
static void use_a_tenant(const char *name) {
    static uint8_t image[1 << 16];
    static const uint32_t slices[] = {5, 100};
    static tb_terms terms;
    static tb_alone_end end;
    uint8_t output[16] = {0};
    tb_kept_call calls[1];
    FILE *file = fopen(name, "rb");
    terms.image = image;
    terms.image_length = file == NULL ? 0 : fread(image, 1, sizeof image, file);
    terms.input = image;
    terms.slices = slices;
    terms.slice_count = 2;
    terms.seed = 1;
    terms.pages = 5;
    terms.room = sizeof output;
    if (file != NULL)
        fclose(file);
    printf("tenant: %" PRIu32, tb_alone(&terms, output, sizeof output, calls, 1, &end));
    printf(", status %" PRIu32 " number %" PRIu32, end.status.status, end.status.number);
    printf(", %" PRIu64 " steps, %" PRIu64 " heap calls, wrote %.*s\n", end.steps, end.calls,
           (int)end.output, (const char *)output);
    printf("no room: %" PRIu32, tb_alone(&terms, output, 1, calls, 0, &end));
    printf(", it wrote %" PRIu64 " bytes\n", end.output);
    terms.image_length = 63;
    printf("half an image: %" PRIu32, tb_alone(&terms, output, 1, calls, 0, &end));
    printf(", refusal %" PRIu32 "\n", end.refusal);
}

/* A session whose script has a faulty line, and one on a host without frames. */
static void use_sessions(void) {
    static const uint8_t script[] = "# no event\nslice 1\n";
    static const tb_bytes no_files[] = {{NULL, 0}};
    uint8_t report[1];
    tb_session_end end;
    printf("script: %" PRIu32,
           tb_session(1, script, sizeof script - 1, no_files, 0, report, 1, &end));
    printf(", line %" PRIu64 ", fault %" PRIu32 "\n", end.line, end.fault);
    printf("no frames: %" PRIu32 "\n", tb_session(0, script, 0, no_files, 0, report, 1, &end));
    printf("no events: %" PRIu32, tb_session(1, script, 0, no_files, 0, report, 1, &end));
    printf(", a report of %" PRIu64 " bytes\n", end.length);
}

int main(int argc, char **argv) {
    tb_fault fault = no_fault;
    tb_regs regs = no_regs;
    tb_stop stop = no_stop;
    uint8_t tag = 0;
    uint8_t bytes[32] = {0};

    if (argc != 2 || tb_version() != TB_VERSION)
        return 1;
    printf("version %" PRIu32 "\n", tb_version());
    tb_memory_init(pages, PLACES, &state, false);
    printf("map: %" PRIu32, tb_map(pages, PLACES, CODE / 4096, TB_READ | TB_EXEC));
    printf(" %" PRIu32, tb_map(pages, PLACES, DATA / 4096, TB_READ | TB_WRITE | TB_TAGGED));
    printf(" again %" PRIu32, tb_map(pages, PLACES, DATA / 4096, TB_READ));
    printf(" attributes %" PRIu32 "\n", tb_map(pages, PLACES, 1, 16));

    /* The code page may be loaded, and not written. */
    uint8_t code[sizeof WORDS];
    for (size_t i = 0; i < sizeof code; i++)
        code[i] = (uint8_t)(WORDS[i / 4] >> 8 * (i % 4));
    printf("load: %" PRIu32, tb_load(pages, PLACES, &state, CODE, code, sizeof code));
    printf(" %" PRIu32 "\n", tb_load(pages, PLACES, &state, CODE + 4092, code, sizeof code));
    printf("write to code: %" PRIu32,
           tb_write(pages, PLACES, &state, CODE, bytes, sizeof bytes, true, &fault));
    printf(", fault %" PRIu32 "\n", fault.kind);

    /* Two granules of 16 bytes get the tag 5; the third keeps 0. */
    static const tb_tag_store tags = {DATA, 2, 5, 0};
    printf("tags: %" PRIu32, tb_store_tags(pages, PLACES, &state, &tags, &fault));
    printf(" %" PRIu32, tb_load_tag(pages, PLACES, &state, DATA + 31, &tag, &fault));
    printf(" tag %u\n", (unsigned)tag);

    store("four numbers", 4);
    printf("read: %" PRIu32,
           tb_read(pages, PLACES, &state, with_tag(DATA, 5), bytes, sizeof bytes, true, &fault));
    printf(", last number %u\n", (unsigned)bytes[24]);
    printf("read by another tag: %" PRIu32,
           tb_read(pages, PLACES, &state, with_tag(DATA, 6), bytes, sizeof bytes, true, &fault));
    printf(", fault %" PRIu32 "\n", fault.kind);

    /* To the second store and to the instruction behind the loop. */
    static const uint64_t stops[] = {0x10000, 0x10010};
    regs.pc = CODE;
    regs.x[0] = with_tag(DATA, 5);
    regs.x[1] = 2;
    for (int i = 0; i < 3; i++) {
        tb_run_until(pages, PLACES, &state, &regs, 100, stops, 2, &stop);
        tell("until", &stop, &regs);
    }

    trace();
    store("five numbers", 5);
    state.asynchronous = 1;
    store("five numbers, asynchronous", 5);
    printf("pending %" PRIu32 "\n", state.pending);

    regs.pc = CODE + 20;
    printf("step: %" PRIu32, tb_step(pages, PLACES, &state, &regs, &stop));
    printf(", word %" PRIu32 "\n", stop.number);
    printf("unmap: %" PRIu32, tb_unmap(pages, PLACES, CODE / 4096));
    printf(" %" PRIu32 "\n", tb_unmap(pages, PLACES, CODE / 4096));
    store("no code", 1);
    use_a_heap();
    use_a_tenant(argv[1]);
    use_sessions();
    map_ranges();
    tell_sizes();
    tell_texts();
    return 0;
}
