/* Runs the image that is named many times from its snapshot, and writes what each call answered.
   fuzzed.rs writes the same. */
#include <stdio.h>
#include <stdlib.h>
#include <string.h>

#include "tombolopan.h"

static uint8_t image[65536], counts[512];
static tb_comparison places[512];
static tb_fuzz fuzz;
static tb_fuzz_finding none;

static void tell(const char *what, uint32_t code, const tb_alone_end *end) {
    unsigned sum = 0;
    for (size_t i = 0; i < sizeof counts; i++)
        sum += counts[i];
    printf("%s %u %u %u %llu %u %u\n", what, (unsigned)code, (unsigned)end->code,
           (unsigned)end->status.status, (unsigned long long)end->steps,
           (unsigned)end->status.number, sum);
}

/* The run whose comparisons are entered, how many are, and whether one's instruction is read. */
static void compare(const tb_fuzz_input *input, size_t length) {
    tb_comparisons compared = {(const uint64_t *)places, 0, places, length};
    tb_alone_end end;
    uint8_t bytes[4];
    unsigned entered = 0;
    uint64_t at = 0;
    memset(&end, 0xee, sizeof end);
    memset(counts, 0, sizeof counts);
    memset(places, 0, sizeof places);
    tell("compared", tb_fuzz_run_compared(&fuzz, input, counts, length, &compared, &end), &end);
    for (size_t i = 0; i < 512; i++) {
        entered += places[i].kind != 0;
        if (places[i].kind != 0 && at == 0)
            at = places[i].pc;
    }
    printf("entered %u %u\n", entered, (unsigned)tb_fuzz_read(&fuzz, at, bytes, 4));
}

static void run(const char *text, size_t length, size_t map_length) {
    const uint32_t slice = 100000;
    uint8_t *given = (uint8_t *)malloc(length > 0 ? length : 1);
    tb_fuzz_input input;
    tb_alone_end end;
    tb_fuzz_finding found;
    if (given == NULL)
        exit(9);
    memcpy(given, text, length);
    memset(&end, 0xee, sizeof end);
    memset(counts, 0, sizeof counts);
    input.input = given;
    input.input_length = length;
    input.slices = &slice;
    input.slice_count = 1;
    input.saturating = 1;
    input.unused = 0;
    tell("run", tb_fuzz_run(&fuzz, &input, counts, map_length, &end), &end);
    memset(&end, 0xee, sizeof end);
    memset(&found, 0xee, sizeof found);
    memset(counts, 0, sizeof counts);
    tell("exact", tb_fuzz_run_exact(&fuzz, &input, counts, map_length, &end, &found), &end);
    if (memcmp(&found, &none, sizeof found) != 0)
        exit(8);
    compare(&input, map_length);
    free(given);
}

static uint32_t make(size_t length, uint32_t pages) {
    const uint32_t setup = 100000;
    tb_terms terms;
    tb_alone_end end;
    memset(&end, 0xee, sizeof end);
    memset(counts, 0, sizeof counts);
    terms.image = image;
    terms.image_length = length;
    terms.input = image;
    terms.input_length = 0;
    terms.slices = &setup;
    terms.slice_count = 1;
    terms.seed = 1;
    terms.pages = pages;
    terms.room = 16;
    terms.asynchronous = 0;
    terms.unused = 0;
    const uint32_t code = tb_fuzz_new(&terms, &fuzz, &end);
    tell("new", code, &end);
    return code;
}

int main(int argc, char **argv) {
    FILE *file = argc == 2 ? fopen(argv[1], "rb") : NULL;
    if (file == NULL)
        return 9;
    const size_t length = fread(image, 1, sizeof image, file);
    fclose(file);
    run("A", 1, 256);
    make(length, 0);
    run("A", 1, 256);
    make(length, 64);
    run("CARD", 4, 256);
    run("CARDD\00212", 8, 512);
    run("", 0, 512);
    run("CARD", 4, 511);
    run("CARD", 4, 128);
    make(length, 24);
    run("CARDN\003abc", 9, 512);
    tb_fuzz_free(&fuzz);
    run("CARD", 4, 256);
    tb_fuzz_free(&fuzz);
    make(length, 24);
    tb_fuzz_free(&fuzz);
    return 0;
}
