/* Runs an image from its snapshot over some inputs, each in one slice and in short ones, and writes
   how each run ended, a sum of all that is told of that, and one of its counts of edges.

       edges IMAGE SETUP EDGES CUT INPUT... */
#include <stdio.h>
#include <stdlib.h>
#include <string.h>

#include "tombolopan.h"

enum { ROOM = 1 << 20, CUTS = 64, WHOLE = 1 << 20 };

static uint8_t image[ROOM], given[4096], counts[65536];
static uint32_t cuts[CUTS + 1];
static tb_fuzz fuzz;

static size_t read_file(const char *name, uint8_t *bytes, size_t room) {
    FILE *file = fopen(name, "rb");
    size_t length;
    if (file == NULL)
        exit(2);
    length = fread(bytes, 1, room, file);
    fclose(file);
    return length;
}

static unsigned long long sum_of(const void *bytes, size_t length) {
    unsigned long long sum = 0xcbf29ce484222325;
    for (size_t i = 0; i < length; i++)
        sum = (sum ^ ((const uint8_t *)bytes)[i]) * 0x100000001b3;
    return sum;
}

static void run(size_t length, size_t first, size_t edges) {
    tb_fuzz_input input = {given, length, cuts + first, CUTS + 1 - first, 1, 0};
    tb_alone_end end;
    uint32_t code;
    memset(&end, 0, sizeof end);
    memset(counts, 0, sizeof counts);
    code = tb_fuzz_run(&fuzz, &input, counts, edges, &end);
    printf("%u %u %llu %llx %llx\n", (unsigned)code, (unsigned)end.status.status,
           (unsigned long long)end.steps, sum_of(&end, sizeof end), sum_of(counts, edges));
}

int main(int count, char **words) {
    const uint32_t setup = count < 6 ? 0 : (uint32_t)atoi(words[2]);
    const size_t edges = count < 6 ? 0 : (size_t)atoi(words[3]);
    tb_terms terms = {image, 0, given, 0, &setup, 1, 1, 256, 65536, 0, 0};
    tb_alone_end end;
    if (count < 6)
        return 2;
    terms.image_length = read_file(words[1], image, sizeof image);
    for (size_t i = 0; i < CUTS; i++)
        cuts[i] = (uint32_t)atoi(words[4]);
    cuts[CUTS] = WHOLE;
    if (tb_fuzz_new(&terms, &fuzz, &end) != TB_OK)
        return 3;
    for (int at = 5; at < count; at++) {
        const size_t length = read_file(words[at], given, sizeof given);
        run(length, CUTS, edges);
        run(length, 0, edges);
    }
    tb_fuzz_free(&fuzz);
    return 0;
}
