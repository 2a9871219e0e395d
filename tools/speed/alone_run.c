/*
 * Runs a tenant alone by tb_alone, which counts no edges: its setup, and then a slice of STEPS.
 *
 *     alone_run IMAGE INPUT SETUP STEPS PAGES
 *
 * Its line has the steps of all slices.
 */
#include <stdio.h>
#include <stdlib.h>
#include <tombolopan.h>

enum { ROOM = 1 << 24, INPUT = 1 << 20, WRITTEN = 65536, CALLS = 64 };

static uint8_t image[ROOM], input[INPUT], output[WRITTEN];
static tb_kept_call calls[CALLS];

static size_t read_file(const char *name, uint8_t *bytes, size_t room)
{
    FILE *file = fopen(name, "rb");
    if (!file) {
        perror(name);
        exit(1);
    }
    const size_t length = fread(bytes, 1, room, file);
    fclose(file);
    return length;
}

int main(int count, char **words)
{
    if (count != 6) {
        fprintf(stderr, "usage: alone_run IMAGE INPUT SETUP STEPS PAGES\n");
        return 2;
    }
    const uint32_t slices[] = {(uint32_t)atol(words[3]), (uint32_t)atol(words[4])};
    const tb_terms terms = {image, read_file(words[1], image, ROOM),
                            input, read_file(words[2], input, INPUT), slices, 2, 1,
                            (uint32_t)atol(words[5]), WRITTEN, 0, 0};
    tb_alone_end end;
    if (tb_alone(&terms, output, WRITTEN, calls, CALLS, &end) != TB_OK) {
        fprintf(stderr, "%s: %s\n", words[1], tb_text(end.code));
        return 1;
    }
    printf("steps %llu\n", (unsigned long long)end.steps);
    return 0;
}
