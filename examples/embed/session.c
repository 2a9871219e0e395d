/*
 * A session from C and C++: the command line of mte_host, its report and its status, by tb_session.
 * usage: session --frames N SCRIPT FILE...
 */
#include <stdio.h>
#include <stdlib.h>
#include <string.h>

#include "tombolopan.h"

/* All bytes of a file; the program ends where it cannot be read. */
static tb_bytes read_file(const char *name) {
    FILE *file = fopen(name, "rb");
    uint8_t *bytes = NULL;
    tb_bytes whole;
    size_t room = 0, length = 0, count = 1;
    while (file != NULL && count > 0) {
        if (length == room) {
            room = 2 * room + 4096;
            bytes = (uint8_t *)realloc(bytes, room);
            if (bytes == NULL) {
                exit(4);
            }
        }
        count = fread(bytes + length, 1, room - length, file);
        length += count;
    }
    if (file == NULL || ferror(file)) {
        fprintf(stderr, "mte_host: cannot read %s\n", name);
        exit(5);
    }
    fclose(file);
    whole.bytes = bytes;
    whole.length = length;
    return whole;
}

/* The line for standard error, and the exit status. */
static int finish(const tb_session_end *end) {
    if (end->code == TB_SCRIPT) {
        fprintf(stderr, "mte_host: script line %llu: %s\n", (unsigned long long)end->line,
                tb_script_fault_name(end->fault));
        return 3;
    }
    if (end->code == TB_OUT_OF_MEMORY) {
        fprintf(stderr, "mte_host: out of memory\n");
        return 4;
    }
    return end->code == TB_OK ? 0 : 2;
}

int main(int argc, char **argv) {
    if (argc < 4 || strcmp(argv[1], "--frames") != 0) {
        return 2;
    }
    const unsigned long frames = strtoul(argv[2], NULL, 10);
    if (frames > UINT32_MAX) {
        return 2;
    }
    const size_t count = (size_t)argc - 4;
    tb_bytes *files = (tb_bytes *)malloc((count + 1) * sizeof(tb_bytes));
    const tb_bytes script = read_file(argv[3]);
    for (size_t i = 0; i < count; i++) {
        files[i] = read_file(argv[4 + i]);
    }

    tb_session_end end;
    size_t room = 4096;
    uint8_t *report = (uint8_t *)malloc(room);
    uint32_t code = tb_session((uint32_t)frames, script.bytes, script.length, files, count, report,
                               room, &end);
    if (code == TB_NO_ROOM) {
        room = (size_t)end.length;
        report = (uint8_t *)realloc(report, room);
        code = tb_session((uint32_t)frames, script.bytes, script.length, files, count, report,
                          room, &end);
    }
    if (code == TB_OK) {
        fwrite(report, 1, (size_t)end.length, stdout);
    }
    free(report);
    for (size_t i = 0; i < count; i++) {
        free((void *)files[i].bytes);
    }
    free((void *)script.bytes);
    free(files);
    return finish(&end);
}
