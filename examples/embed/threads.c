/*
 * Many sessions at once: each of eight threads runs every session that is named, by tb_session, and
 * compares its report with what is wanted. A session is a folder with the files args (the words of
 * mte_host's command line), want.out and those that args names.
 * usage: threads FOLDER...
 */
#include <pthread.h>
#include <stdio.h>
#include <stdlib.h>
#include <string.h>

#include "tombolopan.h"

enum { THREADS = 8, FILES = 512, ROOM = 1 << 22 };

typedef struct session {
    const char *name;
    uint32_t frames;
    tb_bytes script;
    tb_bytes files[FILES];
    size_t count;
    tb_bytes wanted;
} session;

static session *sessions;
static size_t session_count;

static tb_bytes read_file(const char *folder, const char *name) {
    char path[4096];
    tb_bytes whole;
    uint8_t *bytes = (uint8_t *)malloc(ROOM);
    snprintf(path, sizeof path, "%s/%s", folder, name);
    FILE *file = fopen(path, "rb");
    if (file == NULL || bytes == NULL) {
        fprintf(stderr, "threads: cannot read %s\n", path);
        exit(2);
    }
    whole.length = fread(bytes, 1, ROOM, file);
    whole.bytes = (uint8_t *)realloc(bytes, whole.length + 1);
    fclose(file);
    return whole;
}

/* The session of a folder: the words of args are --frames, N, the script and the files. */
static void read_session(const char *folder, session *it) {
    char path[4096], word[4096];
    snprintf(path, sizeof path, "%s/args", folder);
    FILE *args = fopen(path, "r");
    if (args == NULL) {
        fprintf(stderr, "threads: cannot read %s\n", path);
        exit(2);
    }
    it->name = folder;
    it->count = 0;
    for (int i = 0; fgets(word, sizeof word, args) != NULL; i++) {
        word[strcspn(word, "\n")] = 0;
        if (i == 1) {
            it->frames = (uint32_t)strtoul(word, NULL, 10);
        } else if (i == 2) {
            it->script = read_file(folder, word);
        } else if (i > 2 && it->count < FILES) {
            it->files[it->count++] = read_file(folder, word);
        }
    }
    fclose(args);
    it->wanted = read_file(folder, "want.out");
}

/* Whether a session gives what is wanted; `report` has room for ROOM bytes. */
static int is_as_wanted(const session *it, uint8_t *report) {
    tb_session_end end;
    uint32_t code = tb_session(it->frames, it->script.bytes, it->script.length, it->files,
                               it->count, report, ROOM, &end);
    if (code == TB_SCRIPT) {
        return it->wanted.length == 0;
    }
    return code == TB_OK && end.length == it->wanted.length
           && memcmp(report, it->wanted.bytes, it->wanted.length) == 0;
}

static void *run_all(void *first) {
    uint8_t *report = (uint8_t *)malloc(ROOM);
    size_t same = 0;
    for (size_t i = 0; report != NULL && i < session_count; i++) {
        const session *it = &sessions[(i + (size_t)first) % session_count];
        if (is_as_wanted(it, report)) {
            same++;
        } else {
            fprintf(stderr, "threads: %s differs\n", it->name);
        }
    }
    free(report);
    return (void *)same;
}

int main(int argc, char **argv) {
    pthread_t threads[THREADS];
    size_t same = 0;
    session_count = (size_t)argc - 1;
    sessions = (session *)calloc(session_count + 1, sizeof(session));
    for (size_t i = 0; i < session_count; i++) {
        read_session(argv[i + 1], &sessions[i]);
    }
    /* Each thread begins with another session, so that different ones meet. */
    for (size_t i = 0; i < THREADS; i++) {
        pthread_create(&threads[i], NULL, run_all, (void *)(i * session_count / THREADS));
    }
    for (size_t i = 0; i < THREADS; i++) {
        void *count;
        pthread_join(threads[i], &count);
        same += (size_t)count;
    }
    printf("%d threads: %zu of %zu as wanted\n", THREADS, same, THREADS * session_count);
    return same == THREADS * session_count ? 0 : 1;
}
