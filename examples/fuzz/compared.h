/* What a tenant compares, for fuzzers that ask for it. */
#ifndef COMPARED_H
#define COMPARED_H

#include <tombolopan.h>

/* The bytes of a text that are told, and the places that numbers are told from. */
enum { TEXT = 64, SITES = 4096 };

/* How a function compares its texts. */
enum compared_how { OF_LENGTH, TO_ZERO, TO_ZERO_OF_LENGTH, WITHIN };

/*
 * Two numbers that were compared, of 1, 2, 4 or 8 bytes: as many as both need, but 4 at least where
 * the registers have 8. Or two texts, where `width` is 0: zeros follow what can be read.
 */
typedef struct compared {
    uint64_t pc, step;
    uint64_t left, right;
    uint64_t length; /* of texts OF_LENGTH or TO_ZERO_OF_LENGTH */
    unsigned width;
    enum compared_how how;
    uint8_t left_text[TEXT], right_text[TEXT];
} compared;

typedef void compared_hook(const compared *it);

/* Looks for memcmp, strcmp and such among the symbols of an image. */
void compared_load(const uint8_t *image, size_t length);

/* Places without a comparison, for a run. */
tb_comparisons *compared_clear(void);

/*
 * Tells what the last run of a machine compared. The texts are those that it left, or by `again`,
 * which is run once more for each call, those that it was called with.
 */
void compared_tell(tb_fuzz *fuzz, const tb_fuzz_input *again, compared_hook *hook);

/*
 * Calls a function that takes the address it returns to for that of a comparison, from one of SITES
 * addresses, by a key.
 */
void compared_call(uint64_t key, void *function, uint64_t left, uint64_t right, uint64_t third);

#endif
