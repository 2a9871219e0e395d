/*
 * libtombolopan_c.a: why a tenant ended, as `mte_run` tells it, from bytes to bytes in memory; and
 * how much work a tenant's slices are.
 *
 * The rules of tombolopan.h hold: no pointer is null, all memory is the caller's, nothing is kept
 * between calls, and any number of threads may call at once. What is told is in no contract.
 */
#ifndef TOMBOLOPAN_EXPLAIN_H
#define TOMBOLOPAN_EXPLAIN_H

#include "tombolopan.h"

#ifdef __cplusplus
extern "C" {
#endif

/* The forms of an answer. */
enum tb_answer_form {
    TB_ANSWER_REPORT = 0,  /* the lines that mte_run writes on standard error */
    TB_ANSWER_OUTPUT = 1,  /* the tenant's output */
    TB_ANSWER_JSON = 2,    /* the document of --json */
    TB_ANSWER_SARIF = 3,   /* the log of --sarif */
    TB_ANSWER_PAGE = 4,    /* the page of --html */
    TB_ANSWER_PICTURE = 5, /* the picture of --map */
    TB_ANSWER_PROFILE = 6, /* the counts of --profile */
};

/*
 * An image, what it may read, the name that is told as that of its file, and options of a command
 * line of mte_run, one word a line ("--check\n--steps\n1000000\n"). Options that name files, and
 * --trace, --services, --script and --gdb are refused.
 */
typedef struct tb_question {
    const uint8_t *image;
    size_t image_length;
    const uint8_t *input;
    size_t input_length;
    const char *name;
    size_t name_length;
    const char *options;
    size_t options_length;
    uint32_t form; /* tb_answer_form */
} tb_question;

/* How an explanation ended. */
typedef struct tb_explain_end {
    uint64_t length; /* how many bytes the whole answer has */
    uint64_t steps;  /* how many instructions the tenant attempted */
    uint32_t code;   /* a tb_code */
    uint32_t status; /* the status that mte_run exits with */
} tb_explain_end;

/* How much work a tenant alone did. */
typedef struct tb_work_end {
    uint64_t slices;  /* how many of its slices it ran */
    uint64_t steps;   /* how many instructions it attempted in them */
    uint64_t bytes;   /* how many bytes its services touched */
    uint64_t work;    /* steps, and one for each 2048 of these bytes */
    uint64_t before;  /* the work before the last of these slices */
    uint32_t code;    /* what tb_work answered */
    uint32_t running; /* 1 where it would go on with a next slice, else 0 */
} tb_work_end;

TB_ASSERT(sizeof(tb_question) == 72 && offsetof(tb_question, form) == 64);
TB_ASSERT(sizeof(tb_explain_end) == 24 && offsetof(tb_explain_end, code) == 16);
TB_ASSERT(sizeof(tb_work_end) == 48 && offsetof(tb_work_end, code) == 40);

/*
 * Runs an image alone, and copies as much as `answer` holds of what mte_run tells of it, from its
 * start; what is behind stays. TB_OK where it holds all; TB_NO_ROOM where it does not: end->length
 * tells how long the whole answer is. TB_BAD_ARGUMENT where the options are no command line, and
 * for another form: the answer says what is wrong. TB_OUT_OF_MEMORY.
 * It takes its memory by malloc, and frees it again, as a process of mte_run does.
 */
uint32_t tb_explain(const tb_question *question, uint8_t *answer, size_t room,
                    tb_explain_end *end);

/*
 * Runs a tenant alone for its slices, as tb_alone does, while it is running and has done less than
 * `most` work, and tells how much it did. No slice is cut short, so the last one may pass `most`.
 * The bytes that services touch are those that are written and read, and of each chunk that is made
 * its size, with the alignment of memalign; this pays for its end too. TB_OK, TB_REFUSED,
 * TB_OUT_OF_MEMORY: with these two all else in `end` is 0.
 */
uint32_t tb_work(const tb_terms *terms, uint64_t most, tb_work_end *end);

#ifdef __cplusplus
}
#endif

#endif
