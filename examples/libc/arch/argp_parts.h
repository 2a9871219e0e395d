/* What the files of argp, ../src/argp*.c, have in common. */
#ifndef ARGP_PARTS_H
#define ARGP_PARTS_H

#include <argp.h>
#include <stddef.h>
#include <features.h>

/* The first column that is not written, and the most bytes of a word that may have to move. */
enum { RIGHT_MARGIN = 79, WORD = RIGHT_MARGIN + 1 };

/* Text that is broken into lines: a line begins at `left`, one that goes on at `wrap`. Blanks and
   the word behind them wait until it is known whether the word has room. */
struct argp_page {
    FILE *to;
    int left, wrap, column, blanks, used, is_begun, is_empty;
    char word[WORD];
};

hidden void __argp_put(struct argp_page *page, const char *text, size_t size);
hidden void __argp_puts(struct argp_page *page, const char *text);
hidden void __argp_settle(struct argp_page *page);
hidden void __argp_margins(struct argp_page *page, int left, int wrap);
hidden int __argp_column(const struct argp_page *page);
hidden void __argp_pad(struct argp_page *page, int column);

static inline int argp_is_end(const struct argp_option *option)
{
    return !option->name && !option->key && !option->doc && !option->group;
}

/* Whether a short option is the option's key too. */
static inline int argp_is_short(const struct argp_option *option)
{
    return !(option->flags & OPTION_DOC) && option->key > ' ' && option->key < 0x7f;
}

/* The input of a parser of a state, for its filter. */
hidden void *__argp_input(const struct argp *argp, const struct argp_state *state);

#endif
