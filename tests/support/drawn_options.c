/* Parses the command lines of its input by tables that were drawn, and writes all that it sees. A
   command line is `T TABLE FLAGS`, or `H TABLE FLAGS` for a help; each word of it is a line that
   begins with `+`. */
#define _GNU_SOURCE
#include <argp.h>
#include <errno.h>
#include <stdio.h>
#include <stdlib.h>
#include <string.h>
#include <unistd.h>

enum { WORDS = 32, WORD = 128, OWN_FLAGS = 0xfff, HAS_VERSION = 0x1000, HAS_BUGS = 0x2000,
       HAS_INDEX = 0x4000 };

/* How many arguments a parser takes, whether it takes the rest, and wants some. */
struct rule {
    int takes, takes_rest, needs, children;
};

static error_t act(int self, int key, char *arg, struct argp_state *state);
static char *alter(int self, int key, const char *text);

#include "tables.h"

static void show(int self, int key, const char *arg, const struct argp_state *state)
{
    int input = state->input ? (int)(*(char *)state->input) : -1;
    const char *name = key == ARGP_KEY_INIT ? "none" : state->name;
    printf("%d: %x <%s> next %d number %u quoted %d input %d name %s\n", self, (unsigned)key,
           arg ? arg : "null", state->next, state->arg_num, state->quoted, input, name);
}

static error_t do_word(int key, const char *arg, struct argp_state *state)
{
    if (!strcmp(arg, "usage"))
        argp_usage(state);
    else if (!strcmp(arg, "error"))
        argp_error(state, "bad value %d of %s", key, arg);
    else if (!strncmp(arg, "fail", 4))
        argp_failure(state, atoi(arg + 4), arg[4] & 1 ? ENOENT : 0, "failed by %s", arg);
    else if (!strncmp(arg, "help", 4))
        argp_state_help(state, state->out_stream, (unsigned)strtol(arg + 4, NULL, 16));
    else if (!strcmp(arg, "unknown"))
        return ARGP_ERR_UNKNOWN;
    else if (!strcmp(arg, "invalid"))
        return EINVAL;
    else if (!strcmp(arg, "next"))
        state->next += state->next < state->argc;
    else if (!strcmp(arg, "all"))
        state->next = state->argc;
    return 0;
}

static error_t act(int self, int key, char *arg, struct argp_state *state)
{
    static char inputs[] = {0, 1, 2, 3, 4, 5, 6, 7};
    const struct rule *rule = &rules[self];
    show(self, key, arg, state);
    switch (key) {
    case ARGP_KEY_INIT:
        for (int i = 0; i < rule->children; i++)
            state->child_inputs[i] = &inputs[(self + i) % 8];
        return 0;
    case ARGP_KEY_ARGS:
        return rule->takes_rest ? 0 : ARGP_ERR_UNKNOWN;
    case ARGP_KEY_ARG:
        if (state->arg_num >= (unsigned)rule->takes)
            return ARGP_ERR_UNKNOWN;
        break;
    case ARGP_KEY_NO_ARGS:
        if (rule->needs)
            argp_usage(state);
        return 0;
    case ARGP_KEY_END:
        if (rule->needs && state->arg_num < 2)
            argp_error(state, "too few arguments");
        return 0;
    }
    return arg ? do_word(key, arg, state) : 0;
}

/* A text is left out, left as it is, or changed. GNU's library reads lines of arguments from a text
   that it freed, so those stay. */
static char *alter(int self, int key, const char *text)
{
    char *made;
    if (key == ARGP_KEY_HELP_EXTRA)
        return strdup("Words of the filter, of which there are enough for more than one line of "
                      "seventy-nine columns.");
    if (key % 7 == 0 && key < ARGP_KEY_HELP_PRE_DOC)
        return NULL;
    if (key % 3 == 1 || !text || key == ARGP_KEY_HELP_ARGS_DOC)
        return (char *)text;
    return asprintf(&made, "%s (%d)", text, self) < 0 ? NULL : made;
}

static int read_words(char **words)
{
    static char lines[WORDS][WORD];
    int count = 0, first;
    while ((first = getchar()) == '+') {
        if (count == WORDS || !fgets(lines[count], WORD, stdin))
            abort();
        lines[count][strcspn(lines[count], "\n")] = 0;
        words[count] = lines[count];
        count++;
    }
    ungetc(first, stdin);
    words[count] = NULL;
    return count;
}

static void try(char kind, int table, unsigned flags)
{
    char *words[WORDS + 1], input = 9;
    int count = read_words(words), index = -1;
    program_invocation_name = program_invocation_short_name = "drawn";
    argp_program_version = flags & HAS_VERSION ? "drawn 1.0" : NULL;
    argp_program_bug_address = flags & HAS_BUGS ? "<bugs@example.org>" : NULL;
    printf("=== %c %d %x\n", kind, table, flags);
    if (kind == 'H') {
        argp_help(tables[table], stdout, flags & OWN_FLAGS, "drawn");
        return;
    }
    int *place = flags & HAS_INDEX ? &index : NULL;
    int error = argp_parse(tables[table], count, words, flags & OWN_FLAGS, place, &input);
    printf("error %d index %d:", error, index);
    for (int at = 0; at < count; at++)
        printf(" [%s]", words[at]);
    puts("");
}

int main(void)
{
    char kind;
    int table;
    unsigned flags;
    dup2(1, 2);
    setvbuf(stdout, NULL, _IOLBF, BUFSIZ);
    while (scanf(" %c %d %x\n", &kind, &table, &flags) == 3) {
        try(kind, table, flags);
        fflush(stdout);
    }
    return 0;
}
