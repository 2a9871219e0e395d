/* Options by argp: parsing, help and usage, children, groups, a filter, and each way to end. */
#define _GNU_SOURCE
#include <argp.h>
#include <errno.h>
#include <stdio.h>
#include <stdlib.h>
#include <string.h>
#include <unistd.h>

struct totals {
    int level, sizes;
    const char *output;
};

static const struct argp_option places[] = {
    {"directory", 'C', "DIR", 0, "Change to DIR", 0},
    {"chdir", 0, NULL, OPTION_ALIAS, NULL, 0},
    {"size", 's', "BYTES", OPTION_ARG_OPTIONAL, "The size, which may be left out", 0},
    {0},
};

static error_t parse_place(int key, char *arg, struct argp_state *state)
{
    struct totals *totals = state->input;
    if (key == 'C' || key == 's')
        printf("place %c %s\n", key, arg ? arg : "none");
    else if (key != ARGP_KEY_INIT && key != ARGP_KEY_FINI)
        return ARGP_ERR_UNKNOWN;
    if (key == 's')
        totals->sizes += arg ? atoi(arg) : 1;
    return 0;
}

static char *name_level(int key, const char *text, void *input)
{
    char *made;
    if (key == ARGP_KEY_HELP_EXTRA)
        return strdup("A text of the filter, behind all others.");
    if (key != 'v')
        return (char *)text;
    int level = input ? ((struct totals *)input)->level : -1;
    return asprintf(&made, "%s (now %d)", text, level) < 0 ? NULL : made;
}

static const struct argp_option modes[] = {
    {NULL, 0, NULL, 0, "Modes:", 5},
    {"fast", 'f', NULL, 0, "Do it fast", 0},
    {"slow", 501, NULL, 0, "Do it slowly, which has a text that is far too long for one line", 0},
    {"mode-that-has-a-long-name", 502, "NAME", 0, "Do it in another way", 0},
    {0},
};

static error_t parse_mode(int key, char *arg, struct argp_state *state)
{
    (void)arg;
    (void)state;
    if (key == 'f' || key == 501 || key == 502)
        printf("mode %d\n", key);
    else
        return ARGP_ERR_UNKNOWN;
    return 0;
}

static const struct argp_option own[] = {
    {"verbose", 'v', NULL, 0, "Say more", 0},
    {"quiet", 'q', NULL, 0, "Say nothing", 0},
    {"silent", 'Q', NULL, OPTION_ALIAS, NULL, 0},
    {"output", 'o', "FILE", 0, "Write to FILE\ninstead of standard output", 0},
    {"fail", 'x', "NUMBER", 0, "Fail with NUMBER", -1},
    {"secret", 600, NULL, OPTION_HIDDEN, "Nobody knows", 0},
    {"unlisted", 601, NULL, OPTION_NO_USAGE, "In the help alone", 0},
    {"FILE...", 0, NULL, OPTION_DOC, "What is read, or standard input", 9},
    {0},
};

static error_t parse_own(int key, char *arg, struct argp_state *state)
{
    struct totals *totals = state->input;
    switch (key) {
    case ARGP_KEY_INIT:
        state->child_inputs[0] = totals;
        return 0;
    case 'v':
        totals->level++;
        return 0;
    case 'q':
    case 'Q':
        totals->level = 0;
        return 0;
    case 'o':
        totals->output = arg;
        return 0;
    case 'x':
        argp_failure(state, 0, atoi(arg), "told to fail by %s", arg);
        return atoi(arg);
    case 600:
    case 601:
        argp_error(state, "option %d is not for you", key);
        return 0;
    case ARGP_KEY_ARG:
        printf("argument %u %s\n", state->arg_num, arg);
        return state->arg_num < 3 ? 0 : ARGP_ERR_UNKNOWN;
    case ARGP_KEY_NO_ARGS:
        puts("no arguments");
        return 0;
    case ARGP_KEY_END:
        printf("end at %d of %d, quoted %d\n", state->next, state->argc, state->quoted);
        return 0;
    case ARGP_KEY_SUCCESS:
    case ARGP_KEY_ERROR:
        puts(key == ARGP_KEY_ERROR ? "error" : "success");
        return 0;
    }
    return ARGP_ERR_UNKNOWN;
}

static const struct argp place_argp = {
    places, parse_place, "PLACE", "Places.\vOf places.", NULL, NULL, NULL};
static const struct argp mode_argp = {modes, parse_mode, NULL, NULL, NULL, NULL, NULL};
static const struct argp_child children[] = {
    {&place_argp, 0, "Places:", 3}, {&mode_argp, 0, NULL, 0}, {0}};
static const struct argp argp = {
    own, parse_own, "FILE...\n-f WORD", "A program that has options of all kinds, and a text about "
    "them that goes on over the end of a line.\vWhat comes behind the options.", children,
    name_level, NULL};

static void try(unsigned flags, const char *line)
{
    char *words[20], *text = strdup(line);
    int count = 0, index = -1;
    struct totals totals = {0, 0, "none"};
    for (char *word = strtok(text, " "); word; word = strtok(NULL, " "))
        words[count++] = word;
    words[count] = NULL;
    printf("--- %s\n", line);
    int *place = flags ? &index : NULL;
    int error = argp_parse(&argp, count, words, flags | ARGP_NO_EXIT, place, &totals);
    printf("%d at %d: %d %d %s\n", error, index, totals.level, totals.sizes, totals.output);
    for (int i = 0; i < count; i++)
        printf("[%s]", words[i]);
    puts("");
    free(text);
}

static void show_version(FILE *stream, struct argp_state *state)
{
    fprintf(stream, "%s of today\n", state->name);
}

static const char *const lines[] = {
    "options", "options -vvo file one --size=5 two -s -- -v --", "options --out=a --verb --si --s",
    "options one two three four", "options -ofile -vs7 -C / --chdir=/tmp -Qf --slow", "options -o",
    "options --output", "options --quiet=1", "options -n", "options --none", "options --help",
    "options -x 2 more", "options --secret", "options --program-name=other --usage",
    "/usr/bin/options --version", "options - -v",
};

int main(void)
{
    dup2(1, 2);
    setvbuf(stdout, NULL, _IONBF, 0);
    argp_program_version = "options 1.0";
    argp_program_bug_address = "<nobody@example.org>";
    for (size_t i = 0; i < sizeof lines / sizeof *lines; i++) {
        program_invocation_name = program_invocation_short_name = "options";
        try(0, lines[i]);
    }
    argp_program_version_hook = show_version;
    try(ARGP_IN_ORDER, "options one -v two -- -v three four");
    try(ARGP_NO_ARGS, "options -v one -v");
    try(ARGP_NO_ERRS, "options -v --none");
    try(ARGP_NO_HELP, "options -? --help");
    try(ARGP_LONG_ONLY, "options -verb -o x -out=y -fast -v");
    try(ARGP_LONG_ONLY, "options -V");
    setenv("POSIXLY_CORRECT", "1", 1);
    try(ARGP_SILENT, "options -v one -v");
    argp_help(&argp, stdout, ARGP_HELP_STD_HELP | ARGP_HELP_USAGE, "named");
    argp_help(&argp, stdout, ARGP_HELP_SEE | ARGP_HELP_BUG_ADDR, "named");
    char *last[] = {"options", "-x", "0", "-C", NULL};
    return argp_parse(&argp, 4, last, 0, NULL, &(struct totals){0, 0, NULL});
}
