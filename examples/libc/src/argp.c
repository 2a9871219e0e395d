/* Parsing by <argp.h>: the options of a tree of parsers, and the calls of each parser. The names
   are weak, since programs may have their own. */
#define _GNU_SOURCE
#include <stdint.h>
#include <stdlib.h>
#include <string.h>
#include <unistd.h>
#include "argp_parts.h"

weak const char *argp_program_version;
weak void (*argp_program_version_hook)(FILE *, struct argp_state *);
weak const char *argp_program_bug_address;
weak error_t argp_err_exit_status = 64;

/* One parser of the tree. `above` is the one that has it as a child, or null. */
struct part {
    const struct argp *argp;
    void *input, **child_inputs, *hook;
    unsigned args;
    struct part *above;
    int place;
};

/* A parsing. The plain words from `plain` to `plain_end` were passed over, and come in front of the
   next word once the options between are done; `rest` is what is left of a word of short
   options. */
struct parsing {
    struct argp_state state;
    struct part *parts;
    int count, plain, plain_end, is_over;
    const char *rest;
};

/* An option of the tree, with the one that it is an alias of. */
struct found {
    struct part *part;
    const struct argp_option *option, *real;
};

enum { NAME_KEY = -2, HANG_KEY = -3, USAGE_KEY = -4 };

static const struct argp_option help_options[] = {
    {"help", '?', NULL, 0, "Give this help list", -1},
    {"usage", USAGE_KEY, NULL, 0, "Give a short usage message", 0},
    {"program-name", NAME_KEY, "NAME", OPTION_HIDDEN, NULL, 0},
    {"HANG", HANG_KEY, "SECS", OPTION_ARG_OPTIONAL | OPTION_HIDDEN, NULL, 0},
    {0},
};

static const struct argp_option version_options[] = {
    {"version", 'V', NULL, 0, "Print program version", -1},
    {0},
};

static char *base_name(char *path)
{
    char *slash = strrchr(path, '/');
    return slash ? slash + 1 : path;
}

static error_t help_parser(int key, char *arg, struct argp_state *state)
{
    if (key == '?')
        argp_state_help(state, state->out_stream, ARGP_HELP_STD_HELP);
    else if (key == USAGE_KEY)
        argp_state_help(state, state->out_stream, ARGP_HELP_USAGE | ARGP_HELP_EXIT_OK);
    else if (key == NAME_KEY) {
        program_invocation_name = arg;
        program_invocation_short_name = state->name = base_name(arg);
        if ((state->flags & (ARGP_PARSE_ARGV0 | ARGP_NO_ERRS)) == ARGP_PARSE_ARGV0)
            state->argv[0] = arg;
    } else if (key != HANG_KEY)
        return ARGP_ERR_UNKNOWN;
    return 0;
}

static error_t version_parser(int key, char *arg, struct argp_state *state)
{
    (void)arg;
    if (key != 'V')
        return ARGP_ERR_UNKNOWN;
    if (argp_program_version_hook)
        argp_program_version_hook(state->out_stream, state);
    else
        fprintf(state->out_stream, "%s\n", argp_program_version);
    if (!(state->flags & ARGP_NO_EXIT))
        exit(0);
    return 0;
}

static const struct argp help_argp = {.options = help_options, .parser = help_parser};
static const struct argp version_argp = {.options = version_options, .parser = version_parser};

/* The parsers of a tree, each in front of its children: their number. Without `parts` they are
   only counted. */
static int list_parts(const struct argp *argp, struct part *parts, int at, struct part *above)
{
    int self = at++, place = 0;
    if (parts)
        parts[self] = (struct part){argp, NULL, NULL, NULL, 0, above, 0};
    for (const struct argp_child *child = argp->children; child && child->argp; child++) {
        int first = at;
        at = list_parts(child->argp, parts, at, parts ? &parts[self] : NULL);
        if (parts)
            parts[first].place = place++;
    }
    return at;
}

static int children_of(const struct argp *argp)
{
    int count = 0;
    while (argp->children && argp->children[count].argp)
        count++;
    return count;
}

/* What a parser answers to a key. */
static error_t call(struct parsing *parsing, struct part *part, int key, char *arg)
{
    struct argp_state *state = &parsing->state;
    if (!part->argp->parser)
        return ARGP_ERR_UNKNOWN;
    state->input = part->input;
    state->child_inputs = part->child_inputs;
    state->hook = part->hook;
    state->arg_num = part->args;
    error_t error = part->argp->parser(key, arg, state);
    part->hook = state->hook;
    return error;
}

/* Calls all parsers, children last or first, up to the first error. */
static error_t call_all(struct parsing *parsing, int key, int has_children_first)
{
    error_t error = 0;
    for (int i = 0; i < parsing->count && (!error || error == ARGP_ERR_UNKNOWN); i++) {
        int at = has_children_first ? parsing->count - 1 - i : i;
        error = call(parsing, &parsing->parts[at], key, NULL);
    }
    return error == ARGP_ERR_UNKNOWN ? 0 : error;
}

static error_t begin(struct parsing *parsing)
{
    error_t error = 0;
    for (int at = 0; at < parsing->count && !error; at++) {
        struct part *part = &parsing->parts[at];
        if (part->above)
            part->input = part->above->child_inputs[part->place];
        /* One that is not called gives its input to its first child. */
        if (!part->argp->parser && children_of(part->argp))
            part->child_inputs[0] = part->input;
        error = call(parsing, part, ARGP_KEY_INIT, NULL);
        if (error == ARGP_ERR_UNKNOWN)
            error = 0;
    }
    return error;
}

/* The next option of a tree behind `found`, or the first where its part is null. */
static int next_option(const struct parsing *parsing, struct found *found)
{
    struct part *part = found->part ? found->part : parsing->parts;
    const struct argp_option *at = found->part ? found->option + 1 : part->argp->options;
    for (;;) {
        if (at && !argp_is_end(at))
            break;
        if (++part == parsing->parts + parsing->count)
            return 0;
        at = part->argp->options;
    }
    if (!(at->flags & OPTION_ALIAS) || found->part != part)
        found->real = at;
    found->part = part;
    found->option = at;
    return 1;
}

static int is_option(const struct found *found)
{
    const struct argp_option *option = found->option;
    return (option->name || option->key) && !(found->real->flags & OPTION_DOC);
}

static int find_short(const struct parsing *parsing, int key, struct found *found)
{
    *found = (struct found){NULL, NULL, NULL};
    while (next_option(parsing, found))
        if (is_option(found) && argp_is_short(found->option) && found->option->key == key)
            return 1;
    return 0;
}

static int has_value(const struct found *found)
{
    return found->real->arg != NULL;
}

static int may_lack_value(const struct found *found)
{
    return (found->real->flags & OPTION_ARG_OPTIONAL) != 0;
}

/* What the parser is called with: of an alias without a key it is that of the other. */
static int key_of(const struct found *found)
{
    return found->option->key ? found->option->key : found->real->key;
}

/* Whether two long names mean the same. */
static int is_same(const struct found *one, const struct found *other)
{
    return one->part == other->part && key_of(one) == key_of(other)
           && has_value(one) == has_value(other)
           && (!has_value(one) || may_lack_value(one) == may_lack_value(other));
}

/* Whether the tree has no option of the same name in front. */
static int is_first(const struct parsing *parsing, const struct found *found)
{
    struct found at = {NULL, NULL, NULL};
    while (next_option(parsing, &at) && at.option != found->option)
        if (is_option(&at) && at.option->name && !strcmp(at.option->name, found->option->name))
            return 0;
    return 1;
}

/* How many options a name, which may be abbreviated, is of; the first of them. */
static int find_long(
    const struct parsing *parsing, const char *name, size_t size, struct found *first)
{
    struct found at = {NULL, NULL, NULL};
    int count = 0;
    while (next_option(parsing, &at)) {
        if (!is_option(&at) || !at.option->name || strncmp(at.option->name, name, size))
            continue;
        if (!at.option->name[size]) {
            *first = at;
            return 1;
        }
        if (!count)
            *first = at;
        if (!count || (!is_same(first, &at) && is_first(parsing, &at)))
            count++;
    }
    return count;
}

/* Says what is wrong with an option, and ends. */
static error_t fail(const struct parsing *parsing, const char *form, const char *word, int size)
{
    const struct argp_state *state = &parsing->state;
    if (!(state->flags & ARGP_NO_ERRS) && form) {
        fprintf(stderr, "%s: ", state->argv[0]);
        fprintf(stderr, form, size, word);
    }
    argp_state_help(state, state->err_stream, ARGP_HELP_STD_ERR);
    return EINVAL;
}

static error_t fail_ambiguously(
    const struct parsing *parsing, const char *word, const char *name, size_t size)
{
    const struct argp_state *state = &parsing->state;
    struct found at = {NULL, NULL, NULL};
    if (state->flags & ARGP_NO_ERRS)
        return fail(parsing, NULL, NULL, 0);
    const char *dashes = word[1] == '-' ? "--" : "-";
    fprintf(stderr, "%s: option '%s' is ambiguous; possibilities:", state->argv[0], word);
    while (next_option(parsing, &at))
        if (is_option(&at) && at.option->name && !strncmp(at.option->name, name, size)
            && is_first(parsing, &at))
            fprintf(stderr, " '%s%s'", dashes, at.option->name);
    fputc('\n', stderr);
    return fail(parsing, NULL, NULL, 0);
}

/* The first long name of the options that a key of a parser has. */
static const char *name_of_key(const struct parsing *parsing, const struct found *found)
{
    struct found at = {NULL, NULL, NULL};
    while (next_option(parsing, &at))
        if (is_option(&at) && at.part == found->part && key_of(&at) == key_of(found)
            && at.option->name && is_first(parsing, &at))
            return at.option->name;
    return found->option->name;
}

static error_t take(struct parsing *parsing, const struct found *found, char *value, int is_long)
{
    error_t error = call(parsing, found->part, key_of(found), value);
    if (error != ARGP_ERR_UNKNOWN)
        return error;
    const char *text = "(PROGRAM ERROR) Option should have been recognized!?";
    if (is_long)
        argp_error(&parsing->state, "--%s: %s",
                   name_of_key(parsing, found), text);
    else
        argp_error(&parsing->state, "-%c: %s", found->option->key, text);
    return fail(parsing, NULL, NULL, 0);
}

/* The next option of a word of short ones. */
static error_t parse_short(struct parsing *parsing)
{
    struct argp_state *state = &parsing->state;
    struct found found;
    const char *letter = parsing->rest++;
    char *value = NULL;
    if (!*parsing->rest) {
        parsing->rest = NULL;
        state->next++;
    }
    if (!find_short(parsing, *letter, &found))
        return fail(parsing, "invalid option -- '%.*s'\n", letter, 1);
    if (has_value(&found)) {
        value = (char *)parsing->rest;
        if (value) {
            parsing->rest = NULL;
            state->next++;
        } else if (!may_lack_value(&found)) {
            if (state->next == state->argc)
                return fail(parsing, "option requires an argument -- '%.*s'\n", letter, 1);
            value = state->argv[state->next++];
        }
    }
    return take(parsing, &found, value, 0);
}

/* A long option that was found, in the word in front. */
static error_t parse_long(struct parsing *parsing, const struct found *found, char *equals)
{
    struct argp_state *state = &parsing->state;
    const char *dashes = state->argv[state->next - 1][1] == '-' ? "--" : "-";
    char *value = equals ? equals + 1 : NULL;
    const char *form = NULL;
    if (equals && !has_value(found))
        form = "option '%.*s%s' doesn't allow an argument\n";
    else if (!equals && has_value(found) && !may_lack_value(found)) {
        if (state->next < state->argc)
            value = state->argv[state->next++];
        else
            form = "option '%.*s%s' requires an argument\n";
    }
    if (!form)
        return take(parsing, found, value, 1);
    if (!(state->flags & ARGP_NO_ERRS)) {
        fprintf(stderr, "%s: ", state->argv[0]);
        fprintf(stderr, form, 2, dashes, found->option->name);
    }
    return fail(parsing, NULL, NULL, 0);
}

/* A word that begins with `-`: short options, or a long one. */
static error_t parse_option(struct parsing *parsing)
{
    struct argp_state *state = &parsing->state;
    char *word = state->argv[state->next];
    struct found found;
    int has_two = word[1] == '-';
    int is_long_only = (state->flags & ARGP_LONG_ONLY) != 0;
    int is_short = find_short(parsing, word[1], &found);
    if (!has_two && (!is_long_only || (is_short && !word[2]))) {
        parsing->rest = word + 1;
        return parse_short(parsing);
    }
    char *name = word + 1 + has_two, *equals = strchr(name, '=');
    size_t size = equals ? (size_t)(equals - name) : strlen(name);
    int count = find_long(parsing, name, size, &found);
    if (!count && !has_two && is_short) {
        parsing->rest = word + 1;
        return parse_short(parsing);
    }
    state->next++;
    if (!count)
        return fail(parsing, "unrecognized option '%.*s'\n", word, (int)strlen(word));
    if (count > 1)
        return fail_ambiguously(parsing, word, name, size);
    return parse_long(parsing, &found, equals);
}

/* Hands the next argument to the first parser that takes it, alone or with all that follow. */
static error_t parse_argument(struct parsing *parsing)
{
    struct argp_state *state = &parsing->state;
    int at = state->next;
    for (int i = 0; i < parsing->count; i++) {
        struct part *part = &parsing->parts[i];
        state->next = at + 1;
        error_t error = call(parsing, part, ARGP_KEY_ARG, state->argv[at]);
        int is_rest = error == ARGP_ERR_UNKNOWN;
        if (is_rest) {
            state->next = at;
            error = call(parsing, part, ARGP_KEY_ARGS, NULL);
            if (!error && state->next == at)
                state->next = state->argc;
        }
        if (error == ARGP_ERR_UNKNOWN)
            continue;
        if (!error && state->next > at)
            part->args += (unsigned)(state->next - at);
        return error;
    }
    state->next = at;
    return ARGP_ERR_UNKNOWN;
}

static void reverse(char **words, int begin, int end)
{
    while (begin < --end) {
        char *word = words[begin];
        words[begin++] = words[end];
        words[end] = word;
    }
}

/* Moves the plain words that were passed over behind the options that followed them. */
static void move_plain(struct parsing *parsing)
{
    char **words = parsing->state.argv;
    int begin = parsing->plain, middle = parsing->plain_end, end = parsing->state.next;
    if (begin < middle && middle < end) {
        reverse(words, begin, middle);
        reverse(words, middle, end);
        reverse(words, begin, end);
    }
    parsing->plain = begin < middle ? begin + end - middle : end;
    parsing->plain_end = end;
}

static int is_plain(const struct parsing *parsing)
{
    const char *word = parsing->state.argv[parsing->state.next];
    return word[0] != '-' || !word[1];
}

/* Goes on to the next option; whether there is one. In front of it may be plain words. */
static int find_option(struct parsing *parsing)
{
    struct argp_state *state = &parsing->state;
    int is_fixed = (state->flags & (ARGP_NO_ARGS | ARGP_IN_ORDER)) || getenv("POSIXLY_CORRECT");
    if (state->next > state->argc)
        return 0;
    move_plain(parsing);
    while (!is_fixed && state->next < state->argc && is_plain(parsing))
        parsing->plain_end = ++state->next;
    if (state->next < state->argc && !strcmp(state->argv[state->next], "--")) {
        state->next++;
        move_plain(parsing);
        state->next = parsing->plain;
        parsing->is_over = 1;
    } else if (state->next < state->argc && !is_plain(parsing))
        return 1;
    else if (parsing->plain < parsing->plain_end)
        state->next = parsing->plain;
    parsing->is_over |= state->next == state->argc || !(state->flags & ARGP_IN_ORDER);
    /* A value `--` of the last option counts too, as in GNU's library. */
    if (parsing->is_over && state->next > 1 && !strcmp(state->argv[state->next - 1], "--"))
        state->quoted = state->next;
    return 0;
}

/* Parses what comes next, up to the end or an error. */
static error_t parse_all(struct parsing *parsing)
{
    struct argp_state *state = &parsing->state;
    error_t error = 0;
    while (!error) {
        if (parsing->rest)
            error = parse_short(parsing);
        else if (!parsing->is_over && find_option(parsing))
            error = parse_option(parsing);
        else if (state->next >= state->argc || (parsing->is_over && (state->flags & ARGP_NO_ARGS)))
            break;
        else
            error = parse_argument(parsing);
    }
    return error;
}

/* The last calls of parsers that took what there was. */
static error_t end(struct parsing *parsing)
{
    error_t error = 0;
    for (int at = 0; at < parsing->count && !error; at++)
        if (!parsing->parts[at].args) {
            error = call(parsing, &parsing->parts[at], ARGP_KEY_NO_ARGS, NULL);
            error = error == ARGP_ERR_UNKNOWN ? 0 : error;
        }
    return error ? error : call_all(parsing, ARGP_KEY_END, 1);
}

static error_t conclude(struct parsing *parsing, error_t error, int *arg_index)
{
    struct argp_state *state = &parsing->state;
    int has_rest = state->next != state->argc;
    if (!error && !has_rest)
        error = end(parsing);
    else if (arg_index && (!error || error == ARGP_ERR_UNKNOWN))
        error = 0;
    else if (!error || error == ARGP_ERR_UNKNOWN) {
        argp_error(state, "Too many arguments");
        error = EINVAL;
    }
    if (!error && arg_index)
        *arg_index = state->next;
    if (error)
        call_all(parsing, ARGP_KEY_ERROR, 0);
    else
        error = call_all(parsing, ARGP_KEY_SUCCESS, 1);
    call_all(parsing, ARGP_KEY_FINI, 1);
    return error == ARGP_ERR_UNKNOWN ? EINVAL : error;
}

static void set_state(struct parsing *parsing, const struct argp *root, unsigned flags)
{
    struct argp_state *state = &parsing->state;
    int has_name = !(flags & ARGP_PARSE_ARGV0);
    state->root_argp = root;
    state->flags = flags;
    state->err_stream = stderr;
    state->out_stream = stdout;
    state->pstate = parsing;
    state->name = has_name && state->argc && state->argv[0] ? base_name(state->argv[0])
                                                           : program_invocation_short_name;
    parsing->plain = parsing->plain_end = has_name && state->argc;
}

/* Makes the parsers of a tree with room for the inputs of their children, and parses. */
static error_t parse(struct parsing *parsing, int *arg_index, void *input)
{
    int count = parsing->count = list_parts(parsing->state.root_argp, NULL, 0, NULL);
    struct part *parts = calloc((size_t)count, sizeof *parts + sizeof(void *));
    if (!parts)
        return ENOMEM;
    void **inputs = (void **)(parts + count);
    list_parts(parsing->state.root_argp, parts, 0, NULL);
    for (int at = 0; at < count; at++) {
        parts[at].child_inputs = inputs;
        inputs += children_of(parts[at].argp);
    }
    parts[0].input = input;
    parsing->parts = parts;
    error_t error = begin(parsing);
    parsing->state.next = parsing->plain;
    if (!error)
        error = conclude(parsing, parse_all(parsing), arg_index);
    free(parts);
    return error;
}

weak error_t argp_parse(
    const struct argp *argp, int argc, char **argv, unsigned flags, int *arg_index, void *input)
{
    static const struct argp none;
    struct parsing parsing = {.state = {.argc = argc, .argv = argv}};
    argp = argp ? argp : &none;
    int has_version = argp_program_version || argp_program_version_hook;
    const struct argp *version = has_version ? &version_argp : NULL;
    struct argp_child children[] = {{argp}, {&help_argp}, {version}, {0}};
    struct argp top = {.children = children};
    if (!(flags & ARGP_NO_ERRS))
        flags &= ~ARGP_PARSE_ARGV0;
    set_state(&parsing, flags & ARGP_NO_HELP ? argp : &top, flags);
    return parse(&parsing, arg_index, input);
}

hidden void *__argp_input(const struct argp *argp, const struct argp_state *state)
{
    const struct parsing *parsing = state ? state->pstate : NULL;
    for (int at = 0; parsing && at < parsing->count; at++)
        if (parsing->parts[at].argp == argp)
            return parsing->parts[at].input;
    return NULL;
}
