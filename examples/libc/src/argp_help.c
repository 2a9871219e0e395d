/* Help by <argp.h>: usage, options in their groups, and texts. The columns are those of GNU's
   manual. */
#define _GNU_SOURCE
#include <ctype.h>
#include <stdlib.h>
#include <string.h>
#include "argp_parts.h"

enum {
    SHORT_COLUMN = 2, LONG_COLUMN = 6, NAME_COLUMN = 2, TEXT_COLUMN = 29, HEADER_COLUMN = 1,
    USAGE_INDENT = 12, GAP = 3
};

/* A child whose options stand together; `place` is its place among the children of `argp`. */
struct cluster {
    const char *header;
    int group, place, depth;
    const struct cluster *above;
    const struct argp *argp;
};

/* An option with its aliases, which are the options that follow it in its table. */
struct entry {
    const struct argp_option *option;
    int count, group, place, letter;
    const struct cluster *cluster;
    const struct argp *argp;
};

struct help {
    struct argp_page page;
    const struct argp *root;
    const struct argp_state *state;
    const char *name;
    unsigned flags;
    struct entry *entries;
    const struct entry *last;
    const struct argp_option *owners[128];
    struct cluster *clusters;
    int count, cluster_count, parsers, is_begun, has_header, has_hidden_value, has_letters;
};

/* The text after a parser's filter, which is its own where the filter makes another one. */
static char *filtered(struct help *help, const struct argp *argp, int key, const char *text)
{
    if (!argp->help_filter)
        return (char *)text;
    return argp->help_filter(key, text, __argp_input(argp, help->state));
}

static void drop(char *text, const char *own)
{
    if (text != own)
        free(text);
}

static int is_header(const struct argp_option *option)
{
    return !option->name && !option->key;
}

static int is_shown(const struct argp_option *option)
{
    return !(option->flags & OPTION_HIDDEN);
}

/* Whether the first option of the tree with a short name is this one. */
static int has_short(const struct help *help, const struct argp_option *option)
{
    return argp_is_short(option) && help->owners[option->key] == option;
}

/* Counts options and parsers of a tree. */
static void count_all(struct help *help, const struct argp *argp)
{
    help->parsers++;
    for (const struct argp_option *at = argp->options; at && !argp_is_end(at); at++)
        help->count++;
    for (const struct argp_child *at = argp->children; at && at->argp; at++)
        count_all(help, at->argp);
}

static void list_options(struct help *help, const struct argp *argp, const struct cluster *cluster)
{
    int group = 0;
    for (const struct argp_option *at = argp->options; at && !argp_is_end(at); at++) {
        if (argp_is_short(at) && !help->owners[at->key])
            help->owners[at->key] = at;
        if ((at->flags & OPTION_ALIAS) && at != argp->options) {
            help->entries[help->count - 1].count++;
            continue;
        }
        group = at->group ? at->group : group + is_header(at);
        help->entries[help->count] = (struct entry){at, 1, group, help->count, 0, cluster, argp};
        help->count++;
    }
}

static void list_all(struct help *help, const struct argp *argp, const struct cluster *cluster)
{
    list_options(help, argp, cluster);
    for (const struct argp_child *at = argp->children; at && at->argp; at++) {
        const struct cluster *inner = cluster;
        if (at->header || at->group) {
            struct cluster *made = &help->clusters[help->cluster_count++];
            *made = (struct cluster){at->header, at->group, (int)(at - argp->children),
                                     cluster ? cluster->depth + 1 : 1, cluster, argp};
            inner = made;
        }
        list_all(help, at->argp, inner);
    }
}

/* The order of groups: 0, 1, 2 and so on, then the negative ones up to -1. */
static int by_group(int one, int other)
{
    return one == other ? 0 : (unsigned)one < (unsigned)other ? -1 : 1;
}

static const struct cluster *above_of(const struct cluster *cluster, int depth)
{
    while (cluster && cluster->depth > depth)
        cluster = cluster->above;
    return cluster;
}

/* The order of entries whose clusters differ. One that is in none is in front of the clusters of
   its group, the entries of a cluster are in front of those of clusters in it, and of two clusters
   of a group the later child comes first. Children of several parsers may have the same place, and
   are sorted as one then. */
static int by_cluster(const struct entry *one, const struct entry *other)
{
    const struct cluster *left = one->cluster, *right = other->cluster;
    int order;
    if (!left || !right) {
        order = by_group(left ? above_of(left, 1)->group : one->group,
                         right ? above_of(right, 1)->group : other->group);
        return order ? order : left ? 1 : -1;
    }
    int deeper = left->depth - right->depth, depth = deeper > 0 ? right->depth : left->depth;
    left = above_of(left, depth);
    right = above_of(right, depth);
    if (left == right)
        return deeper;
    while (left->above != right->above) {
        left = left->above;
        right = right->above;
    }
    order = by_group(left->group, right->group);
    if (!order)
        order = right->place - left->place;
    return order ? order : deeper;
}

static const char *long_of(const struct entry *entry)
{
    for (int i = 0; i < entry->count; i++)
        if (entry->option[i].name && is_shown(&entry->option[i]))
            return entry->option[i].name;
    return NULL;
}

/* A header with an alias that is shown is an option by that. */
static int is_title(const struct entry *entry)
{
    return is_header(entry->option) && !entry->letter && !long_of(entry);
}

/* The first letter of each entry that is shown. */
static void find_letters(struct help *help)
{
    for (int i = 0; i < help->count; i++)
        for (int j = 0; j < help->entries[i].count; j++) {
            const struct argp_option *option = &help->entries[i].option[j];
            if (!help->entries[i].letter && is_shown(option) && has_short(help, option))
                help->entries[i].letter = option->key;
        }
}

/* The first option of a name is with the last ones, where --help and --version are. */
static void move_to_end(struct help *help, const char *name)
{
    for (int i = 0; i < help->count; i++)
        for (int j = 0; j < help->entries[i].count; j++) {
            const char *own = help->entries[i].option[j].name;
            if (own && is_shown(&help->entries[i].option[j]) && !strcmp(own, name)) {
                help->entries[i].group = -1;
                return;
            }
        }
}

/* The name that a text among the options is sorted by. */
static const char *sorted_name(const struct entry *entry, int *is_text)
{
    const char *name = long_of(entry);
    *is_text = (entry->option->flags & OPTION_DOC) != 0;
    if (!*is_text || !name)
        return name ? name : "";
    while (isspace((unsigned char)*name))
        name++;
    *is_text = *name != '-';
    while (*name && !isalnum((unsigned char)*name))
        name++;
    return name;
}

static int by_name(const struct entry *one, const struct entry *other)
{
    int is_text[2];
    const char *names[] = {sorted_name(one, &is_text[0]), sorted_name(other, &is_text[1])};
    int letters[] = {one->letter, other->letter};
    if (is_text[0] != is_text[1])
        return is_text[0] - is_text[1];
    if (!letters[0] && !letters[1]) {
        int order = strcasecmp(names[0], names[1]);
        order = order ? order : strcmp(names[1], names[0]);
        return order ? order : one->place - other->place;
    }
    int first = letters[0] ? letters[0] : *names[0], second = letters[1] ? letters[1] : *names[1];
    int order = tolower(first) - tolower(second);
    if (!order)
        order = !islower(first) - !islower(second);
    if (!order)
        order = !letters[1] - !letters[0];
    return order ? order : one->place - other->place;
}

static int compare(const void *left, const void *right)
{
    const struct entry *one = left, *other = right;
    int order = one->cluster == other->cluster ? 0 : by_cluster(one, other);
    if (order || one->group != other->group)
        return order ? order : by_group(one->group, other->group);
    order = is_title(other) - is_title(one);
    if (order)
        return order;
    return is_title(one) ? one->place - other->place : by_name(one, other);
}

/* Makes the list of options, in the order of the help. */
static int list(struct help *help)
{
    count_all(help, help->root);
    help->entries = calloc((size_t)help->count + 1, sizeof *help->entries);
    help->clusters = calloc((size_t)help->parsers, sizeof *help->clusters);
    if (!help->entries || !help->clusters)
        return 0;
    help->count = 0;
    list_all(help, help->root, NULL);
    find_letters(help);
    move_to_end(help, "help");
    move_to_end(help, "version");
    qsort(help->entries, (size_t)help->count, sizeof *help->entries, compare);
    return 1;
}

static void put_line(struct help *help)
{
    __argp_puts(&help->page, "\n");
}

/* A line without text where there is text in front. */
static void put_gap(struct help *help)
{
    if (help->is_begun)
        put_line(help);
    help->is_begun = 1;
}

static void put_header(struct help *help, const struct argp *argp, const char *header)
{
    if (!*header)
        return;
    char *text = filtered(help, argp, ARGP_KEY_HELP_HEADER, header);
    if (text && *text) {
        put_gap(help);
        help->has_header = 1;
        __argp_margins(&help->page, HEADER_COLUMN, HEADER_COLUMN);
        __argp_puts(&help->page, text);
        __argp_margins(&help->page, 0, 0);
        put_line(help);
    }
    drop(text, header);
}

/* The header of an entry's cluster, where the entry in front is not in it. */
static void put_cluster(struct help *help, const struct cluster *cluster)
{
    const struct cluster *before = help->last ? help->last->cluster : NULL;
    if (!cluster || above_of(before, cluster->depth) == cluster)
        return;
    if (cluster->header)
        put_header(help, cluster->argp, cluster->header);
}

/* A comma between names, or the column of the first one. */
static void put_comma(struct help *help, int *count, int column)
{
    if ((*count)++)
        __argp_puts(&help->page, ", ");
    __argp_pad(&help->page, column);
}

/* The name of the value of an option: its own, or that of the one that it is an alias of. */
static const char *value_of(const struct argp_option *real, const struct argp_option *option)
{
    return option->arg ? option->arg : real->arg;
}

static void put_value(struct help *help, const char *value, int flags, int is_long)
{
    if (!value)
        return;
    int may_lack = (flags & OPTION_ARG_OPTIONAL) != 0;
    const char *before = is_long ? may_lack ? "[=" : "=" : may_lack ? "[" : " ";
    __argp_puts(&help->page, before);
    __argp_puts(&help->page, value);
    if (may_lack)
        __argp_puts(&help->page, "]");
}

/* The names of an entry. The name of a value is with the long ones, if there are any. */
static void put_names(struct help *help, const struct entry *entry)
{
    const struct argp_option *real = entry->option;
    int count = 0, is_text = (real->flags & OPTION_DOC) != 0;
    int has_long = long_of(entry) && !is_text;
    __argp_margins(&help->page, 0, LONG_COLUMN);
    for (int i = 0; i < entry->count; i++)
        if (is_shown(&real[i]) && has_short(help, &real[i])) {
            char name[] = {'-', (char)real[i].key, 0};
            put_comma(help, &count, SHORT_COLUMN);
            __argp_puts(&help->page, name);
            if (!has_long)
                put_value(help, real->arg, real->flags, 0);
            else if (real->arg)
                help->has_hidden_value = 1;
        }
    for (int i = 0; i < entry->count; i++)
        if (is_shown(&real[i]) && real[i].name) {
            put_comma(help, &count, is_text ? NAME_COLUMN : LONG_COLUMN);
            __argp_puts(&help->page, is_text ? "" : "--");
            __argp_puts(&help->page, real[i].name);
            if (!is_text)
                put_value(help, real->arg, real->flags, 1);
        }
}

/* The text of an entry, beside its names or below. */
static void put_doc(struct help *help, const struct entry *entry)
{
    const char *own = entry->option->doc;
    char *doc = filtered(help, entry->argp, entry->option->key, own);
    if (doc && *doc) {
        int column = __argp_column(&help->page);
        __argp_margins(&help->page, TEXT_COLUMN, TEXT_COLUMN);
        if (column > TEXT_COLUMN + GAP)
            put_line(help);
        else
            __argp_pad(&help->page, column >= TEXT_COLUMN ? column + GAP : TEXT_COLUMN);
        __argp_puts(&help->page, doc);
    }
    drop(doc, own);
    __argp_margins(&help->page, 0, 0);
    put_line(help);
}

static void put_entry(struct help *help, const struct entry *entry)
{
    const struct entry *last = help->last;
    if (is_title(entry)) {
        put_header(help, entry->argp, entry->option->doc);
        help->last = entry;
        return;
    }
    if (!entry->letter && !long_of(entry))
        return;
    if (last && last->group != entry->group && help->has_header)
        put_line(help);
    put_cluster(help, entry->cluster);
    help->is_begun = 1;
    help->last = entry;
    put_names(help, entry);
    put_doc(help, entry);
}

static void put_options(struct help *help)
{
    static const char note[] = "Mandatory or optional arguments to long options are also mandatory "
                               "or optional for any corresponding short options.";
    if (help->count && help->is_begun)
        put_line(help);
    help->is_begun = 0;
    for (int i = 0; i < help->count; i++)
        put_entry(help, &help->entries[i]);
    help->is_begun = 1;
    if (!help->has_hidden_value)
        return;
    char *text = filtered(help, help->root, ARGP_KEY_HELP_DUP_ARGS_NOTE, note);
    if (text && *text) {
        put_gap(help);
        __argp_puts(&help->page, text);
        put_line(help);
    }
    drop(text, note);
}

/* A blank in front of a text that stays in one line, where it has room. */
static void put_space(struct help *help, size_t size)
{
    int has_room = __argp_column(&help->page) + 1 + (int)size < RIGHT_MARGIN;
    __argp_puts(&help->page, has_room || !size ? " " : "\n");
}

typedef void put_option(
    struct help *help, const struct argp_option *real, const struct argp_option *option);

/* An option without a value; all of them are in one pair of brackets. */
static void put_letter(
    struct help *help, const struct argp_option *real, const struct argp_option *option)
{
    if (value_of(real, option) || !has_short(help, option))
        return;
    char name[] = {(char)option->key, 0};
    __argp_puts(&help->page, help->has_letters ? "" : " [-");
    __argp_puts(&help->page, name);
    help->has_letters = 1;
}

static void put_short(
    struct help *help, const struct argp_option *real, const struct argp_option *option)
{
    const char *value = value_of(real, option);
    int flags = real->flags | option->flags;
    if (!value || !has_short(help, option))
        return;
    char name[] = {'[', '-', (char)option->key, 0};
    put_space(help, flags & OPTION_ARG_OPTIONAL ? 0 : strlen("[-x ]") + strlen(value));
    __argp_puts(&help->page, name);
    put_value(help, value, flags, 0);
    __argp_puts(&help->page, "]");
}

static void put_long(
    struct help *help, const struct argp_option *real, const struct argp_option *option)
{
    if (!option->name)
        return;
    __argp_puts(&help->page, " [--");
    __argp_puts(&help->page, option->name);
    put_value(help, value_of(real, option), real->flags | option->flags, 1);
    __argp_puts(&help->page, "]");
}

/* Each option that --usage lists, in the order of the help. */
static void put_each(struct help *help, put_option *put)
{
    for (int i = 0; i < help->count; i++)
        for (int j = 0; j < help->entries[i].count; j++) {
            const struct argp_option *real = help->entries[i].option, *option = real + j;
            if (is_shown(option) && !((real->flags | option->flags) & OPTION_NO_USAGE))
                put(help, real, option);
        }
}

static void put_usage_options(struct help *help)
{
    put_each(help, put_letter);
    __argp_puts(&help->page, help->has_letters ? "]" : "");
    put_each(help, put_short);
    put_each(help, put_long);
}

static int has_lines(const struct argp *argp)
{
    return argp->args_doc && strchr(argp->args_doc, '\n');
}

/* The arguments of a tree. Of a text with lines it is the one of the next number of `line`. */
static void put_arguments(struct help *help, const struct argp *argp, int **line)
{
    const char *own = argp->args_doc;
    char *text = filtered(help, argp, ARGP_KEY_HELP_ARGS_DOC, own);
    int left = has_lines(argp) ? *(*line)++ : 0;
    if (text) {
        const char *begin = text;
        for (; left && strchr(begin, '\n'); left--)
            begin = strchr(begin, '\n') + 1;
        size_t size = strcspn(begin, "\n");
        put_space(help, size);
        __argp_put(&help->page, begin, size);
    }
    drop(text, own);
    for (const struct argp_child *at = argp->children; at && at->argp; at++)
        put_arguments(help, at->argp, line);
}

static void skip_lines(const struct argp *argp, int **line)
{
    *line += has_lines(argp);
    for (const struct argp_child *child = argp->children; child && child->argp; child++)
        skip_lines(child->argp, line);
}

/* Goes on to the next line of a text of arguments, those of children first. Whether there is one;
   else the first lines come again. */
static int next_lines(const struct argp *argp, int **line)
{
    const char *at = has_lines(argp) ? strchr(argp->args_doc, '\n') : NULL;
    int *own = at ? (*line)++ : NULL, count = 0, has_moved = 0;
    for (const struct argp_child *child = argp->children; child && child->argp; child++)
        if (has_moved)
            skip_lines(child->argp, line);
        else
            has_moved = next_lines(child->argp, line);
    if (has_moved || !at)
        return has_moved;
    for (; at; at = strchr(at + 1, '\n'))
        count++;
    *own = *own < count ? *own + 1 : 0;
    return *own > 0;
}

static void put_usage(struct help *help)
{
    int *lines = calloc((size_t)help->parsers, sizeof *lines), *line = lines;
    int is_first = 1, is_short = (help->flags & ARGP_HELP_SHORT_USAGE) != 0;
    if (!lines)
        return;
    do {
        __argp_margins(&help->page, 0, USAGE_INDENT);
        __argp_puts(&help->page, is_first ? "Usage: " : "  or:  ");
        __argp_puts(&help->page, help->name);
        __argp_margins(&help->page, USAGE_INDENT, USAGE_INDENT);
        if (!is_first || is_short)
            __argp_puts(&help->page, help->count ? " [OPTION...]" : "");
        else
            put_usage_options(help);
        line = lines;
        put_arguments(help, help->root, &line);
        __argp_margins(&help->page, 0, 0);
        put_line(help);
        is_first = 0;
        line = lines;
    } while (next_lines(help->root, &line));
    free(lines);
    help->is_begun = 1;
}

static void end_text(struct help *help)
{
    __argp_settle(&help->page);
    if (__argp_column(&help->page))
        put_line(help);
}

/* A text of a parser, in front of the options or behind them. */
static int put_text(struct help *help, const struct argp *argp, int is_post)
{
    const char *cut = argp->doc ? strchr(argp->doc, '\v') : NULL;
    /* A text that begins with the mark is in front too, with it, as GNU's library has it. */
    const char *own = is_post ? cut ? cut + 1 : NULL : argp->doc;
    int has_front = cut > argp->doc && !is_post;
    char *whole = has_front ? strndup(argp->doc, (size_t)(cut - argp->doc)) : NULL;
    int key = is_post ? ARGP_KEY_HELP_POST_DOC : ARGP_KEY_HELP_PRE_DOC;
    const char *given = whole ? whole : own;
    char *text = filtered(help, argp, key, given);
    int is_there = text != NULL;
    if (text && *text) {
        if (is_post)
            put_gap(help);
        help->is_begun = 1;
        __argp_puts(&help->page, text);
        end_text(help);
    }
    drop(text, given);
    free(whole);
    return is_there;
}

/* What a filter has to say besides. */
static void put_extra(struct help *help, const struct argp *argp)
{
    char *text = argp->help_filter ? filtered(help, argp, ARGP_KEY_HELP_EXTRA, NULL) : NULL;
    if (text && *text) {
        put_gap(help);
        __argp_puts(&help->page, text);
        end_text(help);
    }
    free(text);
}

/* The first text in front of the options, or all behind them; whether there was one. */
static int put_texts(struct help *help, const struct argp *argp, int is_post)
{
    int is_there = put_text(help, argp, is_post);
    if (is_post)
        put_extra(help, argp);
    const struct argp_child *at = argp->children;
    for (; at && at->argp && (is_post || !is_there); at++)
        is_there |= put_texts(help, at->argp, is_post);
    return is_there;
}

static void put_see(struct help *help)
{
    const char *parts[] = {
        "Try `", help->name, " --help' or `", help->name, " --usage' for more information.\n"};
    for (size_t i = 0; i < sizeof parts / sizeof *parts; i++)
        __argp_puts(&help->page, parts[i]);
}

static void put_all(struct help *help)
{
    if (help->flags & (ARGP_HELP_USAGE | ARGP_HELP_SHORT_USAGE))
        put_usage(help);
    if (help->flags & ARGP_HELP_PRE_DOC)
        put_texts(help, help->root, 0);
    if (help->flags & ARGP_HELP_SEE) {
        put_see(help);
        help->is_begun = 1;
    }
    if (help->flags & ARGP_HELP_LONG)
        put_options(help);
    if (help->flags & ARGP_HELP_POST_DOC)
        put_texts(help, help->root, 1);
    if ((help->flags & ARGP_HELP_BUG_ADDR) && argp_program_bug_address) {
        put_gap(help);
        __argp_puts(&help->page, "Report bugs to ");
        __argp_puts(&help->page, argp_program_bug_address);
        __argp_puts(&help->page, ".\n");
    }
}

static void put_help(
    const struct argp *argp, const struct argp_state *state, FILE *stream, unsigned flags,
    const char *name)
{
    struct help help = {.page = {.to = stream}, .root = argp, .state = state, .flags = flags};
    help.name = name;
    if (list(&help))
        put_all(&help);
    free(help.entries);
    free(help.clusters);
}

weak void argp_help(const struct argp *argp, FILE *stream, unsigned flags, char *name)
{
    put_help(argp, NULL, stream, flags, name);
}

weak void argp_state_help(const struct argp_state *state, FILE *stream, unsigned flags)
{
    static const struct argp none;
    if ((state && (state->flags & ARGP_NO_ERRS)) || !stream)
        return;
    if (state && (state->flags & ARGP_LONG_ONLY))
        flags |= ARGP_HELP_LONG_ONLY;
    put_help(state ? state->root_argp : &none, state, stream, flags,
             state ? state->name : program_invocation_short_name);
    if (state && (state->flags & ARGP_NO_EXIT))
        return;
    if (flags & ARGP_HELP_EXIT_ERR)
        exit(argp_err_exit_status);
    if (flags & ARGP_HELP_EXIT_OK)
        exit(0);
}

weak void argp_usage(const struct argp_state *state)
{
    argp_state_help(state, stderr, ARGP_HELP_STD_USAGE);
}

static FILE *begin_message(const struct argp_state *state)
{
    FILE *stream = state ? state->err_stream : stderr;
    if (stream)
        fprintf(stream, "%s: ", state ? state->name : program_invocation_short_name);
    return stream;
}

weak void argp_error(const struct argp_state *state, const char *form, ...)
{
    if (state && (state->flags & ARGP_NO_ERRS))
        return;
    FILE *stream = begin_message(state);
    if (!stream)
        return;
    va_list words;
    va_start(words, form);
    vfprintf(stream, form, words);
    va_end(words);
    fputc('\n', stream);
    argp_state_help(state, stream, ARGP_HELP_STD_ERR);
}

weak void argp_failure(
    const struct argp_state *state, int status, int number, const char *form, ...)
{
    if (state && (state->flags & ARGP_NO_ERRS))
        return;
    FILE *stream = begin_message(state);
    if (!stream)
        return;
    if (form) {
        va_list words;
        va_start(words, form);
        vfprintf(stream, form, words);
        va_end(words);
    }
    if (number)
        fprintf(stream, form ? ": %s" : "%s", strerror(number));
    fputc('\n', stream);
    if (status && !(state && (state->flags & ARGP_NO_EXIT)))
        exit(status);
}
