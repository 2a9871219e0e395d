/* What <error.h> has: messages on standard error, after which the program may end. */
#define _GNU_SOURCE
#include <errno.h>
#include <error.h>
#include <stdarg.h>
#include <stdio.h>
#include <stdlib.h>
#include <string.h>
#include <features.h>

weak void (*error_print_progname)(void);
weak unsigned error_message_count;
weak int error_one_per_line;

static void begin(const char *space)
{
    fflush(stdout);
    if (error_print_progname)
        error_print_progname();
    else
        fprintf(stderr, "%s:%s", program_invocation_name, space);
}

static void end(int status, int number, const char *form, va_list words)
{
    vfprintf(stderr, form, words);
    error_message_count++;
    if (number)
        fprintf(stderr, ": %s", strerror(number));
    fputc('\n', stderr);
    if (status)
        exit(status);
}

weak void error(int status, int number, const char *form, ...)
{
    va_list words;
    va_start(words, form);
    begin(" ");
    end(status, number, form, words);
    va_end(words);
}

/* Whether one message of a line is enough, and the one before was of this line. */
static int is_repeated(const char *file, unsigned line)
{
    static const char *last_file;
    static unsigned last_line;
    if (!error_one_per_line)
        return 0;
    int is_same_file = file == last_file || (file && last_file && !strcmp(file, last_file));
    int is_same = is_same_file && line == last_line;
    last_file = file;
    last_line = line;
    return is_same;
}

weak void error_at_line(
    int status, int number, const char *file, unsigned line, const char *form, ...)
{
    if (is_repeated(file, line))
        return;
    va_list words;
    va_start(words, form);
    begin("");
    if (file)
        fprintf(stderr, "%s:%u: ", file, line);
    else
        fputc(' ', stderr);
    end(status, number, form, words);
    va_end(words);
}
