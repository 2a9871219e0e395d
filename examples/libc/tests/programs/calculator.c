/* Works out a line at a time: integers, names, + - * / % and brackets; `name = expression` sets a
   name. */
#include <ctype.h>
#include <errno.h>
#include <stdio.h>
#include <stdlib.h>
#include <string.h>

struct name {
    struct name *next;
    char *text;
    long value;
};

static struct name *names;
static const char *at, *problem;

static void blame(const char *text)
{
    if (!problem)
        problem = text;
}

static char next_byte(void)
{
    while (isspace((unsigned char)*at))
        at++;
    return *at;
}

static struct name *find(const char *text, size_t length)
{
    for (struct name *name = names; name; name = name->next)
        if (strlen(name->text) == length && strncmp(name->text, text, length) == 0)
            return name;
    return NULL;
}

static struct name *define(const char *text, size_t length)
{
    struct name *name = find(text, length);
    if (!name) {
        name = malloc(sizeof *name);
        name->text = strndup(text, length);
        name->next = names;
        names = name;
    }
    return name;
}

static size_t name_length(void)
{
    size_t length = 0;
    while (isalnum((unsigned char)at[length]) || at[length] == '_')
        length++;
    return length;
}

static long read_sum(void);

static long read_operand(void)
{
    char byte = next_byte(), *end;
    long value = 0;
    if (byte == '-') {
        at++;
        return -read_operand();
    }
    if (byte == '(') {
        at++;
        value = read_sum();
        if (next_byte() != ')')
            blame("a bracket is missing");
        else
            at++;
    } else if (isdigit((unsigned char)byte)) {
        errno = 0;
        value = strtol(at, &end, 0);
        at = end;
        if (errno == ERANGE)
            blame("the number is too large");
    } else if (isalpha((unsigned char)byte)) {
        struct name *name = find(at, name_length());
        at += name_length();
        if (name)
            value = name->value;
        else
            blame("no such name");
    } else {
        blame("a number is missing");
    }
    return value;
}

static long read_product(void)
{
    long value = read_operand();
    for (;;) {
        char sign = next_byte();
        if (sign == '\0' || !strchr("*/%", sign))
            return value;
        at++;
        long other = read_operand();
        if (sign == '*')
            value = (long)((unsigned long)value * (unsigned long)other);
        else if (other == 0)
            blame("division by zero");
        else if (sign == '/')
            value /= other;
        else
            value %= other;
    }
}

static long read_sum(void)
{
    long value = read_product();
    for (;;) {
        char sign = next_byte();
        if (sign != '+' && sign != '-')
            return value;
        at++;
        long other = read_product();
        value += sign == '+' ? other : -other;
    }
}

/* The name that a line sets, or NULL. */
static struct name *target(void)
{
    const char *text = at;
    size_t length = isalpha((unsigned char)next_byte()) ? name_length() : 0;
    const char *name = at;
    at += length;
    if (length && next_byte() == '=') {
        at++;
        return define(name, length);
    }
    at = text;
    return NULL;
}

int main(void)
{
    char line[512];
    int failed = 0;
    while (fgets(line, sizeof line, stdin)) {
        at = line;
        problem = NULL;
        if (next_byte() == '\0')
            continue;
        struct name *name = target();
        long value = read_sum();
        if (next_byte() != '\0')
            blame("the line goes on");
        if (problem) {
            printf("column %d: %s\n", (int)(at - line) + 1, problem);
            failed = 1;
            continue;
        }
        if (name)
            name->value = value;
        printf("%ld (%#lx)\n", value, value);
    }
    return failed;
}
