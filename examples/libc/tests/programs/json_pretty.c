/* Reads a JSON value and writes it with a member a line, the members of each object in the order of
   their names. Numbers are kept as they were written. */
#include <ctype.h>
#include <setjmp.h>
#include <stdio.h>
#include <stdlib.h>
#include <string.h>

enum kind { NULL_VALUE, BOOLEAN, NUMBER, STRING, ARRAY, OBJECT };

struct member {
    char *name;
    struct value *value;
};

struct value {
    enum kind kind;
    char *text;
    struct member *members;
    size_t count;
};

static char *input;
static size_t at;
static jmp_buf failed;

static void fail(const char *expected)
{
    fprintf(stdout, "byte %zu: %s expected\n", at, expected);
    longjmp(failed, 1);
}

static void skip_blanks(void)
{
    while (isspace((unsigned char)input[at]))
        at++;
}

static void expect(char byte)
{
    char text[2] = {byte, '\0'};
    skip_blanks();
    if (input[at] != byte)
        fail(text);
    at++;
}

static char *copy(size_t from)
{
    char *text = malloc(at - from + 1);
    memcpy(text, input + from, at - from);
    text[at - from] = '\0';
    return text;
}

/* A string with its quotes and escapes. */
static char *read_string(void)
{
    skip_blanks();
    size_t from = at;
    expect('"');
    for (; input[at] != '"'; at++) {
        if (input[at] == '\\')
            at++;
        if (input[at] == '\0')
            fail("the end of a string");
    }
    at++;
    return copy(from);
}

static struct value *read_value(void);

static void append(struct value *value, char *name)
{
    value->members = realloc(value->members, (value->count + 1) * sizeof *value->members);
    value->members[value->count].name = name;
    value->members[value->count].value = read_value();
    value->count++;
}

static int by_name(const void *left, const void *right)
{
    return strcmp(((const struct member *)left)->name, ((const struct member *)right)->name);
}

static void read_members(struct value *value, char end)
{
    at++;
    skip_blanks();
    if (input[at] == end) {
        at++;
        return;
    }
    for (;;) {
        char *name = NULL;
        if (value->kind == OBJECT) {
            name = read_string();
            expect(':');
        }
        append(value, name);
        skip_blanks();
        if (input[at] == end)
            break;
        expect(',');
    }
    at++;
    if (value->kind == OBJECT)
        qsort(value->members, value->count, sizeof *value->members, by_name);
}

static char *read_word(void)
{
    size_t from = at;
    while (isalnum((unsigned char)input[at]) || strchr("+-.", input[at])) {
        if (input[at] == '\0')
            break;
        at++;
    }
    if (at == from)
        fail("a value");
    return copy(from);
}

static struct value *read_value(void)
{
    struct value *value = calloc(1, sizeof *value);
    skip_blanks();
    switch (input[at]) {
    case '{':
        value->kind = OBJECT;
        read_members(value, '}');
        break;
    case '[':
        value->kind = ARRAY;
        read_members(value, ']');
        break;
    case '"':
        value->kind = STRING;
        value->text = read_string();
        break;
    default:
        value->kind = isalpha((unsigned char)input[at]) ? BOOLEAN : NUMBER;
        if (input[at] == 'n')
            value->kind = NULL_VALUE;
        value->text = read_word();
    }
    return value;
}

static void write_value(const struct value *value, int depth)
{
    const char *ends = value->kind == OBJECT ? "{}" : "[]";
    if (value->text) {
        fputs(value->text, stdout);
        return;
    }
    putchar(ends[0]);
    for (size_t i = 0; i < value->count; i++) {
        printf("%s\n%*s", i ? "," : "", 2 * depth + 2, "");
        if (value->kind == OBJECT)
            printf("%s: ", value->members[i].name);
        write_value(value->members[i].value, depth + 1);
    }
    if (value->count)
        printf("\n%*s", 2 * depth, "");
    putchar(ends[1]);
}

static void release(struct value *value)
{
    for (size_t i = 0; i < value->count; i++) {
        free(value->members[i].name);
        release(value->members[i].value);
    }
    free(value->members);
    free(value->text);
    free(value);
}

static void read_all(void)
{
    size_t room = 256, count = 0, more;
    input = malloc(room);
    while ((more = fread(input + count, 1, room - count - 1, stdin)) > 0) {
        count += more;
        if (count + 1 == room)
            input = realloc(input, room *= 2);
    }
    input[count] = '\0';
}

int main(void)
{
    read_all();
    if (setjmp(failed))
        return 1;
    struct value *value = read_value();
    skip_blanks();
    if (input[at] != '\0')
        fail("the end");
    write_value(value, 0);
    putchar('\n');
    release(value);
    free(input);
    return 0;
}
