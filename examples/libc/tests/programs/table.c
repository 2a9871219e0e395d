/* Reads comma-separated values with a line of titles (quotes as in RFC 4180) and writes them as a
   table with aligned columns, the sum of each column of integers below it. */
#include <stdio.h>
#include <stdlib.h>
#include <string.h>

enum { COLUMNS = 16 };

struct row {
    struct row *next;
    int count;
    char *cells[COLUMNS];
};

static int width[COLUMNS], is_number[COLUMNS];
static long sum[COLUMNS];

/* A growing text. */
struct text {
    char *bytes;
    size_t length, room;
};

static void put(struct text *text, char byte)
{
    if (text->length + 1 >= text->room) {
        text->room = text->room ? text->room * 3 / 2 : 16;
        text->bytes = realloc(text->bytes, text->room);
    }
    text->bytes[text->length++] = byte;
    text->bytes[text->length] = '\0';
}

/* The next cell, and the byte that ended it. */
static char *read_cell(int *end)
{
    struct text text = {0};
    int byte = getchar();
    if (byte == '"') {
        while ((byte = getchar()) != EOF) {
            if (byte == '"' && (byte = getchar()) != '"')
                break;
            put(&text, (char)byte);
        }
    }
    for (; byte != ',' && byte != '\n' && byte != EOF; byte = getchar())
        if (byte != '\r')
            put(&text, (char)byte);
    *end = byte;
    return text.bytes ? text.bytes : strdup("");
}

static struct row *read_row(void)
{
    int end = getchar();
    if (end == EOF)
        return NULL;
    ungetc(end, stdin);
    struct row *row = calloc(1, sizeof *row);
    do {
        char *cell = read_cell(&end);
        if (row->count < COLUMNS)
            row->cells[row->count++] = cell;
        else
            free(cell);
    } while (end == ',');
    return row;
}

static void measure(const struct row *row, int is_title)
{
    for (int i = 0; i < row->count; i++) {
        char *end;
        long value = strtol(row->cells[i], &end, 10);
        if ((int)strlen(row->cells[i]) > width[i])
            width[i] = (int)strlen(row->cells[i]);
        if (is_title)
            is_number[i] = 1;
        else if (*end || end == row->cells[i])
            is_number[i] = 0;
        else
            sum[i] += value;
    }
}

static void write_row(const struct row *row)
{
    for (int i = 0; i < row->count; i++)
        printf(is_number[i] ? "%s%*s" : "%s%-*s", i ? " | " : "", width[i], row->cells[i]);
    putchar('\n');
}

static void write_sums(int columns)
{
    for (int i = 0; i < columns; i++) {
        char text[24] = "";
        if (is_number[i])
            snprintf(text, sizeof text, "%ld", sum[i]);
        printf("%s%*s", i ? " = " : "", width[i], text);
    }
    putchar('\n');
}

int main(void)
{
    struct row *rows = NULL, **last = &rows;
    while ((*last = read_row())) {
        measure(*last, *last == rows);
        last = &(*last)->next;
    }
    if (!rows)
        return 1;
    for (struct row *row = rows; row; row = row->next)
        write_row(row);
    write_sums(rows->count);
    while (rows) {
        struct row *next = rows->next;
        for (int i = 0; i < rows->count; i++)
            free(rows->cells[i]);
        free(rows);
        rows = next;
    }
    return 0;
}
