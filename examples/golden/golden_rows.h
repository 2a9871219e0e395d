/* The rows of isa/a64.rows as patterns of fixed bits and fields, from which words are drawn. */
#ifndef GOLDEN_ROWS_H
#define GOLDEN_ROWS_H

#include <stdint.h>
#include <stdio.h>
#include <stdlib.h>
#include <string.h>

enum { MOST_ROWS = 64, MOST_FIELDS = 12, NAME_ROOM = 24 };

struct row {
    char name[NAME_ROOM];
    uint32_t mask, value;
    int fixed; /* how many bits the mask has */
    unsigned count;
    struct {
        unsigned bit, width;
    } fields[MOST_FIELDS];
};

static struct row rows[MOST_ROWS];
static unsigned row_count;

/* Enters a part of a row's first line, digits or NAME:WIDTH, below `bit`: the bit that it ends at,
   or -1. */
static int read_part(struct row *row, const char *part, int bit)
{
    const char *colon = strchr(part, ':');
    const int width = colon ? atoi(colon + 1 + (colon[1] == 's')) : (int)strlen(part);
    if (width < 1 || width > bit || row->count == MOST_FIELDS)
        return -1;
    bit -= width;
    if (colon) {
        row->fields[row->count].bit = (unsigned)bit;
        row->fields[row->count++].width = (unsigned)width;
        return bit;
    }
    if (strspn(part, "01") != (size_t)width)
        return -1;
    row->mask |= (uint32_t)(((uint64_t)1 << width) - 1) << bit;
    row->value |= (uint32_t)strtoul(part, NULL, 2) << bit;
    row->fixed += width;
    return bit;
}

/* Enters the row of a line, if it is one's first line; 0 where there is no room for it. */
static int read_row(char *line)
{
    struct row row = {{0}, 0, 0, 0, 0, {{0, 0}}};
    int bit = 32;
    const char *name = strtok(line, " \t\n"), *part;
    if (name == NULL || *name < 'A' || *name > 'Z' || strlen(name) >= NAME_ROOM)
        return 1;
    strcpy(row.name, name);
    while (bit > 0 && (part = strtok(NULL, " \t\n")) != NULL)
        bit = read_part(&row, part, bit);
    if (bit != 0 || strtok(NULL, " \t\n") != NULL)
        return 1;
    if (row_count == MOST_ROWS)
        return 0;
    rows[row_count++] = row;
    return 1;
}

/* Reads all rows of a file, in its order; 0 where it has none or cannot be read. */
static int read_rows(const char *path)
{
    char line[512];
    FILE *file = fopen(path, "r");
    int is_read = file != NULL;
    while (is_read && fgets(line, sizeof line, file) != NULL)
        is_read = line[0] == ' ' || read_row(line);
    if (file != NULL)
        fclose(file);
    return is_read && row_count > 0;
}

/* The row of a word that is an instruction: of those that fit, the one with the most fixed bits. */
static int row_of(uint32_t word)
{
    int found = -1, most = -1;
    for (unsigned i = 0; i < row_count; i++) {
        if ((word & rows[i].mask) == rows[i].value && rows[i].fixed > most) {
            found = (int)i;
            most = rows[i].fixed;
        }
    }
    return found;
}

#endif
