/* Sorts the lines of its input, however long they are, and writes each once, with how often it
   came. */
#include <stdio.h>
#include <stdlib.h>
#include <string.h>

static int compare(const void *left, const void *right)
{
    return strcmp(*(char *const *)left, *(char *const *)right);
}

/* The lines, and their number; each ends where its newline was. */
static char **read_lines(size_t *count)
{
    char **lines = NULL, *line = NULL;
    size_t room = 0, length = 0;
    ssize_t read;
    *count = 0;
    while ((read = getline(&line, &length, stdin)) != -1) {
        if (read > 0 && line[read - 1] == '\n')
            line[read - 1] = '\0';
        if (*count == room) {
            room = 2 * room + 8;
            lines = realloc(lines, room * sizeof *lines);
        }
        lines[(*count)++] = strdup(line);
    }
    free(line);
    return lines;
}

int main(void)
{
    size_t count;
    char **lines = read_lines(&count);
    qsort(lines, count, sizeof *lines, compare);
    for (size_t i = 0; i < count;) {
        size_t same = 1;
        while (i + same < count && strcmp(lines[i], lines[i + same]) == 0)
            same++;
        printf("%4zu %s\n", same, lines[i]);
        i += same;
    }
    for (size_t i = 0; i < count; i++)
        free(lines[i]);
    free(lines);
    return 0;
}
