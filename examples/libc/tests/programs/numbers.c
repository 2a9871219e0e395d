/* Reads integers and writes how many there are, their sum, the smallest, the largest and the
   median. */
#include <stdio.h>
#include <stdlib.h>

struct list {
    long *values;
    size_t count, room;
};

static void append(struct list *list, long value)
{
    if (list->count == list->room) {
        list->room = list->room ? 2 * list->room : 4;
        list->values = realloc(list->values, list->room * sizeof *list->values);
        if (!list->values) {
            perror("numbers");
            exit(EXIT_FAILURE);
        }
    }
    list->values[list->count++] = value;
}

static int compare(const void *left, const void *right)
{
    long a = *(const long *)left, b = *(const long *)right;
    return (a > b) - (a < b);
}

int main(void)
{
    struct list list = {0};
    long value, sum = 0;
    while (scanf("%ld", &value) == 1) {
        append(&list, value);
        sum += value;
    }
    if (!feof(stdin)) {
        printf("not a number: '%c'\n", getchar());
        free(list.values);
        return 1;
    }
    if (list.count == 0)
        return 1;
    qsort(list.values, list.count, sizeof *list.values, compare);
    printf("count  %8zu\nsum    %+8ld\n", list.count, sum);
    printf("least  %8ld\nmost   %8ld\n", list.values[0], list.values[list.count - 1]);
    printf("median %8ld\n", list.values[list.count / 2]);
    free(list.values);
    return 0;
}
