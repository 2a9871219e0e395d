/* Counts lines, words and bytes, and writes the words that come most often. */
#include <ctype.h>
#include <stdio.h>
#include <stdlib.h>
#include <string.h>

enum { BUCKETS = 257, MOST = 12, LONGEST = 64 };

struct entry {
    struct entry *next;
    unsigned count;
    char word[];
};

static struct entry *buckets[BUCKETS];
static size_t entries;

static unsigned hash(const char *word)
{
    unsigned sum = 5381;
    while (*word)
        sum = sum * 33 + (unsigned char)*word++;
    return sum % BUCKETS;
}

static void count_word(const char *word)
{
    struct entry **at = &buckets[hash(word)];
    for (; *at; at = &(*at)->next)
        if (strcmp((*at)->word, word) == 0) {
            (*at)->count++;
            return;
        }
    *at = malloc(sizeof **at + strlen(word) + 1);
    if (!*at)
        exit(2);
    (*at)->next = NULL;
    (*at)->count = 1;
    strcpy((*at)->word, word);
    entries++;
}

static int by_count(const void *left, const void *right)
{
    const struct entry *a = *(struct entry *const *)left, *b = *(struct entry *const *)right;
    if (a->count != b->count)
        return a->count < b->count ? 1 : -1;
    return strcmp(a->word, b->word);
}

static void write_most(void)
{
    struct entry **all = calloc(entries, sizeof *all);
    size_t count = 0;
    for (int i = 0; i < BUCKETS; i++)
        for (struct entry *entry = buckets[i]; entry; entry = entry->next)
            all[count++] = entry;
    qsort(all, count, sizeof *all, by_count);
    for (size_t i = 0; i < count && i < MOST; i++)
        printf("%-16s%4u\n", all[i]->word, all[i]->count);
    for (size_t i = 0; i < count; i++)
        free(all[i]);
    free(all);
}

int main(void)
{
    unsigned long lines = 0, words = 0, bytes = 0;
    char word[LONGEST];
    size_t length = 0;
    int byte;
    do {
        byte = getchar();
        bytes += byte != EOF;
        lines += byte == '\n';
        if (byte != EOF && isalnum(byte) && length + 1 < sizeof word) {
            word[length++] = (char)tolower(byte);
        } else if (length) {
            word[length] = '\0';
            count_word(word);
            words++;
            length = 0;
        }
    } while (byte != EOF);
    printf("%lu lines, %lu words, %lu bytes, %zu different\n", lines, words, bytes, entries);
    write_most();
    return 0;
}
