/* Words in a list; the longest is forgotten and freed, and is still the one that was used last.
   ends: 129
   expect: status fault TagCheck read
   cause: [MTE]: Use After Free, 0 bytes into a 32-byte allocation at
   cause: allocated by call 2, calloc(1, 32)
   cause: freed by call 4, free( */
#include "tenant.h"

struct word {
    size_t length;
    const char *text;
    struct word *next;
    size_t uses;
};

struct list {
    struct word *first;
    struct word *last_used;
};

static struct word *make(const char *text)
{
    struct word *word = tenant_calloc(1, sizeof *word);
    word->text = text;
    while (text[word->length])
        word->length++;
    return word;
}

static void add(struct list *list, const char *text)
{
    struct word *word = make(text);
    word->next = list->first;
    list->first = word;
    if (!list->last_used || word->length > list->last_used->length)
        list->last_used = word;
}

static void forget(struct list *list, struct word *word)
{
    struct word **place = &list->first;
    while (*place != word)
        place = &(*place)->next;
    *place = word->next;
    tenant_free(word);
}

static void forget_longest(struct list *list)
{
    struct word *longest = list->first;
    for (struct word *word = list->first; word; word = word->next)
        if (word->length > longest->length)
            longest = word;
    forget(list, longest);
}

static __attribute__((noinline)) size_t use(struct list *list)
{
    return list->last_used->length;
}

int main(void)
{
    struct list list = {0, 0};
    add(&list, "tag");
    add(&list, "allocation");
    add(&list, "granule");
    forget_longest(&list);
    return (int)use(&list);
}
