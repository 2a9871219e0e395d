/* A string that grows; bug: a piece is kept by its address over the growth. */
#include "tenant.h"

struct builder {
    char *text;
    size_t length, room;
};

static void grow(struct builder *b, size_t more)
{
    if (b->length + more <= b->room)
        return;
    size_t room = 2 * b->room + more;
    char *text = tenant_malloc(room);
    for (size_t i = 0; i < b->length; i++)
        text[i] = b->text[i];
    tenant_free(b->text);
    b->text = text;
    b->room = room;
}

static char *append(struct builder *b, const char *piece)
{
    size_t n = 0;
    while (piece[n])
        n++;
    grow(b, n);
    char *start = b->text + b->length;
    for (size_t i = 0; i < n; i++)
        start[i] = piece[i];
    b->length += n;
    return start;
}

static void capitalize(char *word)
{
    word[0] -= 32;
}

int main(void)
{
    struct builder b = { tenant_malloc(8), 0, 8 };
    char *first = append(&b, "one");
    append(&b, " two");
    append(&b, " three");
    capitalize(first);
    return b.text[0] == 'O' ? 0 : 1;
}
