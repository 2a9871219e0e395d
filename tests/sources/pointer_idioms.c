/* What correct programs do with pointers, for a checker that must not object: IDIOM says which.
   With OVERFLOW the same pointer is used 400 bytes past the start of its chunk of 64 bytes, where
   another chunk is, which the checker must say of that very chunk. */
#include "tenant.h"

#ifdef OVERFLOW
#define INDEX 400
#else
#define INDEX 7
#endif

static volatile int one = 1;
static volatile char sink;
static void *volatile cell;
static char *others[16];

static char *make(size_t size)
{
    char *chunk = tenant_malloc(size);
    for (size_t i = 0; i < size; i++)
        chunk[i] = 3;
    return chunk;
}

static int use(const char *pointer)
{
    return sink = pointer[INDEX * one];
}

#if IDIOM == 1 /* The link of a list that is walked both ways: the exclusive or of two. */
static int idiom(char *p, char *q)
{
    cell = (void *)((uintptr_t)p ^ (uintptr_t)q);
    return use((char *)((uintptr_t)cell ^ (uintptr_t)q));
}
#elif IDIOM == 2 /* The distance of two chunks, by which pointers into one are moved over. */
static int idiom(char *p, char *q)
{
    char *inside = p + 8;
    cell = (void *)((uintptr_t)q - (uintptr_t)p);
    return use((char *)((uintptr_t)inside - 8 + (uintptr_t)cell));
}
#elif IDIOM == 3 /* A hash and a remainder of a pointer as an index. */
static int idiom(char *p, char *q)
{
    static char table[128];
    uintptr_t hash = (uintptr_t)p;
    hash ^= hash >> 17;
    hash *= 0x9e3779b97f4a7c15u;
    hash ^= hash >> 29;
    return table[hash % 61] + table[(uintptr_t)q % 61] + table[(uintptr_t)p >> 4 & 63] + use(p);
}
#elif IDIOM == 4 /* A pointer as a number of 32 bits from the start of its chunk. */
static int idiom(char *p, char *q)
{
    uint32_t number = (uint32_t)((p + 32) - p) >> 3;
    (void)q;
    cell = (void *)(uintptr_t)number;
    return use(p + ((uintptr_t)cell << 3) - 32);
}
#elif IDIOM == 5 /* A pointer that is copied a byte at a time. */
static int idiom(char *p, char *q)
{
    char *copy;
    (void)q;
    for (unsigned i = 0; i < sizeof copy; i++)
        ((volatile char *)&copy)[i] = ((volatile char *)&p)[i];
    return use(copy);
}
#elif IDIOM == 6 /* A structure with pointers, copied to an odd address and back. */
struct pair {
    char *first;
    int number;
    char *second;
};
static int idiom(char *p, char *q)
{
    struct pair pair = {p, 1, q}, copy;
    char raw[40];
    memcpy(raw + 3 * one, &pair, sizeof pair);
    memset(&copy, 0, sizeof copy);
    memcpy(&copy, raw + 3 * one, sizeof copy);
    return use(copy.first);
}
#elif IDIOM == 7 /* Two halves that are joined. */
static int idiom(char *p, char *q)
{
    volatile uint32_t low = (uint32_t)(uintptr_t)p, high = (uint32_t)((uintptr_t)p >> 32);
    (void)q;
    cell = (void *)((uintptr_t)high << 32 | low);
    return use(cell);
}
#elif IDIOM == 8 /* Marks in the low bits, and alignment. */
static int idiom(char *p, char *q)
{
    cell = (void *)((uintptr_t)p | 5);
    uintptr_t down = (uintptr_t)cell & ~(uintptr_t)7;
    uintptr_t up = (down + 15) & ~(uintptr_t)15;
    (void)q;
    return use((char *)up) + (int)((uintptr_t)p & 15);
}
#elif IDIOM == 9 /* One past the end, counted down from there, and one before the start. */
static int idiom(char *p, char *q)
{
    int *start = (int *)p, *end = start + 16, *before = start - one, sum = 0;
    (void)q;
    for (int *at = end; at != start;)
        sum += *--at;
    for (int i = 1; i <= 16; i++)
        sum += before[i * one];
    return sum + use(p);
}
#elif IDIOM == 10 /* Chunks that get another size, in place or elsewhere, with pointers in them. */
static int idiom(char *p, char *q)
{
    char **row = tenant_malloc(2 * sizeof *row);
    row[0] = p;
    row[1] = q;
    for (size_t count = 3; count < 200; count += 7) {
        row = tenant_realloc(row, count * sizeof *row);
        row[count - 1] = q;
    }
    return use(row[0]);
}
#elif IDIOM == 11 /* Pointers that are sorted, and exchanged a byte at a time. */
static void exchange(char *one_place, char *other)
{
    for (size_t i = 0; i < sizeof(char *); i++) {
        char byte = one_place[i];
        one_place[i] = other[i];
        other[i] = byte;
    }
}
static int idiom(char *p, char *q)
{
    char *row[5] = {others[3], p, others[1], q, others[2]};
    for (int i = 0; i < 5; i++)
        for (int j = i + 1; j < 5; j++)
            if ((uintptr_t)row[j] < (uintptr_t)row[i])
                exchange((char *)&row[i], (char *)&row[j]);
    return row[0][3] + row[4][3] + use(row[2]);
}
#elif IDIOM == 12 /* A pointer that is negated and complemented. */
static int idiom(char *p, char *q)
{
    cell = (void *)(0 - (uintptr_t)p);
    uintptr_t back = 0 - (uintptr_t)cell;
    (void)q;
    cell = (void *)~back;
    return use((char *)~(uintptr_t)cell);
}
#elif IDIOM == 13 /* Marks in the bits above the tag. */
static int idiom(char *p, char *q)
{
    cell = (void *)((uintptr_t)p | (uintptr_t)0xe << 60);
    (void)q;
    return use((char *)((uintptr_t)cell & ~((uintptr_t)0xe << 60)));
}
#elif IDIOM == 14 /* From a field back to its structure, and arrays of arrays as one. */
struct record {
    char name;
    long value;
};
static int idiom(char *p, char *q)
{
    struct record(*rows)[3] = tenant_malloc(4 * sizeof *rows);
    long *field = &rows[1][2].value;
    (void)q;
    for (int i = 0; i < 12; i++)
        (&rows[0][0])[i].value = i;
    struct record *record = (struct record *)((char *)field - offsetof(struct record, value));
    return (int)record->value + use(p);
}
#elif IDIOM == 15 /* Words that are read past a string's end, to find where it ends. */
static size_t length(const char *text)
{
    const char *at = text;
    while ((uintptr_t)at % 8 != 0) {
        if (*at == 0)
            return (size_t)(at - text);
        at++;
    }
    const uint64_t *word = (const uint64_t *)at;
    while (((*word - 0x0101010101010101u) & ~*word & 0x8080808080808080u) == 0)
        word++;
    for (at = (const char *)word; *at != 0; at++)
        ;
    return (size_t)(at - text);
}
static int idiom(char *p, char *q)
{
    size_t sum = 0;
    (void)q;
    for (size_t count = 0; count < 24; count++) {
        char *text = make(count + 1);
        text[count] = 0;
        sum += length(text);
        tenant_free(text);
    }
    return (int)sum + use(p);
}
#elif IDIOM == 16 /* A list, freed while it is walked; old pointers are compared, not used. */
struct node {
    struct node *next;
    char *held;
};
static int idiom(char *p, char *q)
{
    struct node *list = 0;
    int same = 0;
    (void)q;
    for (int i = 0; i < 20; i++) {
        struct node *node = tenant_malloc(sizeof *node);
        node->next = list;
        node->held = p;
        list = node;
    }
    while (list->next) {
        struct node *next = list->next, *old = list;
        tenant_free(list);
        list = next;
        same += old == next;
    }
    return same + use(list->held);
}
#elif IDIOM == 17 /* A chunk that is cut into parts, which are given again. */
struct part {
    struct part *next;
};
static int idiom(char *p, char *q)
{
    char *whole = tenant_malloc(4096);
    struct part *unused = 0;
    (void)q;
    for (int i = 0; i < 64; i++) {
        struct part *part = (struct part *)(whole + 64 * i);
        part->next = unused;
        unused = part;
    }
    char **taken = (char **)unused;
    unused = unused->next;
    taken[7] = p;
    ((struct part *)taken)->next = unused;
    return use(taken[7]);
}
#elif IDIOM == 18 /* A pointer that is chosen without a branch, and multiplied by 1. */
static int idiom(char *p, char *q)
{
    char *chosen = one ? p : q;
    uintptr_t product = (uintptr_t)chosen * (uintptr_t)one;
    cell = (void *)product;
    return use(cell);
}
#elif IDIOM == 19 /* The distance from the base to a pointer, both ways. */
static int idiom(char *p, char *q)
{
    intptr_t ahead = q - p, back = p - q;
    cell = (void *)ahead;
    char *other = p + (intptr_t)cell;
    cell = (void *)back;
    return use(other + (intptr_t)cell);
}
#elif IDIOM == 20 /* A chunk that the last pointer to is in the middle of. */
static int idiom(char *p, char *q)
{
    (void)q;
    cell = p + 24;
    return use((char *)cell - 24);
}
#elif IDIOM == 21 /* The distance from a chunk to an array on the stack, added to the chunk's. */
static int idiom(char *p, char *q)
{
    volatile char local[64];
    (void)q;
    local[3] = 'l';
    cell = (void *)((uintptr_t)local - (uintptr_t)p);
    volatile char *at = (volatile char *)((uintptr_t)p + (uintptr_t)cell);
    return at[3] == 'l' ? use(p) : 0;
}
#endif

int main(void)
{
    for (int i = 0; i < 16; i++)
        others[i] = make(64);
    char *p = make(64), *q = make(64);
    for (int i = 0; i < 4; i++)
        make(64)[0] = (char)i;
    cell = 0;
    sink = (char)idiom(p, q);
    return 0;
}
