/* Arrays of numbers and arrays as a tree; bug: an array that is dropped is visited once more. */
#include "tenant.h"

struct value {
    struct value *first, *next;
    long number;
};

static const char *at;

static struct value *make(void)
{
    struct value *v = tenant_calloc(1, sizeof *v);
    return v;
}

static struct value *parse(void)
{
    struct value *v = make();
    if (*at != '[') {
        while (*at >= '0' && *at <= '9')
            v->number = 10 * v->number + *at++ - '0';
        return v;
    }
    struct value **end = &v->first;
    do {
        at++;
        *end = parse();
        end = &(*end)->next;
    } while (*at == ',');
    at++;
    return v;
}

static void drop(struct value *v)
{
    for (struct value *it = v->first, *next; it; it = next) {
        next = it->next;
        drop(it);
    }
    tenant_free(v);
}

static long sum(const struct value *v)
{
    long total = v->number;
    for (const struct value *it = v->first; it; it = it->next)
        total += sum(it);
    return total;
}

int main(void)
{
    at = "[1,[2,3],4]";
    struct value *v = parse();
    struct value *inner = v->first->next;
    drop(inner);
    return (int)sum(v);
}
