/* Drops the first node of a list: nothing leads to it and to the rest any more. */
#include "tenant.h"

struct node {
    struct node *next;
    int value;
};

static struct node *list;

static void push(int value)
{
    struct node *made = tenant_malloc(sizeof *made);
    made->next = list;
    made->value = value;
    list = made;
}

int main(void)
{
    for (int value = 0; value < 4; value++)
        push(value);
    list = 0; /* BUG: the nodes are not freed */
    push(4);
    return 0;
}
