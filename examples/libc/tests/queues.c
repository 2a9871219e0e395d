/* Lists by the macros of <sys/queue.h>. */
#include <stdio.h>
#include <stdlib.h>
#include <sys/queue.h>

struct node {
    int number;
    LIST_ENTRY(node) list;
    SLIST_ENTRY(node) single;
    TAILQ_ENTRY(node) tail;
    STAILQ_ENTRY(node) simple_tail;
    SIMPLEQ_ENTRY(node) simple;
};

static LIST_HEAD(, node) list = LIST_HEAD_INITIALIZER(list);
static SLIST_HEAD(, node) single = SLIST_HEAD_INITIALIZER(single);
static TAILQ_HEAD(tails, node) tail = TAILQ_HEAD_INITIALIZER(tail), other;
static STAILQ_HEAD(, node) simple_tail = STAILQ_HEAD_INITIALIZER(simple_tail), more;
static SIMPLEQ_HEAD(, node) simple = SIMPLEQ_HEAD_INITIALIZER(simple);

#ifndef TAILQ_FOREACH_SAFE
#define SAFE(first, next_of, it, next) \
    for ((it) = (first); (it) && ((next) = next_of, 1); (it) = (next))
#define LIST_FOREACH_SAFE(it, head, link, next) \
    SAFE(LIST_FIRST(head), LIST_NEXT(it, link), it, next)
#define SLIST_FOREACH_SAFE(it, head, link, next) \
    SAFE(SLIST_FIRST(head), SLIST_NEXT(it, link), it, next)
#define STAILQ_FOREACH_SAFE(it, head, link, next) \
    SAFE(STAILQ_FIRST(head), STAILQ_NEXT(it, link), it, next)
#define SIMPLEQ_FOREACH_SAFE(it, head, link, next) \
    SAFE(SIMPLEQ_FIRST(head), SIMPLEQ_NEXT(it, link), it, next)
#define TAILQ_FOREACH_SAFE(it, head, link, next) \
    SAFE(TAILQ_FIRST(head), TAILQ_NEXT(it, link), it, next)
#define TAILQ_FOREACH_REVERSE_SAFE(it, head, name, link, next) \
    SAFE(TAILQ_LAST(head, name), TAILQ_PREV(it, name, link), it, next)
#endif

static struct node *make(int number)
{
    struct node *made = calloc(1, sizeof *made);
    made->number = number;
    return made;
}

static void show(void)
{
    struct node *it;
    LIST_FOREACH(it, &list, list)
        printf("%d ", it->number);
    printf("| ");
    SLIST_FOREACH(it, &single, single)
        printf("%d ", it->number);
    printf("| ");
    TAILQ_FOREACH(it, &tail, tail)
        printf("%d ", it->number);
    printf("| ");
    TAILQ_FOREACH_REVERSE(it, &tail, tails, tail)
        printf("%d ", it->number);
    printf("| ");
    STAILQ_FOREACH(it, &simple_tail, simple_tail)
        printf("%d ", it->number);
    printf("| ");
    SIMPLEQ_FOREACH(it, &simple, simple)
        printf("%d ", it->number);
    printf("\n");
}

static void insert(struct node *it)
{
    struct node *first = LIST_FIRST(&list);
    if (it->number % 3 == 0) {
        LIST_INSERT_HEAD(&list, it, list);
        SLIST_INSERT_HEAD(&single, it, single);
        TAILQ_INSERT_HEAD(&tail, it, tail);
        STAILQ_INSERT_HEAD(&simple_tail, it, simple_tail);
        SIMPLEQ_INSERT_HEAD(&simple, it, simple);
    } else if (it->number % 3 == 1) {
        LIST_INSERT_AFTER(first, it, list);
        SLIST_INSERT_AFTER(first, it, single);
        TAILQ_INSERT_AFTER(&tail, first, it, tail);
        STAILQ_INSERT_AFTER(&simple_tail, first, it, simple_tail);
        SIMPLEQ_INSERT_AFTER(&simple, first, it, simple);
    } else {
        LIST_INSERT_BEFORE(first, it, list);
        SLIST_INSERT_HEAD(&single, it, single);
        TAILQ_INSERT_BEFORE(first, it, tail);
        STAILQ_INSERT_TAIL(&simple_tail, it, simple_tail);
        SIMPLEQ_INSERT_TAIL(&simple, it, simple);
    }
}

static void take_out(int number)
{
    struct node *it, *next;
    LIST_FOREACH_SAFE(it, &list, list, next)
        if (it->number == number)
            LIST_REMOVE(it, list);
    TAILQ_FOREACH_SAFE(it, &tail, tail, next)
        if (it->number == number)
            TAILQ_REMOVE(&tail, it, tail);
    STAILQ_FOREACH_SAFE(it, &simple_tail, simple_tail, next)
        if (it->number == number)
            STAILQ_REMOVE(&simple_tail, it, node, simple_tail);
    SIMPLEQ_FOREACH_SAFE(it, &simple, simple, next)
        if (it == SIMPLEQ_FIRST(&simple) && it->number == number)
            SIMPLEQ_REMOVE_HEAD(&simple, simple);
    SLIST_FOREACH_SAFE(it, &single, single, next)
        if (it->number == number)
            SLIST_REMOVE(&single, it, node, single);
}

static void join(void)
{
    struct node *it, *next;
    TAILQ_INIT(&other);
    STAILQ_INIT(&more);
    TAILQ_CONCAT(&tail, &other, tail);
    STAILQ_CONCAT(&simple_tail, &more);
    it = make(100);
    TAILQ_INSERT_TAIL(&other, it, tail);
    STAILQ_INSERT_TAIL(&more, it, simple_tail);
    TAILQ_CONCAT(&tail, &other, tail);
    STAILQ_CONCAT(&simple_tail, &more);
    STAILQ_REMOVE_HEAD(&simple_tail, simple_tail);
    it = TAILQ_LAST(&tail, tails);
    printf("%d %d %d\n", TAILQ_EMPTY(&other), STAILQ_EMPTY(&more), it->number);
    show();
    TAILQ_FOREACH_REVERSE_SAFE(it, &tail, tails, tail, next) {
        TAILQ_REMOVE(&tail, it, tail);
        printf("%d ", it->number);
        free(it);
    }
    printf("%d\n", TAILQ_EMPTY(&tail) && tail.tqh_last == &tail.tqh_first);
}

int main(void)
{
    for (int i = 0; i < 10; i++)
        insert(make(i));
    show();
    take_out(9);
    take_out(8);
    take_out(4);
    show();
    SLIST_REMOVE_HEAD(&single, single);
    show();
    join();
    LIST_INIT(&list);
    SLIST_INIT(&single);
    SIMPLEQ_INIT(&simple);
    printf("%d%d%d\n", LIST_EMPTY(&list), SLIST_EMPTY(&single), SIMPLEQ_EMPTY(&simple));
    return 0;
}
