/* Lists whose links are in their elements, with the names of the BSDs: SLIST (one link), STAILQ and
   SIMPLEQ (one link, and the end is known), LIST (two links), TAILQ (two links, and the end is
   known). A name of a link back is the address of what points to the element. */
#ifndef _SYS_QUEUE_H_
#define _SYS_QUEUE_H_

#include <stddef.h>

#define SLIST_HEAD(name, type) struct name { struct type *slh_first; }
#define SLIST_HEAD_INITIALIZER(head) { NULL }
#define SLIST_ENTRY(type) struct { struct type *sle_next; }
#define SLIST_FIRST(head) ((head)->slh_first)
#define SLIST_EMPTY(head) (SLIST_FIRST(head) == NULL)
#define SLIST_NEXT(it, link) ((it)->link.sle_next)
#define SLIST_INIT(head) do { SLIST_FIRST(head) = NULL; } while (0)
#define SLIST_FOREACH(it, head, link) \
    for ((it) = SLIST_FIRST(head); (it); (it) = SLIST_NEXT(it, link))
#define SLIST_FOREACH_SAFE(it, head, link, next) \
    for ((it) = SLIST_FIRST(head); (it) && ((next) = SLIST_NEXT(it, link), 1); (it) = (next))
#define SLIST_INSERT_HEAD(head, it, link) do { \
        SLIST_NEXT(it, link) = SLIST_FIRST(head); \
        SLIST_FIRST(head) = (it); \
    } while (0)
#define SLIST_INSERT_AFTER(before, it, link) do { \
        SLIST_NEXT(it, link) = SLIST_NEXT(before, link); \
        SLIST_NEXT(before, link) = (it); \
    } while (0)
#define SLIST_REMOVE_HEAD(head, link) do { \
        SLIST_FIRST(head) = SLIST_NEXT(SLIST_FIRST(head), link); \
    } while (0)
#define SLIST_REMOVE_AFTER(before, link) do { \
        SLIST_NEXT(before, link) = SLIST_NEXT(SLIST_NEXT(before, link), link); \
    } while (0)
#define SLIST_REMOVE(head, it, type, link) do { \
        struct type **_place = &SLIST_FIRST(head); \
        while (*_place != (it)) \
            _place = &SLIST_NEXT(*_place, link); \
        *_place = SLIST_NEXT(*_place, link); \
    } while (0)

#define STAILQ_HEAD(name, type) struct name { struct type *stqh_first, **stqh_last; }
#define STAILQ_HEAD_INITIALIZER(head) { NULL, &(head).stqh_first }
#define STAILQ_ENTRY(type) struct { struct type *stqe_next; }
#define STAILQ_FIRST(head) ((head)->stqh_first)
#define STAILQ_EMPTY(head) (STAILQ_FIRST(head) == NULL)
#define STAILQ_NEXT(it, link) ((it)->link.stqe_next)
#define STAILQ_INIT(head) do { \
        STAILQ_FIRST(head) = NULL; \
        (head)->stqh_last = &STAILQ_FIRST(head); \
    } while (0)
#define STAILQ_LAST(head, type, link) \
    (STAILQ_EMPTY(head) ? NULL \
     : (struct type *)(void *)((char *)(head)->stqh_last - offsetof(struct type, link)))
#define STAILQ_FOREACH(it, head, link) \
    for ((it) = STAILQ_FIRST(head); (it); (it) = STAILQ_NEXT(it, link))
#define STAILQ_FOREACH_SAFE(it, head, link, next) \
    for ((it) = STAILQ_FIRST(head); (it) && ((next) = STAILQ_NEXT(it, link), 1); (it) = (next))
#define STAILQ_INSERT_HEAD(head, it, link) do { \
        if ((STAILQ_NEXT(it, link) = STAILQ_FIRST(head)) == NULL) \
            (head)->stqh_last = &STAILQ_NEXT(it, link); \
        STAILQ_FIRST(head) = (it); \
    } while (0)
#define STAILQ_INSERT_TAIL(head, it, link) do { \
        STAILQ_NEXT(it, link) = NULL; \
        *(head)->stqh_last = (it); \
        (head)->stqh_last = &STAILQ_NEXT(it, link); \
    } while (0)
#define STAILQ_INSERT_AFTER(head, before, it, link) do { \
        if ((STAILQ_NEXT(it, link) = STAILQ_NEXT(before, link)) == NULL) \
            (head)->stqh_last = &STAILQ_NEXT(it, link); \
        STAILQ_NEXT(before, link) = (it); \
    } while (0)
#define STAILQ_REMOVE_HEAD(head, link) do { \
        if ((STAILQ_FIRST(head) = STAILQ_NEXT(STAILQ_FIRST(head), link)) == NULL) \
            (head)->stqh_last = &STAILQ_FIRST(head); \
    } while (0)
#define STAILQ_REMOVE(head, it, type, link) do { \
        struct type **_place = &STAILQ_FIRST(head); \
        while (*_place != (it)) \
            _place = &STAILQ_NEXT(*_place, link); \
        if ((*_place = STAILQ_NEXT(*_place, link)) == NULL) \
            (head)->stqh_last = _place; \
    } while (0)
#define STAILQ_CONCAT(head, more) do { \
        if (!STAILQ_EMPTY(more)) { \
            *(head)->stqh_last = STAILQ_FIRST(more); \
            (head)->stqh_last = (more)->stqh_last; \
            STAILQ_INIT(more); \
        } \
    } while (0)

#define SIMPLEQ_HEAD(name, type) struct name { struct type *sqh_first, **sqh_last; }
#define SIMPLEQ_HEAD_INITIALIZER(head) { NULL, &(head).sqh_first }
#define SIMPLEQ_ENTRY(type) struct { struct type *sqe_next; }
#define SIMPLEQ_FIRST(head) ((head)->sqh_first)
#define SIMPLEQ_EMPTY(head) (SIMPLEQ_FIRST(head) == NULL)
#define SIMPLEQ_NEXT(it, link) ((it)->link.sqe_next)
#define SIMPLEQ_INIT(head) do { \
        SIMPLEQ_FIRST(head) = NULL; \
        (head)->sqh_last = &SIMPLEQ_FIRST(head); \
    } while (0)
#define SIMPLEQ_FOREACH(it, head, link) \
    for ((it) = SIMPLEQ_FIRST(head); (it); (it) = SIMPLEQ_NEXT(it, link))
#define SIMPLEQ_FOREACH_SAFE(it, head, link, next) \
    for ((it) = SIMPLEQ_FIRST(head); (it) && ((next) = SIMPLEQ_NEXT(it, link), 1); (it) = (next))
#define SIMPLEQ_INSERT_HEAD(head, it, link) do { \
        if ((SIMPLEQ_NEXT(it, link) = SIMPLEQ_FIRST(head)) == NULL) \
            (head)->sqh_last = &SIMPLEQ_NEXT(it, link); \
        SIMPLEQ_FIRST(head) = (it); \
    } while (0)
#define SIMPLEQ_INSERT_TAIL(head, it, link) do { \
        SIMPLEQ_NEXT(it, link) = NULL; \
        *(head)->sqh_last = (it); \
        (head)->sqh_last = &SIMPLEQ_NEXT(it, link); \
    } while (0)
#define SIMPLEQ_INSERT_AFTER(head, before, it, link) do { \
        if ((SIMPLEQ_NEXT(it, link) = SIMPLEQ_NEXT(before, link)) == NULL) \
            (head)->sqh_last = &SIMPLEQ_NEXT(it, link); \
        SIMPLEQ_NEXT(before, link) = (it); \
    } while (0)
#define SIMPLEQ_REMOVE_HEAD(head, link) do { \
        if ((SIMPLEQ_FIRST(head) = SIMPLEQ_NEXT(SIMPLEQ_FIRST(head), link)) == NULL) \
            (head)->sqh_last = &SIMPLEQ_FIRST(head); \
    } while (0)

#define LIST_HEAD(name, type) struct name { struct type *lh_first; }
#define LIST_HEAD_INITIALIZER(head) { NULL }
#define LIST_ENTRY(type) struct { struct type *le_next, **le_prev; }
#define LIST_FIRST(head) ((head)->lh_first)
#define LIST_EMPTY(head) (LIST_FIRST(head) == NULL)
#define LIST_NEXT(it, link) ((it)->link.le_next)
#define LIST_INIT(head) do { LIST_FIRST(head) = NULL; } while (0)
#define LIST_FOREACH(it, head, link) \
    for ((it) = LIST_FIRST(head); (it); (it) = LIST_NEXT(it, link))
#define LIST_FOREACH_SAFE(it, head, link, next) \
    for ((it) = LIST_FIRST(head); (it) && ((next) = LIST_NEXT(it, link), 1); (it) = (next))
#define LIST_INSERT_HEAD(head, it, link) do { \
        if ((LIST_NEXT(it, link) = LIST_FIRST(head)) != NULL) \
            LIST_FIRST(head)->link.le_prev = &LIST_NEXT(it, link); \
        LIST_FIRST(head) = (it); \
        (it)->link.le_prev = &LIST_FIRST(head); \
    } while (0)
#define LIST_INSERT_AFTER(before, it, link) do { \
        if ((LIST_NEXT(it, link) = LIST_NEXT(before, link)) != NULL) \
            LIST_NEXT(before, link)->link.le_prev = &LIST_NEXT(it, link); \
        LIST_NEXT(before, link) = (it); \
        (it)->link.le_prev = &LIST_NEXT(before, link); \
    } while (0)
#define LIST_INSERT_BEFORE(after, it, link) do { \
        (it)->link.le_prev = (after)->link.le_prev; \
        LIST_NEXT(it, link) = (after); \
        *(after)->link.le_prev = (it); \
        (after)->link.le_prev = &LIST_NEXT(it, link); \
    } while (0)
#define LIST_REMOVE(it, link) do { \
        if (LIST_NEXT(it, link) != NULL) \
            LIST_NEXT(it, link)->link.le_prev = (it)->link.le_prev; \
        *(it)->link.le_prev = LIST_NEXT(it, link); \
    } while (0)

/* A head and an element's link begin with the same two pointers, by which the last element and the
   one in front of another are found. */
#define TAILQ_HEAD(name, type) struct name { struct type *tqh_first, **tqh_last; }
#define TAILQ_HEAD_INITIALIZER(head) { NULL, &(head).tqh_first }
#define TAILQ_ENTRY(type) struct { struct type *tqe_next, **tqe_prev; }
#define TAILQ_FIRST(head) ((head)->tqh_first)
#define TAILQ_END(head) NULL
#define TAILQ_EMPTY(head) (TAILQ_FIRST(head) == NULL)
#define TAILQ_NEXT(it, link) ((it)->link.tqe_next)
#define TAILQ_LAST(head, name) (*((struct name *)(void *)(head)->tqh_last)->tqh_last)
#define TAILQ_PREV(it, name, link) (*((struct name *)(void *)(it)->link.tqe_prev)->tqh_last)
#define TAILQ_INIT(head) do { \
        TAILQ_FIRST(head) = NULL; \
        (head)->tqh_last = &TAILQ_FIRST(head); \
    } while (0)
#define TAILQ_FOREACH(it, head, link) \
    for ((it) = TAILQ_FIRST(head); (it); (it) = TAILQ_NEXT(it, link))
#define TAILQ_FOREACH_SAFE(it, head, link, next) \
    for ((it) = TAILQ_FIRST(head); (it) && ((next) = TAILQ_NEXT(it, link), 1); (it) = (next))
#define TAILQ_FOREACH_REVERSE(it, head, name, link) \
    for ((it) = TAILQ_LAST(head, name); (it); (it) = TAILQ_PREV(it, name, link))
#define TAILQ_FOREACH_REVERSE_SAFE(it, head, name, link, next) \
    for ((it) = TAILQ_LAST(head, name); (it) && ((next) = TAILQ_PREV(it, name, link), 1); \
         (it) = (next))
#define TAILQ_INSERT_HEAD(head, it, link) do { \
        if ((TAILQ_NEXT(it, link) = TAILQ_FIRST(head)) != NULL) \
            TAILQ_FIRST(head)->link.tqe_prev = &TAILQ_NEXT(it, link); \
        else \
            (head)->tqh_last = &TAILQ_NEXT(it, link); \
        TAILQ_FIRST(head) = (it); \
        (it)->link.tqe_prev = &TAILQ_FIRST(head); \
    } while (0)
#define TAILQ_INSERT_TAIL(head, it, link) do { \
        TAILQ_NEXT(it, link) = NULL; \
        (it)->link.tqe_prev = (head)->tqh_last; \
        *(head)->tqh_last = (it); \
        (head)->tqh_last = &TAILQ_NEXT(it, link); \
    } while (0)
#define TAILQ_INSERT_AFTER(head, before, it, link) do { \
        if ((TAILQ_NEXT(it, link) = TAILQ_NEXT(before, link)) != NULL) \
            TAILQ_NEXT(it, link)->link.tqe_prev = &TAILQ_NEXT(it, link); \
        else \
            (head)->tqh_last = &TAILQ_NEXT(it, link); \
        TAILQ_NEXT(before, link) = (it); \
        (it)->link.tqe_prev = &TAILQ_NEXT(before, link); \
    } while (0)
#define TAILQ_INSERT_BEFORE(after, it, link) do { \
        (it)->link.tqe_prev = (after)->link.tqe_prev; \
        TAILQ_NEXT(it, link) = (after); \
        *(after)->link.tqe_prev = (it); \
        (after)->link.tqe_prev = &TAILQ_NEXT(it, link); \
    } while (0)
#define TAILQ_REMOVE(head, it, link) do { \
        if (TAILQ_NEXT(it, link) != NULL) \
            TAILQ_NEXT(it, link)->link.tqe_prev = (it)->link.tqe_prev; \
        else \
            (head)->tqh_last = (it)->link.tqe_prev; \
        *(it)->link.tqe_prev = TAILQ_NEXT(it, link); \
    } while (0)
#define TAILQ_CONCAT(head, more, link) do { \
        if (!TAILQ_EMPTY(more)) { \
            *(head)->tqh_last = TAILQ_FIRST(more); \
            TAILQ_FIRST(more)->link.tqe_prev = (head)->tqh_last; \
            (head)->tqh_last = (more)->tqh_last; \
            TAILQ_INIT(more); \
        } \
    } while (0)

#endif
