/* Reads towns and roads, `from to length` a line, and writes the shortest way from the first town
   to each other one (Dijkstra's algorithm with a heap; the towns are a binary search tree). */
#include <limits.h>
#include <stdio.h>
#include <stdlib.h>
#include <string.h>

struct road {
    struct road *next;
    struct town *to;
    unsigned length;
};

struct town {
    char name[24];
    struct town *left, *right, *before;
    struct road *roads;
    unsigned distance;
};

struct stop {
    unsigned distance;
    struct town *town;
};

static struct town *root, *first;
static struct stop *heap;
static size_t waiting, room;

static struct town *find_town(const char *name)
{
    struct town **at = &root;
    int order;
    while (*at && (order = strcmp(name, (*at)->name)) != 0)
        at = order < 0 ? &(*at)->left : &(*at)->right;
    if (!*at) {
        *at = calloc(1, sizeof **at);
        snprintf((*at)->name, sizeof (*at)->name, "%s", name);
        (*at)->distance = UINT_MAX;
        if (!first)
            first = *at;
    }
    return *at;
}

static void add_road(struct town *from, struct town *to, unsigned length)
{
    struct road *road = malloc(sizeof *road);
    *road = (struct road){from->roads, to, length};
    from->roads = road;
}

static void push(struct town *town)
{
    if (waiting == room)
        heap = realloc(heap, (room = 2 * room + 1) * sizeof *heap);
    size_t at = waiting++;
    for (; at && heap[(at - 1) / 2].distance > town->distance; at = (at - 1) / 2)
        heap[at] = heap[(at - 1) / 2];
    heap[at] = (struct stop){town->distance, town};
}

static struct stop pop(void)
{
    struct stop least = heap[0], last = heap[--waiting];
    size_t at = 0, child;
    while ((child = 2 * at + 1) < waiting) {
        child += child + 1 < waiting && heap[child + 1].distance < heap[child].distance;
        if (heap[child].distance >= last.distance)
            break;
        heap[at] = heap[child];
        at = child;
    }
    heap[at] = last;
    return least;
}

static void spread(void)
{
    while (waiting) {
        struct stop stop = pop();
        if (stop.distance != stop.town->distance)
            continue;
        for (struct road *road = stop.town->roads; road; road = road->next) {
            unsigned distance = stop.distance + road->length;
            if (distance >= road->to->distance)
                continue;
            road->to->distance = distance;
            road->to->before = stop.town;
            push(road->to);
        }
    }
}

static void write_way(const struct town *town)
{
    if (town->before) {
        write_way(town->before);
        printf(" > ");
    }
    printf("%s", town->name);
}

/* Writes the ways to the towns of a tree, and frees it. */
static void write_tree(struct town *town)
{
    if (!town)
        return;
    write_tree(town->left);
    if (town->distance == UINT_MAX) {
        printf("%-12s no way\n", town->name);
    } else {
        printf("%-12s%6u  ", town->name, town->distance);
        write_way(town);
        putchar('\n');
    }
    write_tree(town->right);
}

static void free_tree(struct town *town)
{
    if (!town)
        return;
    free_tree(town->left);
    free_tree(town->right);
    for (struct road *road = town->roads, *next; road; road = next) {
        next = road->next;
        free(road);
    }
    free(town);
}

int main(void)
{
    char line[128], from[24], to[24];
    unsigned length;
    while (fgets(line, sizeof line, stdin)) {
        if (line[0] == '#' || sscanf(line, "%23s %23s %u", from, to, &length) != 3)
            continue;
        struct town *one = find_town(from), *other = find_town(to);
        add_road(one, other, length);
        add_road(other, one, length);
    }
    if (!first)
        return 1;
    first->distance = 0;
    push(first);
    spread();
    write_tree(root);
    free_tree(root);
    free(heap);
    return 0;
}
