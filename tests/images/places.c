/* Jumps to what is no code, and writes to what may be read alone. The first letter of the input
   says which. */
#include "tenant.h"

#define APART __attribute__((noinline))

typedef int step(int);

struct machine {
    uint64_t count;
    step *next;
};

static const char text[] = "constant";
static int global = 3;
static volatile int zero;

APART static int add(int number)
{
    return number + global;
}

/* The target comes from a chunk of the heap. */
APART static int run(struct machine *machine)
{
    machine->count++;
    return machine->next(2) + 1;
}

APART static int run_from(uintptr_t place)
{
    struct machine *machine = tenant_malloc(sizeof *machine);
    machine->count = 0;
    machine->next = place ? (step *)place : add;
    int number = run(machine);
    tenant_free(machine);
    return number;
}

APART static int write_to(volatile char *place)
{
    place[zero] = 'X';
    return place[0];
}

APART static int write_all(void)
{
    return write_to((char *)(uintptr_t)text + 3);
}

int main(void)
{
    char act = 0;
    tenant_read(&act, 1);
    switch (act) {
    case 'c':
        return write_all() + 1;
    case 'd':
        return run_from((uintptr_t)&global) + 1;
    case 'j':
        return run_from(0x5550000) + 1;
    case 'o':
        return write_to((char *)(uintptr_t)add) + 1;
    case 'p':
        return run_from((uintptr_t)add + 2) + 1;
    case 'w':
        return run_from(0) - 6;
    }
    return 0;
}
