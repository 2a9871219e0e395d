/* Hands out chunks of an arena, takes them back and uses them, as its input says: six bytes an act.
   The first act chooses the arena, of the heap or of the image; its address is the output. */
#include "tenant.h"
#include "tenant_check.h"

enum { ARENA = 1024, ACT = 6, MOST = 64, SLOTS = 16 };

static char fixed[ARENA] __attribute__((aligned(16)));
static char *slots[SLOTS];
static unsigned char acts[ACT * MOST];
static volatile char sink;

/* Reads a byte, and branches on it where asked. */
static void look(volatile char *place, int is_used)
{
    char byte = *place;
    if (is_used)
        __asm__ volatile("cbz %w0, 1f\n1:" : : "r"((int)byte));
    else
        sink = byte;
}

static void do_act(const unsigned char *act, char *arena)
{
    char **slot = &slots[act[1] % SLOTS];
    char *place = arena + (int16_t)(act[2] | act[3] << 8);
    size_t size = (size_t)act[4] | (size_t)act[5] << 8;
    char *used = *slot + (int16_t)(act[2] | act[3] << 8);
    switch (act[0]) {
    case 'c': *slot = CHECK_CHUNK(place, size); break;
    case 'n': CHECK_NO_ACCESS(place, size); break;
    case 'd': CHECK_DEFINED(place, size); break;
    case 'w': *(volatile char *)used = 1; break;
    case 'r': look(used, 0); break;
    case 'b': look(used, 1); break;
    case 'W': *(volatile char *)place = 1; break;
    case 'R': look(place, 0); break;
    case 'B': look(place, 1); break;
    case 'f': tenant_free(arena); break;
    }
}

int main(void)
{
    size_t count = tenant_read(acts, sizeof acts) / ACT;
    char *arena = acts[0] == 'h' ? tenant_malloc(ARENA) : fixed;
    tenant_write(&arena, sizeof arena);
    for (size_t n = 1; n < count; n++)
        do_act(acts + n * ACT, arena);
    return 0;
}
