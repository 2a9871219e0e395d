/* A chunk that one function of C or C++ makes and another frees. The input's two digits say which:
   0 is malloc and free, 1 new and delete, 2 new[] and delete[]; of the second digit 3 and 4 are
   delete and delete[] that are told the size, 5 and 6 those that are told another. */
#include "tenant.h"

#define NAMED(name) __asm__(name) __attribute__((noinline, used))

void *c_malloc(size_t size) NAMED("malloc");
void c_free(void *chunk) NAMED("free");
void *cxx_new(size_t size) NAMED("_Znwm");
void cxx_delete(void *chunk) NAMED("_ZdlPv");
void *cxx_new_array(size_t size) NAMED("_Znam");
void cxx_delete_array(void *chunk) NAMED("_ZdaPv");
void cxx_delete_sized(void *chunk, size_t size) NAMED("_ZdlPvm");
void cxx_delete_array_sized(void *chunk, size_t size) NAMED("_ZdaPvm");

static volatile int calls[4];
static void *volatile kept;

void *c_malloc(size_t size) { return tenant_malloc(size); }
void c_free(void *chunk) { tenant_free(chunk); }

void *cxx_new(size_t size)
{
    void *chunk = c_malloc(size);
    calls[0]++;
    kept = c_malloc(144); /* as for an exception: it is malloc's */
    return chunk;
}

void *cxx_new_array(size_t size)
{
    void *chunk = cxx_new(size);
    calls[1]++;
    return chunk;
}

/* At -O2 these end by a jump to what they call. */
void cxx_delete(void *chunk) { calls[2]++, c_free(chunk); }
void cxx_delete_array(void *chunk) { calls[3]++, cxx_delete(chunk); }

void cxx_delete_sized(void *chunk, size_t size) { calls[2] += size, cxx_delete(chunk); }
void cxx_delete_array_sized(void *chunk, size_t size)
{
    calls[3] += size;
    cxx_delete_array(chunk);
}

static void *make(char which)
{
    switch (which) {
    case '0': return c_malloc(40);
    case '1': return cxx_new(40);
    default: return cxx_new_array(40);
    }
}

static void release(char which, void *chunk)
{
    switch (which) {
    case '0': c_free(chunk); break;
    case '1': cxx_delete(chunk); break;
    case '3': cxx_delete_sized(chunk, 40); break;
    case '4': cxx_delete_array_sized(chunk, 40); break;
    case '5': cxx_delete_sized(chunk, 16); break;
    case '6': cxx_delete_array_sized(chunk, 16); break;
    default: cxx_delete_array(chunk); break;
    }
}

int main(void)
{
    char which[2];
    tenant_read(which, 2);
    release(which[1], make(which[0]));
    c_free(kept);
    return 0;
}
