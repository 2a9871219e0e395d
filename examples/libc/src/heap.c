/* malloc and its kin: services 3 to 8. */
#include <errno.h>
#include <stdlib.h>
#include "tenant.h"

/* A chunk, or the reason where there is none. */
static void *checked(void *chunk)
{
    if (!chunk)
        errno = ENOMEM;
    return chunk;
}

void *malloc(size_t size)
{
    return checked(tenant_malloc(size));
}

void free(void *chunk)
{
    tenant_free(chunk);
}

void *calloc(size_t count, size_t size)
{
    return checked(tenant_calloc(count, size));
}

void *realloc(void *chunk, size_t size)
{
    return checked(chunk ? tenant_realloc(chunk, size) : tenant_malloc(size));
}

void *memalign(size_t alignment, size_t size)
{
    return checked(tenant_memalign(alignment, size));
}

void *aligned_alloc(size_t alignment, size_t size)
{
    return checked(tenant_memalign(alignment, size));
}

int posix_memalign(void **result, size_t alignment, size_t size)
{
    if (alignment < sizeof(void *))
        return EINVAL;
    void *chunk = tenant_memalign(alignment, size);
    if (!chunk)
        return ENOMEM;
    *result = chunk;
    return 0;
}

size_t malloc_usable_size(void *chunk)
{
    return chunk ? tenant_usable_size(chunk) : 0;
}

/* The names by which musl calls its own. */
void *__libc_malloc(size_t size)
{
    return malloc(size);
}

void *__libc_calloc(size_t count, size_t size)
{
    return calloc(count, size);
}

void *__libc_realloc(void *chunk, size_t size)
{
    return realloc(chunk, size);
}

void __libc_free(void *chunk)
{
    free(chunk);
}
