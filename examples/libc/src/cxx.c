/* C++'s new and delete without its library, by their names in the Itanium C++ ABI. */
#include <stddef.h>
#include <stdlib.h>

static void *take(size_t size)
{
    void *chunk = malloc(size);
    if (!chunk)
        abort();
    return chunk;
}

void *_Znwm(size_t size) { return take(size); }
void *_Znam(size_t size) { return take(size); }
void *_ZnwmRKSt9nothrow_t(size_t size, const void *tag) { return (void)tag, malloc(size); }
void *_ZnamRKSt9nothrow_t(size_t size, const void *tag) { return (void)tag, malloc(size); }
void _ZdlPv(void *chunk) { free(chunk); }
void _ZdaPv(void *chunk) { free(chunk); }
void _ZdlPvm(void *chunk, size_t size) { (void)size, free(chunk); }
void _ZdaPvm(void *chunk, size_t size) { (void)size, free(chunk); }
