/* The services of the host, by their numbers in x8, for tenants in C. Compiled for another machine
   than AArch64 they are calls of its C library, so that other tools can look for the same bugs. */
#ifndef TENANT_H
#define TENANT_H

#include <stddef.h>
#include <stdint.h>

#ifdef __aarch64__

static inline int64_t tenant_call(int64_t number, int64_t first, int64_t second)
{
    register int64_t x0 __asm__("x0") = first;
    register int64_t x1 __asm__("x1") = second;
    register int64_t x8 __asm__("x8") = number;
    __asm__ volatile("svc #0" : "+r"(x0) : "r"(x1), "r"(x8) : "memory");
    return x0;
}

/* Ends the tenant with the code, modulo 256. */
static inline _Noreturn void tenant_exit(int code)
{
    for (;;)
        tenant_call(0, code, 0);
}

/* Appends bytes to the output, as many as there is room for, and returns their number. */
static inline size_t tenant_write(const void *bytes, size_t count)
{
    return (size_t)tenant_call(1, (int64_t)bytes, (int64_t)count);
}

/* Reads the next bytes of the input, as many as are left, and returns their number. */
static inline size_t tenant_read(void *bytes, size_t count)
{
    return (size_t)tenant_call(2, (int64_t)bytes, (int64_t)count);
}

/* The heap: as in the C library; a pointer has its chunk's tag in bits 59 to 56. */
static inline void *tenant_malloc(size_t size)
{
    return (void *)tenant_call(3, (int64_t)size, 0);
}

static inline void tenant_free(void *chunk)
{
    tenant_call(4, (int64_t)chunk, 0);
}

static inline void *tenant_calloc(size_t count, size_t size)
{
    return (void *)tenant_call(5, (int64_t)count, (int64_t)size);
}

static inline void *tenant_realloc(void *chunk, size_t size)
{
    return (void *)tenant_call(6, (int64_t)chunk, (int64_t)size);
}

static inline void *tenant_memalign(size_t alignment, size_t size)
{
    return (void *)tenant_call(7, (int64_t)alignment, (int64_t)size);
}

static inline size_t tenant_usable_size(void *chunk)
{
    return (size_t)tenant_call(8, (int64_t)chunk, 0);
}

/* Ends the slice; the tenant goes on with its next one. */
static inline void tenant_yield(void)
{
    tenant_call(9, 0, 0);
}

/* How many steps of the slice are left, and how many more pages the tenant may have mapped. */
static inline uint64_t tenant_steps_left(void)
{
    return (uint64_t)tenant_call(10, 0, 0);
}

static inline uint64_t tenant_pages_left(void)
{
    return (uint64_t)tenant_call(11, 0, 0);
}

#else

#include <malloc.h>
#include <stdio.h>
#include <stdlib.h>

static inline _Noreturn void tenant_exit(int code)
{
    exit(code & 255);
}

static inline size_t tenant_write(const void *bytes, size_t count)
{
    return fwrite(bytes, 1, count, stdout);
}

static inline size_t tenant_read(void *bytes, size_t count)
{
    return fread(bytes, 1, count, stdin);
}

static inline void *tenant_malloc(size_t size)
{
    return malloc(size);
}

static inline void tenant_free(void *chunk)
{
    free(chunk);
}

static inline void *tenant_calloc(size_t count, size_t size)
{
    return calloc(count, size);
}

static inline void *tenant_realloc(void *chunk, size_t size)
{
    return realloc(chunk, size);
}

static inline void *tenant_memalign(size_t alignment, size_t size)
{
    return memalign(alignment, size);
}

static inline size_t tenant_usable_size(void *chunk)
{
    return malloc_usable_size(chunk);
}

static inline void tenant_yield(void)
{
}

/* As if there were always some. */
static inline uint64_t tenant_steps_left(void)
{
    return 1048576;
}

static inline uint64_t tenant_pages_left(void)
{
    return 4096;
}

#endif

#endif
