/* The types of C's headers, which the toolchain's clang does not have. */
#ifndef SMALL_H
#define SMALL_H

typedef __UINT8_TYPE__ uint8_t;
typedef __UINT64_TYPE__ uint64_t;
typedef __UINTPTR_TYPE__ uintptr_t;
typedef __SIZE_TYPE__ size_t;
typedef __PTRDIFF_TYPE__ ptrdiff_t;
typedef _Bool bool;

#define EXPORT(name) __attribute__((export_name(#name)))

/* Memory for what the page lends, and for files; null where there is none. */
uint8_t *page_alloc(size_t size);
void page_free(uint8_t *block);

#endif
