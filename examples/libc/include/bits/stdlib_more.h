/* What <stdlib.h> has besides, as GNU's C library does (../../src/gnu.c and arc4random.c). */
#ifndef _BITS_STDLIB_MORE_H
#define _BITS_STDLIB_MORE_H
#if defined(_GNU_SOURCE) || defined(_BSD_SOURCE)
#ifdef __cplusplus
extern "C" {
#endif

int rpmatch(const char *answer);
__UINT32_TYPE__ arc4random(void);
__UINT32_TYPE__ arc4random_uniform(__UINT32_TYPE__ bound);
void arc4random_buf(void *place, size_t size);
#ifdef _GNU_SOURCE
char *canonicalize_file_name(const char *name);
#endif

#ifdef __cplusplus
}
#endif
#endif
#endif
