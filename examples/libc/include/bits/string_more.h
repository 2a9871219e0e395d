/* What <string.h> has besides, as GNU's C library does (../../src/gnu.c). */
#ifndef _BITS_STRING_MORE_H
#define _BITS_STRING_MORE_H
#ifdef _GNU_SOURCE
#ifdef __cplusplus
extern "C" {
#endif

void *rawmemchr(const void *bytes, int wanted);

#ifdef __cplusplus
}
#endif
#endif
#endif
