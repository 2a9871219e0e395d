/* The guards of C++'s local static objects, by their names in the Itanium C++ ABI. */
#include <stdint.h>

/* Whether the object of a guard has still to be made. */
int __cxa_guard_acquire(uint64_t *guard) { return *(unsigned char *)guard == 0; }
void __cxa_guard_release(uint64_t *guard) { *(unsigned char *)guard = 1; }
void __cxa_guard_abort(uint64_t *guard) { (void)guard; }

void *__dso_handle;
