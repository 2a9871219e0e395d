/* What compilers call for atomic operations (-moutline-atomics): there is one thread, so plain
   accesses. */
#include <stdint.h>

typedef unsigned __int128 uint128_t;

#define SWAP(bits, bytes, order) \
    uint##bits##_t __aarch64_swp##bytes##_##order(uint##bits##_t value, uint##bits##_t *place) \
    { \
        uint##bits##_t old = *place; \
        *place = value; \
        return old; \
    }

#define COMPARE(bits, bytes, order) \
    uint##bits##_t __aarch64_cas##bytes##_##order( \
        uint##bits##_t expected, uint##bits##_t wanted, uint##bits##_t *place) \
    { \
        uint##bits##_t old = *place; \
        if (old == expected) \
            *place = wanted; \
        return old; \
    }

#define CHANGE(name, bits, bytes, order, changed) \
    uint##bits##_t __aarch64_##name##bytes##_##order(uint##bits##_t value, uint##bits##_t *place) \
    { \
        uint##bits##_t old = *place; \
        *place = (uint##bits##_t)(changed); \
        return old; \
    }

#define OF_SIZE(bits, bytes, order) \
    SWAP(bits, bytes, order) \
    COMPARE(bits, bytes, order) \
    CHANGE(ldadd, bits, bytes, order, old + value) \
    CHANGE(ldclr, bits, bytes, order, old & ~value) \
    CHANGE(ldeor, bits, bytes, order, old ^ value) \
    CHANGE(ldset, bits, bytes, order, old | value)

#define OF_ORDER(order) \
    OF_SIZE(8, 1, order) \
    OF_SIZE(16, 2, order) \
    OF_SIZE(32, 4, order) \
    OF_SIZE(64, 8, order) \
    COMPARE(128, 16, order)

OF_ORDER(relax)
OF_ORDER(acq)
OF_ORDER(rel)
OF_ORDER(acq_rel)
OF_ORDER(sync)
