/* musl's atomic operations, for a machine of one thread: plain ones. */
#define a_cas a_cas
static inline int a_cas(volatile int *place, int expected, int wanted)
{
    int old = *place;
    if (old == expected)
        *place = wanted;
    return old;
}

#define a_cas_p a_cas_p
static inline void *a_cas_p(volatile void *place, void *expected, void *wanted)
{
    void *volatile *at = (void *volatile *)place;
    void *old = *at;
    if (old == expected)
        *at = wanted;
    return old;
}

#define a_barrier a_barrier
static inline void a_barrier(void)
{
    __asm__ volatile("" : : : "memory");
}

/* Where the library finds that it can't go on. */
#define a_crash a_crash
static inline void a_crash(void)
{
    __builtin_trap();
}

#define a_ctz_64 a_ctz_64
static inline int a_ctz_64(uint64_t value)
{
    return __builtin_ctzll(value);
}

#define a_clz_64 a_clz_64
static inline int a_clz_64(uint64_t value)
{
    return __builtin_clzll(value);
}
