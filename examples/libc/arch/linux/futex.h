/* What libc++'s atomic.cpp asks of Linux, in a call that a tenant's system does not have. */
#define FUTEX_WAIT_PRIVATE 128
#define FUTEX_WAKE_PRIVATE 129
