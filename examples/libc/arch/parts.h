/* Input and output in parts, for ../src/services.c and ../src/files.c. */
#ifndef PARTS_H
#define PARTS_H

#include <sys/uio.h>
#include "syscall.h"

/* Reads or writes bytes of a descriptor: their number, or a negative number of <errno.h>. */
typedef long tenant_move(long number, void *bytes, size_t count);

/* Parts one after the other, up to the first that is not whole. */
static inline long move_parts(tenant_move *move, long number, const struct iovec *parts, long count)
{
    long sum = 0;
    for (long i = 0; i < count; i++) {
        long done = move(number, parts[i].iov_base, parts[i].iov_len);
        if (done < 0)
            return sum ? sum : done;
        sum += done;
        if ((size_t)done < parts[i].iov_len)
            break;
    }
    return sum;
}

/* What SYS_read, SYS_write, SYS_readv and SYS_writev answer. */
static inline long move_bytes(tenant_move *read, tenant_move *write, long call, long number,
                              long place, long count)
{
    tenant_move *move = call == SYS_read || call == SYS_readv ? read : write;
    if (call == SYS_read || call == SYS_write)
        return move(number, (void *)place, (size_t)count);
    return move_parts(move, number, (const struct iovec *)place, count);
}

#endif
