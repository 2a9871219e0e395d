/* Standard output is written a line at a time, so that a tenant's lines are there where it faults
   later. */
#include "stdio_impl.h"

size_t __stdout_write(FILE *file, const unsigned char *bytes, size_t count)
{
    file->write = __stdio_write;
    return __stdio_write(file, bytes, count);
}
