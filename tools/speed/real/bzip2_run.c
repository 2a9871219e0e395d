/* Packs words by bzip2 at level 1 and expands them. */
#include <stdlib.h>
#include "bzlib.h"
#include "driver.h"

enum { MORE = 1000 };

void bz_internal_error(int code)
{
    (void)code;
    abort();
}

int main(void)
{
    unsigned long left = read_number(), bytes = read_number();
    char *text = malloc(bytes), *packed = malloc(bytes + MORE), *back = malloc(bytes);
    unsigned count = 0;
    make_text(text, bytes);
    for (; left; left--) {
        unsigned length = (unsigned)bytes;
        count = (unsigned)bytes + MORE;
        if (BZ2_bzBuffToBuffCompress(packed, &count, text, length, 1, 0, 30) != BZ_OK)
            return 2;
        if (BZ2_bzBuffToBuffDecompress(back, &length, packed, count, 0, 0) != BZ_OK ||
            length != bytes)
            return 3;
    }
    return write_sum(sum_bytes(sum_bytes(SUM_START, packed, count), back, bytes));
}
