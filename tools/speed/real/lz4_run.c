/* Packs words by LZ4 and expands them. */
#include <stdlib.h>
#include "driver.h"
#include "lz4.h"

int main(void)
{
    unsigned long left = read_number(), bytes = read_number();
    int count = 0, length = (int)bytes, room = LZ4_compressBound(length);
    char *text = malloc(bytes), *packed = malloc((size_t)room), *back = malloc(bytes);
    make_text(text, bytes);
    for (; left; left--) {
        count = LZ4_compress_default(text, packed, length, room);
        if (LZ4_decompress_safe(packed, back, count, length) != length)
            return 2;
    }
    return write_sum(sum_bytes(sum_bytes(SUM_START, packed, (size_t)count), back, bytes));
}
