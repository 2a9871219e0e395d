/* Packs words by LZMA2 at level 0, in XZ's format with CRC32, and expands them. */
#include <stdlib.h>
#include "driver.h"
#include "lzma.h"

/* With the level's own dictionary the encoder needs a chunk of more than 1 MiB, which a tenant
   has not. */
enum { MORE = 1000, DICTIONARY = 64 * 1024 };

int main(void)
{
    unsigned long left = read_number(), bytes = read_number();
    unsigned char *text = malloc(bytes), *packed = malloc(bytes + MORE), *back = malloc(bytes);
    size_t count = 0;
    lzma_options_lzma options;
    lzma_filter filters[] = {{LZMA_FILTER_LZMA2, &options}, {LZMA_VLI_UNKNOWN, NULL}};
    if (lzma_lzma_preset(&options, 0))
        return 2;
    options.dict_size = DICTIONARY;
    make_text((char *)text, bytes);
    for (; left; left--) {
        uint64_t memory = UINT64_MAX;
        size_t from = 0, to = 0;
        count = 0;
        if (lzma_stream_buffer_encode(filters, LZMA_CHECK_CRC32, NULL, text, bytes, packed, &count,
                                      bytes + MORE) != LZMA_OK)
            return 3;
        if (lzma_stream_buffer_decode(&memory, 0, NULL, packed, &from, count, back, &to, bytes) !=
                LZMA_OK || to != bytes)
            return 4;
    }
    return write_sum(sum_bytes(sum_bytes(SUM_START, packed, count), back, bytes));
}
