/* Expands the first bytes of a block, as many as a number that was read as one below 0. */
#include <stdio.h>
#include <stdlib.h>
#include <string.h>
#include "lz4.h"

int main(void)
{
    char text[200], packed[300], *expanded = malloc(sizeof text);
    for (size_t i = 0; i < sizeof text; i++)
        text[i] = (char)('a' + i * i % 26);
    int size = LZ4_compress_default(text, packed, sizeof text, sizeof packed);
    int written = LZ4_decompress_safe_partial(packed, expanded, size, -1, sizeof text);
    printf("%d\n", written < 0 ? -1 : written);
    free(expanded);
    return 0;
}
