/* Packs words by zlib at level 6 and expands them. */
#include <stdlib.h>
#include "driver.h"
#include "zlib.h"

enum { MORE = 1000 };

static voidpf take(voidpf opaque, uInt count, uInt size)
{
    (void)opaque;
    return calloc(count, size);
}

static void release(voidpf opaque, voidpf chunk)
{
    (void)opaque;
    free(chunk);
}

static unsigned long pack(char *text, unsigned char *packed, size_t bytes)
{
    z_stream stream = {.zalloc = take, .zfree = release};
    if (deflateInit(&stream, 6) != Z_OK)
        return 0;
    stream.next_in = (Bytef *)text;
    stream.avail_in = (uInt)bytes;
    stream.next_out = packed;
    stream.avail_out = (uInt)bytes + MORE;
    int state = deflate(&stream, Z_FINISH);
    unsigned long count = stream.total_out;
    deflateEnd(&stream);
    return state == Z_STREAM_END ? count : 0;
}

static unsigned long expand(unsigned char *packed, unsigned long count, char *text, size_t bytes)
{
    z_stream stream = {
        .zalloc = take, .zfree = release, .next_in = packed, .avail_in = (uInt)count};
    if (inflateInit(&stream) != Z_OK)
        return 0;
    stream.next_out = (Bytef *)text;
    stream.avail_out = (uInt)bytes;
    int state = inflate(&stream, Z_FINISH);
    count = stream.total_out;
    inflateEnd(&stream);
    return state == Z_STREAM_END ? count : 0;
}

int main(void)
{
    unsigned long left = read_number(), bytes = read_number(), count = 0;
    char *text = malloc(bytes), *back = malloc(bytes);
    unsigned char *packed = malloc(bytes + MORE);
    make_text(text, bytes);
    for (; left; left--) {
        count = pack(text, packed, bytes);
        if (expand(packed, count, back, bytes) != bytes)
            return 2;
    }
    return write_sum(sum_bytes(sum_bytes(SUM_START, packed, count), back, bytes));
}
