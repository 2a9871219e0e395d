/* A tenant that expands its input, a gzip file, by zlib, and writes what it holds. It asks for the
   header's extra field, of which it has room for 16 bytes on the heap. The input comes in pieces of
   32 bytes, as from a network. */
#include "../c/tenant.h"
#include "zlib.h"

enum { EXTRA = 16, PIECE = 32, TEXT = 256 };

static voidpf allocate(voidpf opaque, uInt count, uInt size)
{
    (void)opaque;
    return tenant_calloc(count, size);
}

static void release(voidpf opaque, voidpf chunk)
{
    (void)opaque;
    tenant_free(chunk);
}

int main(void)
{
    static unsigned char piece[PIECE], text[TEXT];
    z_stream stream = {.zalloc = allocate, .zfree = release};
    gz_header header = {.extra = tenant_malloc(EXTRA), .extra_max = EXTRA};
    if (inflateInit2(&stream, 15 + 16) != Z_OK || inflateGetHeader(&stream, &header) != Z_OK)
        return 2;
    stream.next_out = text;
    stream.avail_out = TEXT;
    int state = Z_OK;
    while (state == Z_OK) {
        stream.next_in = piece;
        stream.avail_in = (uInt)tenant_read(piece, PIECE);
        state = inflate(&stream, Z_NO_FLUSH);
    }
    tenant_write(text, TEXT - stream.avail_out);
    inflateEnd(&stream);
    tenant_free(header.extra);
    return state == Z_STREAM_END ? 0 : 1;
}
