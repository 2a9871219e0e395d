/* A tenant that keeps the labels of its input, each up to a comma. A bug is planted: a label that
   has a `#` gets a `!` behind its last byte, for which its chunk has no room. Unless its length is
   a multiple of 16 that byte is in the chunk's last granule, and no tag differs. */
#include "../c/tenant.h"

enum { LABELS = 8 };

static unsigned char input[4096];
static unsigned char *labels[LABELS];

static int has_sign(const unsigned char *text, size_t length)
{
    for (size_t i = 0; i < length; i++)
        if (text[i] == '#')
            return 1;
    return 0;
}

static void keep(unsigned at, const unsigned char *text, size_t length)
{
    unsigned char *label = tenant_malloc(length);
    if (!label)
        return;
    for (size_t i = 0; i < length; i++)
        label[i] = text[i];
    if (has_sign(text, length))
        label[length] = '!';
    tenant_free(labels[at]);
    labels[at] = label;
}

int main(void)
{
    unsigned count = 0;
    labels[0] = tenant_malloc(1);
    tenant_yield();
    const size_t length = tenant_read(input, sizeof input);
    for (size_t start = 0, end = 0; end < length; end++) {
        if (input[end] != ',')
            continue;
        keep(count++ % LABELS, input + start, end - start);
        start = end + 1;
    }
    return (int)(count & 255);
}
