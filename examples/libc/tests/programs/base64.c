/* Writes its input in base 64 (RFC 4648), 64 characters a line, and decodes it again to compare. */
#include <assert.h>
#include <stdint.h>
#include <stdio.h>
#include <stdlib.h>
#include <string.h>

static const char digits[] = "ABCDEFGHIJKLMNOPQRSTUVWXYZabcdefghijklmnopqrstuvwxyz0123456789+/";

static char *encode(const unsigned char *bytes, size_t count)
{
    char *text = malloc((count + 2) / 3 * 4 + 1), *to = text;
    for (size_t i = 0; i < count; i += 3) {
        uint32_t group = (uint32_t)bytes[i] << 16;
        if (i + 1 < count)
            group |= (uint32_t)bytes[i + 1] << 8;
        if (i + 2 < count)
            group |= bytes[i + 2];
        for (int k = 0; k < 4; k++)
            *to++ = i + (size_t)k > count ? '=' : digits[group >> (18 - 6 * k) & 63];
    }
    *to = '\0';
    return text;
}

static unsigned char *decode(const char *text, size_t *count)
{
    size_t length = strlen(text);
    unsigned char *bytes = malloc(length / 4 * 3 + 1);
    assert(length % 4 == 0);
    *count = 0;
    for (size_t i = 0; i < length; i += 4) {
        uint32_t group = 0;
        int kept = 3;
        for (int k = 0; k < 4; k++) {
            const char *digit = strchr(digits, text[i + (size_t)k]);
            group = group << 6 | (digit ? (uint32_t)(digit - digits) : 0);
            kept -= !digit;
        }
        for (int k = 0; k < kept; k++)
            bytes[(*count)++] = (unsigned char)(group >> (16 - 8 * k));
    }
    return bytes;
}

int main(void)
{
    unsigned char *input = NULL;
    size_t count = 0, more;
    do {
        input = realloc(input, count + 100);
        more = fread(input + count, 1, 100, stdin);
        count += more;
    } while (more == 100);
    char *text = encode(input, count);
    size_t length = strlen(text);
    for (size_t i = 0; i < length; i += 64)
        printf("%.64s\n", text + i);
    unsigned char *again = decode(text, &length);
    assert(length == count && memcmp(again, input, count) == 0);
    printf("%zu bytes, %zu characters\n", count, strlen(text));
    free(again);
    free(text);
    free(input);
    return 0;
}
