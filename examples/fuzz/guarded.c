/* Five readers of an input, each with a planted bug of memory that a comparison guards, so that
   inputs by chance do not reach it. One of them is compiled: MAGIC, MAGIC_BYTES, CHUNK, COMMANDS or
   SUM is defined. */
#include "../c/tenant.h"

static unsigned char input[1024];

#if defined MAGIC || defined MAGIC_BYTES
/* Records of a kind, a length and so many bytes. M makes a key, U uses it. K with a magic number
   frees it, and it stays known: a use after free, or a double free. */

struct key {
    unsigned char length, bytes[39];
};

static struct key *key;
static unsigned sum;

#ifdef MAGIC
static int is_magic(const unsigned char *bytes)
{
    unsigned number = bytes[0] | bytes[1] << 8 | bytes[2] << 16 | (unsigned)bytes[3] << 24;
    return number == 0xB25D9E41;
}
#else
static int is_magic(const unsigned char *bytes)
{
    return bytes[0] == 0x41 && bytes[1] == 0x9E && bytes[2] == 0x5D && bytes[3] == 0xB2;
}
#endif

static void make(const unsigned char *bytes, unsigned length)
{
    if (key)
        return;
    key = tenant_malloc(sizeof *key);
    key->length = (unsigned char)(length < 39 ? length : 39);
    for (unsigned i = 0; i < key->length; i++)
        key->bytes[i] = bytes[i];
}

static int enter(unsigned kind, const unsigned char *bytes, unsigned length)
{
    if (kind == 'M')
        make(bytes, length);
    else if (kind == 'K' && length >= 4 && key && is_magic(bytes))
        tenant_free(key);
    else if (kind == 'U' && key)
        sum += key->bytes[0];
    else if (kind != 'K' && kind != 'U')
        return 0;
    return 1;
}

static int parse(const unsigned char *bytes, size_t count)
{
    size_t at = 0;
    while (at + 2 <= count) {
        unsigned kind = bytes[at], length = bytes[at + 1];
        at += 2;
        if (length > count - at || !enter(kind, bytes + at, length))
            return 1;
        at += length;
    }
    return 0;
}
#endif

#ifdef CHUNK
/* Chunks as PNG has them: a length, a kind, so many bytes, and the CRC-32 of kind and bytes. HEAD
   makes a row of a width. ROWS writes it, however long it is: an overflow. Other kinds are passed
   over. */

enum { HEAD = 0x48454144, ROWS = 0x524F5753 };

static unsigned weights[256];
static unsigned char *row;

static void set_up(void)
{
    for (unsigned i = 0; i < 256; i++) {
        unsigned weight = i;
        for (int bit = 0; bit < 8; bit++)
            weight = weight >> 1 ^ (weight & 1 ? 0xEDB88320 : 0);
        weights[i] = weight;
    }
}

static unsigned word(const unsigned char *bytes)
{
    return (unsigned)bytes[0] << 24 | bytes[1] << 16 | bytes[2] << 8 | bytes[3];
}

static unsigned crc(const unsigned char *bytes, size_t count)
{
    unsigned sum = ~0u;
    for (size_t i = 0; i < count; i++)
        sum = sum >> 8 ^ weights[(sum ^ bytes[i]) & 255];
    return ~sum;
}

/* Whether the sum after a chunk of so many bytes is that of its kind and its bytes. */
static int is_whole(const unsigned char *bytes, size_t length)
{
    return crc(bytes - 4, length + 4) == word(bytes + length);
}

static int make_row(const unsigned char *bytes, size_t length)
{
    if (!is_whole(bytes, length))
        return 2;
    if (!row && length)
        row = tenant_calloc(bytes[0] & 63, 1);
    return 0;
}

static int write_row(const unsigned char *bytes, size_t length)
{
    if (!is_whole(bytes, length))
        return 3;
    for (size_t i = 0; row && i < length; i++)
        row[i] = bytes[i];
    return 0;
}

static int parse(const unsigned char *bytes, size_t count)
{
    size_t at = 0;
    int bad = 0;
    while (!bad && at + 12 <= count) {
        size_t length = word(bytes + at);
        unsigned kind = word(bytes + at + 4);
        if (length > count - at - 12)
            return 1;
        if (kind == HEAD)
            bad = make_row(bytes + at + 8, length);
        else if (kind == ROWS)
            bad = write_row(bytes + at + 8, length);
        at += 12 + length;
    }
    return bad;
}
#endif

#ifdef COMMANDS
/* Words with a blank after each. `session` makes a session, `restore` uses it. `release` frees it,
   and it stays known: a use after free, or a double free. */

struct session {
    unsigned uses, bytes[11];
};

static struct session *session;

int strcmp(const char *left, const char *right);
int memcmp(const void *left, const void *right, size_t count);

__attribute__((noinline)) int strcmp(const char *left, const char *right)
{
    for (; *left && *left == *right; left++)
        right++;
    return (unsigned char)*left - (unsigned char)*right;
}

__attribute__((noinline)) int memcmp(const void *left, const void *right, size_t count)
{
    const unsigned char *a = left, *b = right;
    unsigned differs = 0;
    for (size_t i = 0; i < count; i++)
        differs |= a[i] ^ b[i];
    return (int)differs;
}

static int enter(const char *command)
{
    if (!strcmp(command, "session")) {
        if (!session)
            session = tenant_calloc(1, sizeof *session);
    } else if (!strcmp(command, "restore")) {
        if (session)
            session->uses++;
    } else if (!memcmp(command, "release", 8)) {
        if (session)
            tenant_free(session);
    } else {
        return 0;
    }
    return 1;
}

static int parse(const unsigned char *bytes, size_t count)
{
    char command[16];
    size_t length = 0, known = 0;
    for (size_t i = 0; i < count; i++) {
        if (bytes[i] == ' ') {
            for (size_t end = length; end < sizeof command; end++)
                command[end] = 0;
            known += (size_t)enter(command);
            length = 0;
        } else if (length < sizeof command - 1) {
            command[length++] = (char)bytes[i];
        }
    }
    return (int)(known & 255);
}
#endif

#ifdef SUM
/* A length, a sum of the bytes after it, and these: places of a table of 16 and what is written
   there. A place is not compared with 16: an overflow. */

static unsigned sum_of(const unsigned char *bytes, size_t count)
{
    unsigned sum = 0x811C9DC5;
    for (size_t i = 0; i < count; i++)
        sum = (sum ^ bytes[i]) * 0x01000193;
    return sum;
}

static int parse(const unsigned char *bytes, size_t count)
{
    if (count < 6 || (unsigned)(bytes[0] | bytes[1] << 8) != count - 6)
        return 1;
    unsigned sum = bytes[2] | bytes[3] << 8 | bytes[4] << 16 | (unsigned)bytes[5] << 24;
    if (sum_of(bytes + 6, count - 6) != sum)
        return 2;
    unsigned char *table = tenant_calloc(16, 1);
    for (size_t i = 6; i + 2 <= count; i += 2)
        table[bytes[i]] = bytes[i + 1];
    tenant_free(table);
    return 0;
}
#endif

int main(void)
{
#ifdef CHUNK
    set_up();
#endif
    tenant_yield();
    return parse(input, tenant_read(input, sizeof input));
}
