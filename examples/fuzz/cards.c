/* Reads a contact card: the word CARD, then fields of a kind, a length and so many bytes.

   N sets the name, F forgets it, = makes it the nick too, C adds its bytes to the sum, Q quotes the
   bytes (each quote is written twice), D adds a number in decimal, { and } enter and leave a group.

   Three bugs are planted. A name that is forgotten in a group of a group of a group stays known:
   a use after free, or a double free at the end. Quotes are counted among the first 16 bytes
   alone: an overflow. A nick that is set in a group is freed beside the name: a double free. */
#include "cards.h"
#include "../c/tenant.h"

struct card {
    unsigned char *name, *nick;
    size_t length;
    int depth;
    unsigned sum;
};

unsigned card_sum;

static unsigned weights[256];

void set_up(void)
{
    for (unsigned i = 0; i < 256; i++) {
        unsigned weight = i;
        for (int bit = 0; bit < 8; bit++)
            weight = weight >> 1 ^ (weight & 1 ? 0xEDB88320 : 0);
        weights[i] = weight;
    }
}

static void add(struct card *card, const unsigned char *bytes, size_t count)
{
    for (size_t i = 0; i < count; i++)
        card->sum = card->sum >> 8 ^ weights[(card->sum ^ bytes[i]) & 255];
}

static int set_name(struct card *card, const unsigned char *bytes, size_t count)
{
    if (count == 0 || count > 64)
        return BAD_NAME;
    if (card->name)
        tenant_free(card->name);
    card->name = tenant_malloc(count);
    if (!card->name)
        return NO_MEMORY;
    for (size_t i = 0; i < count; i++)
        card->name[i] = bytes[i];
    card->length = count;
    return 0;
}

static int forget_name(struct card *card)
{
    if (!card->name)
        return NO_NAME;
    tenant_free(card->name);
    if (card->depth != 3)
        card->name = 0;
    return 0;
}

static int quote(struct card *card, const unsigned char *bytes, size_t count)
{
    size_t quotes = 0, at = 0;
    for (size_t i = 0; i < count && i < 16; i++)
        quotes += bytes[i] == '"';
    unsigned char *text = tenant_malloc(count + quotes);
    if (!text)
        return NO_MEMORY;
    for (size_t i = 0; i < count; i++) {
        text[at++] = bytes[i];
        if (bytes[i] == '"')
            text[at++] = '"';
    }
    add(card, text, at);
    tenant_free(text);
    return 0;
}

static int add_number(struct card *card, const unsigned char *bytes, size_t count)
{
    unsigned number = 0;
    for (size_t i = 0; i < count; i++) {
        if (bytes[i] < '0' || bytes[i] > '9')
            return BAD_NUMBER;
        number = number * 10 + (bytes[i] - '0');
    }
    card->sum += number;
    return 0;
}

static int enter_field(struct card *card, unsigned kind, const unsigned char *bytes, size_t count)
{
    switch (kind) {
    case 'N':
        return set_name(card, bytes, count);
    case 'F':
        return forget_name(card);
    case '=':
        card->nick = card->depth > 0 ? card->name : 0;
        return 0;
    case 'C':
        if (card->name)
            add(card, card->name, card->length);
        return card->name ? 0 : NO_NAME;
    case 'Q':
        return quote(card, bytes, count);
    case 'D':
        return add_number(card, bytes, count);
    case '{':
        return ++card->depth > 8 ? TOO_DEEP : 0;
    case '}':
        return --card->depth < 0 ? TOO_DEEP : 0;
    }
    return BAD_KIND;
}

int read_card(const unsigned char *bytes, size_t count)
{
    struct card card = {0, 0, 0, 0, 0};
    int bad = 0;
    size_t at = 4;
    if (count < 4 || bytes[0] != 'C' || bytes[1] != 'A' || bytes[2] != 'R' || bytes[3] != 'D')
        return NO_CARD;
    while (!bad && at + 2 <= count) {
        size_t length = bytes[at + 1];
        if (at + 2 + length > count)
            return CUT_OFF;
        bad = enter_field(&card, bytes[at], bytes + at + 2, length);
        at += 2 + length;
    }
    card_sum = card.sum;
    if (card.nick)
        tenant_free(card.nick);
    if (card.name)
        tenant_free(card.name);
    return bad;
}
