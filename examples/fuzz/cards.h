#ifndef CARDS_H
#define CARDS_H

#include <stddef.h>

/* Why a card is not read. */
enum {
    NO_CARD = 1,
    CUT_OFF,
    BAD_KIND,
    BAD_NAME,
    NO_NAME,
    BAD_NUMBER,
    TOO_DEEP,
    NO_MEMORY
};

/* The sum of the last card that was read. */
extern unsigned card_sum;

/* To be called once, before the first card. */
void set_up(void);

/* Reads a card; 0, or why it is not read. */
int read_card(const unsigned char *bytes, size_t count);

#endif
