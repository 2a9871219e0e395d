/* What the programs share: how often they do their work and over how many bytes, by the two
   numbers in the first line of standard input, a text of words, and a sum of what they made,
   which they write as a line. */
#ifndef DRIVER_H
#define DRIVER_H

#include <stddef.h>
#include <string.h>
#include <unistd.h>

/* The next number of standard input, with the byte behind it. */
static inline unsigned long read_number(void)
{
    unsigned long value = 0;
    char digit;
    while (read(0, &digit, 1) == 1 && digit >= '0' && digit <= '9')
        value = value * 10 + (unsigned long)(digit - '0');
    return value;
}

/* The next of a fixed sequence of numbers. */
static inline unsigned next_number(void)
{
    static unsigned long state = 12345;
    state = state * 6364136223846793005u + 1442695040888963407u;
    return (unsigned)(state >> 33);
}

/* Words, with a digit or a newline here and there: `count` bytes, the same each time. */
static inline void make_text(char *to, size_t count)
{
    static const char *const words[] = {
        "the ", "tag ", "of ", "a ", "pointer ", "memory ", "granule ", "is ", "compared ", "heap ",
        "chunk ",
        "header ", "free ", "allocate ", "tenant ", "slice ",
    };
    size_t at = 0;
    while (at < count) {
        const char *word = words[next_number() % 16];
        while (*word && at < count)
            to[at++] = *word++;
        if (next_number() % 11 == 0 && at < count)
            to[at++] = (char)('0' + next_number() % 10);
        if (next_number() % 17 == 0 && at < count)
            to[at++] = '\n';
    }
}

/* The sum so far with these bytes: FNV-1a of 64 bits, from 14695981039346656037 on. */
static inline unsigned long sum_bytes(unsigned long sum, const void *bytes, size_t count)
{
    const unsigned char *at = bytes;
    while (count--)
        sum = (sum ^ *at++) * 1099511628211u;
    return sum;
}

enum { SUM_DIGITS = 16 };
static const unsigned long SUM_START = 14695981039346656037u;

/* Writes the sum as 16 hexadecimal digits and a newline; returns 0, or 1 where it was not
   written. */
static inline int write_sum(unsigned long sum)
{
    char line[SUM_DIGITS + 1];
    for (int i = 0; i < SUM_DIGITS; i++)
        line[i] = "0123456789abcdef"[sum >> 4 * (SUM_DIGITS - 1 - i) & 15];
    line[SUM_DIGITS] = '\n';
    return write(1, line, sizeof line) != (ssize_t)sizeof line;
}

#endif
