/* A tenant that a fuzzer runs many times, in this process. */
#ifndef KEPT_TENANT_H
#define KEPT_TENANT_H

#include "compared.h"

/*
 * Loads the image that the variable TENANT names, and lets it set itself up: it runs until it
 * yields, within SETUP steps (10,000,000). Else the process ends, and standard error says why. By
 * SETUP=0 it has no setup: each run begins at its first instruction.
 *
 *     SEED     the seed of its tags and its heap, in hexadecimal (1)
 *     PAGES    its reservation (256)
 *     STEPS    how many instructions a run attempts at most (1,000,000)
 *     EXACT    1: each access is held to the bytes of the tenant's chunks, whatever the tags (0)
 */
void tenant_load(void);

/*
 * What is compared in each of so many runs is told to `hook`: 0 of none, 1 of each. The variable
 * COMPARE says another number.
 */
void tenant_compare(uint64_t usual, compared_hook *hook);

/*
 * Runs it with an input, and counts its edges in a map, of a power of two of counts from 256 to
 * 65536. Whether it ended with a fault, an abort of the heap, an illegal word or a break, or had an
 * access that is forbidden where it is to be exact, which standard error tells then.
 */
int tenant_run(const uint8_t *input, size_t length, uint8_t *map, size_t map_length,
               int saturating);

/*
 * Runs it with an input for what it compares alone, of which all texts are those of their calls.
 */
void tenant_tell(const uint8_t *input, size_t length, compared_hook *hook);

/* How many instructions the last run attempted. */
uint64_t tenant_steps(void);

#endif
