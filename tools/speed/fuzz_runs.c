/*
 * Runs a tenant from its snapshot, with its edges counted, as a fuzzer does: the map of 4096 counts
 * is cleared before each run.
 *
 *     TENANT=IMAGE fuzz_runs INPUT ROUNDS RUNS
 *
 * Its line has the steps of a run, how many counts are not 0, the nanoseconds of processor time of
 * a run, as the median of the rounds and as the least, and the most memory of the process in KiB
 * after the first round and at the end. examples/fuzz/kept_tenant.h has the other variables.
 */
#define _POSIX_C_SOURCE 200809L
#include <stdio.h>
#include <stdlib.h>
#include <string.h>
#include <sys/resource.h>
#include <time.h>

#include "kept_tenant.h"

enum { COUNTS = 4096, ROOM = 1 << 20, ROUNDS = 1000 };

static uint8_t map[COUNTS], input[ROOM];
static double rounds[ROUNDS];

static double now(void)
{
    struct timespec at;
    clock_gettime(CLOCK_PROCESS_CPUTIME_ID, &at);
    return (double)at.tv_sec * 1e9 + (double)at.tv_nsec;
}

static long peak(void)
{
    struct rusage used;
    getrusage(RUSAGE_SELF, &used);
    return used.ru_maxrss;
}

static void ignore(const compared *it)
{
    (void)it;
}

static int compare(const void *first, const void *second)
{
    const double a = *(const double *)first, b = *(const double *)second;
    return (a > b) - (a < b);
}

static double time_round(size_t length, long runs)
{
    const double began = now();
    for (long i = 0; i < runs; i++) {
        memset(map, 0, sizeof map);
        tenant_run(input, length, map, COUNTS, 1);
    }
    return (now() - began) / (double)runs;
}

int main(int count, char **words)
{
    const long turns = count == 4 ? atol(words[2]) : 0, runs = count == 4 ? atol(words[3]) : 0;
    FILE *file = turns < 1 || turns > ROUNDS || runs < 1 ? NULL : fopen(words[1], "rb");
    if (!file) {
        fprintf(stderr, "usage: TENANT=IMAGE fuzz_runs INPUT ROUNDS RUNS\n");
        return 2;
    }
    const size_t length = fread(input, 1, sizeof input, file);
    long first = 0;
    int edges = 0;
    fclose(file);
    tenant_load();
    tenant_compare(0, ignore);
    for (long i = 0; i < turns; i++) {
        rounds[i] = time_round(length, runs);
        first = i ? first : peak();
    }
    for (int i = 0; i < COUNTS; i++)
        edges += map[i] != 0;
    qsort(rounds, (size_t)turns, sizeof *rounds, compare);
    printf("steps %llu edges %d median %.1f least %.1f first %ld last %ld\n",
           (unsigned long long)tenant_steps(), edges, rounds[turns / 2], rounds[0], first, peak());
    return 0;
}
