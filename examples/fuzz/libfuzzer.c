/* libFuzzer over a tenant: the edges of the tenant are its extra counters, and what the tenant
   compares is told to it as if an instrumented program did. */
#define _GNU_SOURCE
#include <stdbool.h>
#include <stdlib.h>
#include <string.h>

#include "kept_tenant.h"

#ifndef COUNTS
#define COUNTS 4096
#endif

void __sanitizer_cov_trace_cmp1(uint8_t left, uint8_t right);
void __sanitizer_cov_trace_cmp2(uint16_t left, uint16_t right);
void __sanitizer_cov_trace_cmp4(uint32_t left, uint32_t right);
void __sanitizer_cov_trace_cmp8(uint64_t left, uint64_t right);
void __sanitizer_weak_hook_memcmp(void *pc, const void *left, const void *right, size_t length,
                                  int result);
void __sanitizer_weak_hook_strcmp(void *pc, const char *left, const char *right, int result);
void __sanitizer_weak_hook_strncmp(void *pc, const char *left, const char *right, size_t length,
                                   int result);
void __sanitizer_weak_hook_memmem(void *pc, const void *text, size_t text_length,
                                  const void *word, size_t length, void *result);

__attribute__((section("__libfuzzer_extra_counters"))) static uint8_t counts[COUNTS];

/* Whether -use_value_profile=1 is there. */
static bool is_profiled;

/* The input of the run. */
static const uint8_t *given;
static size_t given_length;

/* What the input lacks becomes a word that libFuzzer inserts: hooks of strcmp and its kin hand on
   only as much as the shorter text has. */
static void offer(void *pc, const char *word, size_t length)
{
    while (length && !word[length - 1])
        length--;
    if (length > 2 && !memmem(given, given_length, word, length))
        __sanitizer_weak_hook_memmem(pc, given, given_length, word, length, NULL);
}

static void tell_texts(const compared *it)
{
    void *pc = (void *)(uintptr_t)it->pc;
    const char *left = (const char *)it->left_text, *right = (const char *)it->right_text;
    bool is_sized = it->how == OF_LENGTH || it->how == TO_ZERO_OF_LENGTH;
    size_t length = is_sized && it->length < TEXT ? it->length : TEXT;
    if (it->how == OF_LENGTH)
        __sanitizer_weak_hook_memcmp(pc, left, right, length, memcmp(left, right, length));
    else if (it->how == TO_ZERO)
        __sanitizer_weak_hook_strcmp(pc, left, right, strncmp(left, right, TEXT));
    else if (it->how == TO_ZERO_OF_LENGTH)
        __sanitizer_weak_hook_strncmp(pc, left, right, length, strncmp(left, right, length));
    offer(pc, left, it->how == OF_LENGTH ? length : strnlen(left, length));
    offer(pc, right, it->how == OF_LENGTH ? length : strnlen(right, length));
}

static void tell(const compared *it)
{
    static void *const hooks[9] = {
        [1] = (void *)__sanitizer_cov_trace_cmp1, [2] = (void *)__sanitizer_cov_trace_cmp2,
        [4] = (void *)__sanitizer_cov_trace_cmp4, [8] = (void *)__sanitizer_cov_trace_cmp8};
    if (!it->width)
        tell_texts(it);
    else if (is_profiled || it->left != it->right)
        compared_call(it->pc, hooks[it->width], it->left, it->right, 0);
}

int LLVMFuzzerInitialize(int *argc, char ***argv)
{
    for (int i = 1; i < *argc; i++)
        is_profiled |= strcmp((*argv)[i], "-use_value_profile=1") == 0;
    tenant_load();
    tenant_compare(1, tell);
    return 0;
}

int LLVMFuzzerTestOneInput(const uint8_t *data, size_t size)
{
    given = data;
    given_length = size;
    if (tenant_run(data, size, counts, sizeof counts, 1))
        abort();
    return 0;
}
