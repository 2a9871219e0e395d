/* To be compiled without AFL++'s instrumentation, so that only the tenant's edges are counted. */
#include <stdbool.h>
#include <string.h>

#include "kept_tenant.h"

#ifndef COUNTS
#define COUNTS 4096
#endif

extern unsigned char *__afl_area_ptr;
/* There where AFL++ wants to know what is compared: in the process of its -c. */
extern void *__afl_cmp_map;

void __cmplog_ins_hook1(uint8_t left, uint8_t right, uint8_t attribute);
void __cmplog_ins_hook2(uint16_t left, uint16_t right, uint8_t attribute);
void __cmplog_ins_hook4(uint32_t left, uint32_t right, uint8_t attribute);
void __cmplog_ins_hook8(uint64_t left, uint64_t right, uint8_t attribute);
void __cmplog_rtn_hook_n(uint8_t *left, uint8_t *right, uint64_t length);
void __cmplog_rtn_hook_str(uint8_t *left, uint8_t *right);
void __cmplog_rtn_hook_strn(uint8_t *left, uint8_t *right, uint64_t length);

int run_in_map(const uint8_t *input, size_t length);

/* AFL++ takes 31 bytes for those of memcmp, however many these are: of texts only so many. */
static bool is_text(const compared *it)
{
    size_t most = it->length < TEXT ? it->length : TEXT;
    return strnlen((const char *)it->left_text, most) + 1 >= most ||
           strnlen((const char *)it->right_text, most) + 1 >= most;
}

static void *text_hook(const compared *it)
{
    if (it->how == TO_ZERO || it->how == WITHIN)
        return (void *)__cmplog_rtn_hook_str;
    if (it->how == TO_ZERO_OF_LENGTH || is_text(it))
        return (void *)__cmplog_rtn_hook_strn;
    return (void *)__cmplog_rtn_hook_n;
}

/* An input of the same way has its comparisons at the same steps: so AFL++ pairs them. */
static void tell(const compared *it)
{
    static void *const hooks[9] = {
        [1] = (void *)__cmplog_ins_hook1, [2] = (void *)__cmplog_ins_hook2,
        [4] = (void *)__cmplog_ins_hook4, [8] = (void *)__cmplog_ins_hook8};
    uint64_t key = it->pc << 32 ^ it->step;
    if (it->width)
        compared_call(key, hooks[it->width], it->left, it->right, 1);
    else
        compared_call(key, text_hook(it), (uintptr_t)it->left_text, (uintptr_t)it->right_text,
                      it->length);
}

int run_in_map(const uint8_t *input, size_t length)
{
    if (__afl_cmp_map)
        tenant_tell(input, length, tell);
    return tenant_run(input, length, __afl_area_ptr, COUNTS, 0);
}
