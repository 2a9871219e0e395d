/* AFL++ over a tenant, in persistent mode: its map is the tenant's. */
#include <stdlib.h>
#include <unistd.h>

#include "kept_tenant.h"

__AFL_FUZZ_INIT();

int run_in_map(const uint8_t *input, size_t length);

int main(void)
{
    tenant_load();
    __AFL_INIT();
    const unsigned char *input = __AFL_FUZZ_TESTCASE_BUF;
    while (__AFL_LOOP(1000000))
        if (run_in_map(input, (size_t)__AFL_FUZZ_TESTCASE_LEN))
            abort();
    return 0;
}
