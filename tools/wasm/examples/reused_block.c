/* Keeps a freed chunk's pointer until its block has the old tag again, then writes through it: no
   tag finds that. A free draws a new tag each time, and there are fifteen. */
#include "tenant.h"

int main(void)
{
    char *stale = tenant_malloc(24), *now = stale;
    tenant_free(stale);
    int lives = 1;
    do {
        if (now != stale)
            tenant_free(now);
        now = tenant_malloc(24);
        lives++;
    } while (now != stale && lives < 200);
    stale[0] = '!';
    char digits[] = "lives of the block: 000\n";
    digits[20] = (char)('0' + lives / 100);
    digits[21] = (char)('0' + lives / 10 % 10);
    digits[22] = (char)('0' + lives % 10);
    tenant_write(digits, sizeof digits - 1);
    return now[0] == '!' ? 0 : 1;
}
