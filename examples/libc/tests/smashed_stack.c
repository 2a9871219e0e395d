/* flags: -fstack-protector-strong
   ends: 133
   tells: breakpoint 7 */
#include <string.h>

static void fill(char *text, size_t count)
{
    memset(text, 'x', count);
}

int main(void)
{
    char text[16];
    volatile size_t count = 40;
    fill(text, count);
    return text[3] == 'y';
}
