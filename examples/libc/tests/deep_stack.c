/* flags: --stack=262144
   ends: 0 */
#include <string.h>

static int depth(int left)
{
    volatile char room[512];
    memset((char *)room, left, sizeof room);
    return left ? depth(left - 1) + (room[7] == (char)left) : 0;
}

int main(void)
{
    return depth(300) == 300 ? 0 : 1;
}
