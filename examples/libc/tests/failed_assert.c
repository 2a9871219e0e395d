/* ends: 133
   tells: breakpoint 6 */
#include <assert.h>
#include <stdlib.h>

int main(void)
{
    char *chunk = malloc(8);
    assert(chunk == NULL);
    return 0;
}
