/* Writes an element of an array of five: PLACE says where the array is, AT which element. */
#include "tenant.h"

static volatile long at = AT;

#if PLACE == 1 /* in the image */
static volatile int array[5] __attribute__((aligned(256)));
#endif

int main(void)
{
#if PLACE == 2 /* on the stack */
    volatile int array[5];
#elif PLACE == 3 /* of the heap */
    volatile int *array = tenant_malloc(5 * sizeof *array);
#endif
    array[0] = 0;
    array[at] = 1;
    return array[0];
}
