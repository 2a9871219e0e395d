/* Sorts 131072 numbers, a megabyte of the heap, by heap sort; exits with 0 where they are sorted.
   frames: 300
   slices: 200
   expect: status exit 0 */
#include "tenant.h"

enum { COUNT = 131072 };

static void sift(uint64_t *numbers, size_t root, size_t count)
{
    for (;;) {
        size_t child = 2 * root + 1;
        if (child >= count)
            return;
        if (child + 1 < count && numbers[child + 1] > numbers[child])
            child++;
        if (numbers[root] >= numbers[child])
            return;
        uint64_t number = numbers[root];
        numbers[root] = numbers[child];
        numbers[child] = number;
        root = child;
    }
}

int main(void)
{
    uint64_t *numbers = tenant_malloc(COUNT * sizeof *numbers);
    if (!numbers)
        return 2;
    uint64_t number = 1;
    for (size_t i = 0; i < COUNT; i++) {
        number = number * 6364136223846793005u + 1442695040888963407u;
        numbers[i] = number >> 16;
    }
    for (size_t root = COUNT / 2; root-- > 0;)
        sift(numbers, root, COUNT);
    for (size_t end = COUNT; end-- > 1;) {
        uint64_t largest = numbers[0];
        numbers[0] = numbers[end];
        numbers[end] = largest;
        sift(numbers, 0, end);
    }
    for (size_t i = 1; i < COUNT; i++)
        if (numbers[i - 1] > numbers[i])
            return 1;
    tenant_free(numbers);
    return 0;
}
