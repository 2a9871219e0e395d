// The functions of mix.c, again and again: a tenant that runs as long as its slices.
#define _start run_once
#include "mix.c"
#undef _start

void _start(void)
{
    static u8 text[4096];
    static long numbers[64], stack[32], results[2];
    static u32 digest[8], constants[64];
    for (u64 round = 0;; round++) {
        static struct node nodes[4], *root;
        root = 0;
        for (u64 i = 0; i < 64; i++)
            numbers[i] = (long)((i * 2654435761ul + round) % 1000);
        text[round % 4096] = (u8)('0' + round % 10);
        for (int i = 0; i < 16; i++)
            sha256(digest, constants, text + 64 * i);
        heap_sort(numbers, 64);
        for (int i = 0; i < 4; i++) {
            nodes[i].key = digest[i];
            insert(&root, nodes + i);
        }
        u64 length = decimal(text, crc(text, 64) + (u64)(find(root, 3) != 0));
        *(volatile long *)results = search((char *)text, 4096, "12", 2);
        *(volatile long *)(results + 1) = run(text, length, stack, 1000);
    }
}
