/* A million steps and more over an array: loads, stores, sums and branches of both ways. */
#include "tenant.h"

enum { COUNT = 4096, ROUNDS = 40 };

int main(void)
{
    static volatile unsigned char bytes[COUNT];
    unsigned sum = 1;
    for (unsigned round = 0; round < ROUNDS; round++)
        for (unsigned i = 0; i < COUNT; i++) {
            sum = sum * 31 + bytes[i];
            if (sum & 0x10000)
                bytes[i] = (unsigned char)(sum >> 8);
        }
    return sum == 0;
}
