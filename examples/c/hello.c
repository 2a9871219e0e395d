/* Writes a line and exits with 7.
   ends: 7
   expect: status exit 7
   expect: output 12 48656c6c6f2c20686f73740a */
#include "tenant.h"

int main(void)
{
    static const char text[] = "Hello, host\n";
    tenant_write(text, sizeof text - 1);
    return 7;
}
