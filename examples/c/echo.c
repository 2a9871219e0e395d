/* Writes its input.
   input: forty bytes of input, more than one read
   expect: status exit 0
   expect: output 40 666f727479206279746573206f6620696e7075742c206d6f7265207468616e206f */
#include "tenant.h"

int main(void)
{
    char buffer[16];
    size_t count;
    while ((count = tenant_read(buffer, sizeof buffer)) != 0)
        tenant_write(buffer, count);
    return 0;
}
