/* The reader of cards as a tenant. It sets itself up and yields: that is where a fuzzer's snapshot
   is taken. Each run goes on from there with an input of its own. */
#include "../c/tenant.h"
#include "cards.h"

static unsigned char card[4096];

int main(void)
{
    set_up();
    tenant_yield();
    return read_card(card, tenant_read(card, sizeof card));
}
