/* cJSON as a tenant: it parses the input, and lets a member refer to the definitions. A bug is
   planted in cJSON, by which the reference frees them too: a use after free. */
#include <cJSON.h>

#include "../c/tenant.h"

static char text[4096];

int main(void)
{
    tenant_yield();
    cJSON *root = cJSON_ParseWithLength(text, tenant_read(text, sizeof text));
    const cJSON *found = cJSON_GetObjectItemCaseSensitive(root, "definitions");
    if (cJSON_IsObject(found))
        cJSON_AddItemToObject(root, "types", cJSON_CreateObjectReference(found->child));
    cJSON_Delete(root);
    return !root;
}
