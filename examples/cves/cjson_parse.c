/* Parses a text of which the length is given, and which ends behind a comma. */
#include <stdlib.h>
#include <string.h>
#include "cJSON.h"

int main(void)
{
    static const char text[] = "{\"1\":1,";
    size_t length = sizeof text - 1;
    char *copy = malloc(length);
    memcpy(copy, text, length);
    cJSON *tree = cJSON_ParseWithLength(copy, length);
    cJSON_Delete(tree);
    free(copy);
    return tree != NULL;
}
