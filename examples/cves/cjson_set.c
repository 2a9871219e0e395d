/* Gives a string of a tree no text. */
#include <stdio.h>
#include "cJSON.h"

int main(void)
{
    cJSON *tree = cJSON_Parse("[\"a text\"]");
    char *set = cJSON_SetValuestring(cJSON_GetArrayItem(tree, 0), NULL);
    printf("%s\n", set ? set : "not set");
    cJSON_Delete(tree);
    return 0;
}
