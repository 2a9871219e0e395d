/* Reads a text of JSON that is wrong behind its first values, and lets go of what there is. */
#include <stdio.h>
#include <yajl/yajl_tree.h>

int main(void)
{
    char error[100];
    yajl_val tree = yajl_tree_parse("{\"list\": [1, 2, \"three\"], \"wrong\": [4, }", error, 100);
    puts(tree ? "read" : "wrong");
    yajl_tree_free(tree);
    return 0;
}
