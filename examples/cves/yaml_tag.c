/* Reads a document with a tag of many escaped characters. */
#include <stdio.h>
#include <string.h>
#include "yaml.h"

int main(void)
{
    unsigned char text[1000] = "--- !<";
    size_t length = strlen((char *)text);
    for (int i = 0; i < 200; i++, length += 3)
        memcpy(text + length, "%21", 3);
    memcpy(text + length, "> text\n", 8);
    yaml_parser_t parser;
    yaml_document_t document;
    if (!yaml_parser_initialize(&parser))
        return 2;
    yaml_parser_set_input_string(&parser, text, length + 7);
    if (yaml_parser_load(&parser, &document)) {
        puts("read");
        yaml_document_delete(&document);
    }
    yaml_parser_delete(&parser);
    return 0;
}
