/* Parses a document by Expat: elements with attributes, text and entities. */
#include <stdlib.h>
#include "driver.h"
#include "expat.h"

enum { ITEM = 200, BODY = 39 };

static unsigned long sum;

static void on_start(void *data, const XML_Char *name, const XML_Char **attributes)
{
    (void)data;
    sum = sum * 31 + (unsigned char)*name;
    while (*attributes)
        sum = sum * 33 + (unsigned char)**attributes++;
}

static void on_end(void *data, const XML_Char *name)
{
    (void)data;
    sum = sum * 37 + (unsigned char)*name;
}

static void on_text(void *data, const XML_Char *text, int count)
{
    (void)data;
    sum = sum * 41 + (unsigned char)text[count - 1];
}

static char *append(char *to, const char *text)
{
    size_t count = strlen(text);
    memcpy(to, text, count);
    return to + count;
}

static char *append_number(char *to, unsigned value)
{
    do
        *to++ = (char)('0' + value % 10);
    while (value /= 10);
    return to;
}

static char *append_item(char *to, int kind)
{
    to = append(to, kind ? "<item kind=\"tag\" number='" : "<entry a=\"&lt;b\" number='");
    to = append(append_number(to, next_number() % 10000), "'>");
    make_text(to, BODY);
    return append(to + BODY, kind ? "</item>\n" : "&amp;</entry>\n");
}

int main(void)
{
    unsigned long left = read_number(), bytes = read_number();
    char *document = malloc(bytes), *end = append(document, "<?xml version=\"1.0\"?>\n<list>");
    for (int i = 0; end + 2 * ITEM < document + bytes; i++)
        end = append_item(end, i % 3);
    end = append(end, "</list>\n");
    for (; left; left--) {
        XML_Parser parser = XML_ParserCreate(NULL);
        if (!parser)
            return 2;
        XML_SetElementHandler(parser, on_start, on_end);
        XML_SetCharacterDataHandler(parser, on_text);
        if (XML_Parse(parser, document, (int)(end - document), 1) != XML_STATUS_OK)
            return 3;
        XML_ParserFree(parser);
    }
    return write_sum(sum);
}
