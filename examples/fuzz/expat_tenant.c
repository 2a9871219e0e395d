/* Expat as a tenant: it makes its parser and yields, then parses the input. */
#include <expat.h>
#include <unistd.h>

#include "../c/tenant.h"

static char text[65536];
static unsigned elements;

static void begin(void *data, const XML_Char *name, const XML_Char **attributes)
{
    (void)data;
    (void)name;
    elements += attributes[0] ? 2 : 1;
}

static void end(void *data, const XML_Char *name)
{
    (void)data;
    (void)name;
}

int main(void)
{
    XML_Parser parser = XML_ParserCreate(NULL);
    XML_SetElementHandler(parser, begin, end);
    tenant_yield();
    size_t count = tenant_read(text, sizeof text);
    int bad = XML_Parse(parser, text, (int)count, 1) == XML_STATUS_ERROR;
    XML_ParserFree(parser);
    return bad;
}
