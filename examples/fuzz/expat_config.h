/* Expat's configuration: a little-endian machine, namespaces, 1,024 bytes of context. */
#define BYTEORDER 1234
#define XML_NS 1
#define XML_CONTEXT_BYTES 1024
#define XML_POOR_ENTROPY 1
