/* As other C libraries have it, for old programs. */
#include <unistd.h>
