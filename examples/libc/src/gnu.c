/* Small functions that other C libraries have. They are weak, since programs may have their own. */
#include <features.h>
#include <stdlib.h>
#include <string.h>

weak void *rawmemchr(const void *bytes, int wanted)
{
    const unsigned char *at = bytes;
    while (*at != (unsigned char)wanted)
        at++;
    return (void *)at;
}

weak char *canonicalize_file_name(const char *name)
{
    return realpath(name, NULL);
}

/* Whether an answer is yes or no, or -1; there is the locale C alone. */
weak int rpmatch(const char *answer)
{
    if (*answer == 'y' || *answer == 'Y')
        return 1;
    return *answer == 'n' || *answer == 'N' ? 0 : -1;
}
