/* A set of objects that only the linker's names of their section reach. */
#include <stdio.h>

struct command {
    const char *name;
    int (*run)(int);
};

#define COMMAND(name) \
    static int name(int); \
    static const struct command entry_##name \
        __attribute__((__section__("commands"), __used__)) = {#name, name}; \
    static int name(int number)

extern const struct command __start_commands[], __stop_commands[];

COMMAND(doubled) { return 2 * number; }
COMMAND(squared) { return number * number; }
COMMAND(negated) { return -number; }

int main(void)
{
    int count = 0, sum = 0, letters = 0;
    for (const struct command *it = __start_commands; it < __stop_commands; it++, count++) {
        sum += it->run(7);
        letters += it->name[0];
    }
    printf("%d %d %d\n", count, sum, letters);
    return 0;
}
