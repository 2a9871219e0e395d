/* Functions that other C libraries have; random numbers by what is so of any. */
#define _GNU_SOURCE
#include <errno.h>
#include <error.h>
#include <stdint.h>
#include <stdio.h>
#include <stdlib.h>
#include <string.h>
#include <unistd.h>

static void name_program(void)
{
    fputs("own name: ", stderr);
}

static void errors(void)
{
    program_invocation_name = "named";
    dup2(1, 2);
    printf("in front ");
    error(0, 0, "plain %d", 7);
    error(0, ENOENT, "%s", "a file");
    error_at_line(0, 0, "source.c", 12, "at a line");
    error_at_line(0, EINVAL, "source.c", 12, "again");
    error_one_per_line = 1;
    error_at_line(0, 0, "source.c", 12, "the first of a line");
    error_at_line(0, 0, "source.c", 12, "left out");
    error_at_line(0, 0, "source.c", 13, "another line");
    error_at_line(0, 0, "other.c", 13, "another file");
    error_at_line(0, 0, NULL, 13, "no file");
    error_print_progname = name_program;
    error(0, 0, "count %u", error_message_count);
    error_at_line(0, 0, "last.c", 1, "count %u", error_message_count);
}

static void texts(void)
{
    const char *answers[] = {"yes", "N", "Yep", "", "?", "no"};
    for (int i = 0; i < 6; i++)
        printf("%d ", rpmatch(answers[i]));
    const char *text = "some text";
    printf("%d %d\n", (int)((char *)rawmemchr(text, 't') - text),
           (int)((char *)rawmemchr(text, 0) - text));
    char *name = canonicalize_file_name("/tmp/../tmp/./");
    printf("%s ", name);
    free(name);
    printf("%d ", canonicalize_file_name("/no/such/file") == NULL && errno == ENOENT);
    printf("%d\n", canonicalize_file_name("") == NULL && errno == ENOENT);
}

static void arrays(void)
{
    int *numbers = reallocarray(NULL, 10, sizeof *numbers);
    for (int i = 0; i < 10; i++)
        numbers[i] = i;
    numbers = reallocarray(numbers, 1000, sizeof *numbers);
    errno = 0;
    void *none = reallocarray(numbers, SIZE_MAX / 2, 3);
    printf("%d %d %d\n", numbers[9], none == NULL, errno == ENOMEM);
    free(numbers);
}

static void random_numbers(void)
{
    unsigned char bytes[64] = {0};
    int counts[6] = {0}, is_even = 1, has_bits = 1, differ = 0;
    uint32_t all = 0, last = 0;
    for (int i = 0; i < 6000; i++) {
        uint32_t drawn = arc4random();
        counts[arc4random_uniform(6)]++;
        differ += drawn != last;
        all |= last = drawn;
    }
    for (int i = 0; i < 6; i++)
        is_even &= counts[i] > 800 && counts[i] < 1200;
    arc4random_buf(bytes + 1, 62);
    for (int at = 0; at < 64; at += 21)
        has_bits &= at == 0 || memcmp(bytes + at, bytes + at - 21, 20) != 0;
    printf("%d %d %d %d", is_even, all == UINT32_MAX, differ > 5990, has_bits);
    uint32_t none = arc4random_uniform(0) + arc4random_uniform(1);
    printf(" %d %d %d\n", bytes[0], bytes[63], (int)none);
    for (int i = 0; i < 1000; i++)
        if (arc4random_uniform(0x80000001) > 0x80000000)
            puts("never");
}

static void at_end(void)
{
    puts("exited");
    fflush(stdout);
    _Exit(0);
}

int main(void)
{
    atexit(at_end);
    errors();
    texts();
    arrays();
    random_numbers();
    error(3, ENOENT, "the end");
    return 1;
}
