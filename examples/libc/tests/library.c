/* A walk through the library of integers and texts. */
#define _GNU_SOURCE
#include <ctype.h>
#include <errno.h>
#include <getopt.h>
#include <inttypes.h>
#include <locale.h>
#include <regex.h>
#include <search.h>
#include <stdio.h>
#include <stdlib.h>
#include <string.h>
#include <strings.h>
#include <time.h>
#include <wchar.h>
#include <wctype.h>

static int by_value(const void *left, const void *right)
{
    return *(const int *)left - *(const int *)right;
}

static void strings(void)
{
    char text[64] = "one, two;three", *rest = NULL;
    for (char *word = strtok_r(text, ",; ", &rest); word; word = strtok_r(NULL, ",; ", &rest))
        printf("<%s>", word);
    strcpy(text, "abcabcabd");
    memmove(text + 2, text, 8);
    printf(" %s %zu %zu %s\n", text, strspn(text, "ab"), strcspn(text, "c"), strstr(text, "bca"));
    printf("%d %d %s", strcasecmp("AbC", "aBd"), strncmp("abcd", "abce", 3), strrchr("a/b/c", '/'));
    printf(" %s %d\n", (char *)memchr("hello", 'l', 5), memmem("abc", 3, "d", 1) == NULL);
    for (int byte = 0; byte < 128; byte++)
        if (ispunct(byte) != 0 && !isgraph(byte))
            puts("never");
    printf("%c%c%d%d\n", toupper('x'), tolower('Q'), !!isxdigit('f'), !!isspace('\v'));
}

static void numbers(void)
{
    int values[] = {9, -3, 7, 0, 12, 7}, key = 7;
    qsort(values, 6, sizeof *values, by_value);
    int *found = bsearch(&key, values, 6, sizeof *values, by_value);
    for (int i = 0; i < 6; i++)
        printf("%d ", values[i]);
    printf("%d %ld %d\n", *found, ldiv(-17, 5).rem, abs(-4));
    srand(7);
    printf("%d %" PRIu64 " %" PRIxMAX "\n", rand() >= 0, UINT64_MAX, INTMAX_MAX);
    printf("%+d|%-8u|%08x|%#o|%hhd|%zd|%5.2s|%%|", 5, 42u, 0xbeefu, 8, 300, (ssize_t)-1, "xyz");
    printf("%*d|%-*d|%.*s|%lld\n", 6, 1, 6, 2, 2, "abc", -9223372036854775807LL - 1);
    int a, c = 0;
    char word[16], set[16];
    unsigned b;
    int read = sscanf("12 0x1f 077 word [set]", "%d %x %i %15s [%15[a-z]]", &a, &b, &c, word, set);
    printf("%d %d %u %d %s %s\n", read, a, b, c, word, set);
}

static void files(void)
{
    char *text = NULL, *made = NULL;
    size_t size = 0;
    FILE *file = open_memstream(&text, &size);
    fprintf(file, "line %d\nline %d\n", 1, 2);
    fclose(file);
    file = fmemopen(text, size, "r");
    char line[32];
    while (fgets(line, sizeof line, file))
        printf("%zu:%s", strlen(line), line);
    printf("%d %d ", feof(file) != 0, ferror(file));
    fclose(file);
    printf("%d ", fopen("/no/such/file", "r") == NULL && errno == ENOENT);
    int count = asprintf(&made, "%s-%d", "made", 7);
    printf("%d %s\n", count, made);
    free(made);
    free(text);
}

static void patterns(void)
{
    regex_t pattern;
    regmatch_t found[3];
    if (regcomp(&pattern, "([a-z]+)-([0-9]{2,})", REG_EXTENDED) == 0) {
        int no = regexec(&pattern, "see item-1 and part-42.", 3, found, 0);
        printf("%d %d %d %d\n", no, (int)found[0].rm_so, (int)found[2].rm_so, (int)found[2].rm_eo);
        regfree(&pattern);
    }
    char *words[] = {"x", "-a", "-n", "5", "rest", NULL};
    int letter;
    optind = 1;
    while ((letter = getopt(5, words, "an:")) != -1)
        printf("%c%s ", letter, optarg ? optarg : "");
    printf("%s\n", words[optind]);
}

static void times(void)
{
    struct tm parts = {.tm_year = 124, .tm_mon = 1, .tm_mday = 29, .tm_hour = 12};
    char text[64];
    time_t seconds = timegm(&parts);
    strftime(text, sizeof text, "%Y-%m-%d %a %j", gmtime(&seconds));
    printf("%lld %s\n", (long long)seconds, text);
}

static void wide(void)
{
    wchar_t text[16];
    setlocale(LC_ALL, "C.UTF-8");
    size_t count = mbstowcs(text, "\303\251t\303\251", 16);
    printf("%zu %x %ls %d\n", count, (unsigned)text[0], text, iswalpha((wint_t)text[0]) != 0);
}

int main(void)
{
    strings();
    numbers();
    files();
    patterns();
    times();
    wide();
    return 0;
}
