/* A golden step, and how it is written: the format of docs/GOLDEN.md. */
#ifndef GOLDEN_JSON_H
#define GOLDEN_JSON_H

#include <stdio.h>
#include <string.h>
#include <time.h>
#include <tombolopan.h>
#include "golden_rows.h"

/* Groups that are no row. */
enum { REFUSED = -1, FETCH = -2, GRANULES = 5 };

struct range {
    uint64_t start, pages;
    const char *letters;
    uint32_t attrs;
};

struct granule {
    uint64_t at;
    uint8_t bytes[16], tag;
};

/* What is before a step, or after it. */
struct moment {
    tb_regs regs;
    uint32_t pending;
    struct granule granules[GRANULES];
};

struct step {
    int group;
    uint32_t word, asynchronous;
    unsigned granules;
    struct moment before, after;
    tb_stop stop;
};

/* Text on its way to standard output. */
static char line[4096], *line_end = line;

static void put(const char *text)
{
    while (*text)
        *line_end++ = *text++;
}

/* A number, its digits of base 10 or 16. */
static void put_number(uint64_t number, unsigned base)
{
    char digits[24], *at = digits + sizeof digits - 1;
    *at = '\0';
    do
        *--at = "0123456789abcdef"[number % base];
    while (number /= base);
    put(at);
}

static void put_hex(uint64_t number)
{
    put("\"");
    put_number(number, 16);
    put("\"");
}

static void put_byte(uint8_t byte)
{
    *line_end++ = "0123456789abcdef"[byte >> 4];
    *line_end++ = "0123456789abcdef"[byte & 15];
}

static void put_named(const char *name, uint64_t number)
{
    put(name);
    put_number(number, 10);
}

static void put_granule_text(const struct granule *it)
{
    put_hex(it->at);
    put(":[\"");
    for (int i = 0; i < 16; i++)
        put_byte(it->bytes[i]);
    put_named("\",", it->tag);
    put("]");
}

static int is_same(const struct granule *one, const struct granule *other)
{
    return memcmp(one->bytes, other->bytes, 16) == 0 && one->tag == other->tag;
}

/* The granules of a moment: those that are not as in the other one, where there is one. */
static void put_granules(const struct step *it, const struct moment *now, const struct moment *old)
{
    const char *between = "";
    for (unsigned i = 0; i < it->granules; i++) {
        if (old && is_same(&now->granules[i], &old->granules[i]))
            continue;
        put(between);
        put_granule_text(&now->granules[i]);
        between = ",";
    }
}

static int differ_granules(const struct step *it)
{
    for (unsigned i = 0; i < it->granules; i++)
        if (!is_same(&it->before.granules[i], &it->after.granules[i]))
            return 1;
    return 0;
}

static void put_rgsr(const tb_regs *regs)
{
    put_named("\"rgsr\":[", regs->rgsr_tag);
    put_named(",", regs->rgsr_seed);
    put("]");
}

static void put_before(const struct step *it)
{
    const tb_regs *regs = &it->before.regs;
    put("\"before\":{\"x\":[");
    for (int n = 0; n < 31; n++) {
        put(n > 0 ? "," : "");
        put_hex(regs->x[n]);
    }
    put("],\"sp\":");
    put_hex(regs->sp);
    put(",\"pc\":");
    put_hex(regs->pc);
    put_named(",\"nzcv\":", regs->nzcv >> 28);
    put(",");
    put_rgsr(regs);
    put(it->before.pending ? ",\"pending\":true" : ",\"pending\":false");
    put(",\"granules\":{");
    put_granules(it, &it->before, NULL);
    put("}}");
}

static void put_end(const tb_stop *stop)
{
    static const char *const names[] = {"next", "fault", "svc", "break", "illegal"};
    const tb_fault *fault = &stop->fault;
    put(",\"end\":{\"is\":\"");
    put(names[stop->code]);
    put("\"");
    if (stop->code == TB_BREAKPOINT)
        put_named(",\"number\":", stop->number);
    if (stop->code == TB_FAULT) {
        put(",\"kind\":\"");
        put(tb_fault_kind_name(fault->kind));
        put(fault->write ? "\",\"access\":\"write\",\"at\":" : "\",\"access\":\"read\",\"at\":");
        put_hex(fault->addr);
        put_named(",\"pointer_tag\":", fault->ptr_tag);
        put_named(",\"memory_tag\":", fault->mem_tag);
    }
    put("}");
}

/* What is in front of an entry of an object: its name, and a comma behind an earlier entry. */
static void put_name(const char **between, const char *name)
{
    put(*between);
    put(name);
    *between = ",";
}

/* Registers that are not as before. */
static void put_x(const struct step *it, const char **between)
{
    const char *inner = "";
    for (int n = 0; n < 31; n++) {
        if (it->before.regs.x[n] == it->after.regs.x[n])
            continue;
        if (*inner == '\0')
            put_name(between, "\"x\":{");
        put_named(*inner ? ",\"" : "\"", (uint64_t)n);
        put("\":");
        put_hex(it->after.regs.x[n]);
        inner = ",";
    }
    put(*inner ? "}" : "");
}

static void put_after(const struct step *it)
{
    const tb_regs *old = &it->before.regs, *now = &it->after.regs;
    const char *between = "";
    put(",\"after\":{");
    put_x(it, &between);
    if (now->sp != old->sp)
        put_name(&between, "\"sp\":"), put_hex(now->sp);
    if (now->pc != old->pc)
        put_name(&between, "\"pc\":"), put_hex(now->pc);
    if (now->nzcv != old->nzcv)
        put_name(&between, "\"nzcv\":"), put_number(now->nzcv >> 28, 10);
    if (now->rgsr_tag != old->rgsr_tag || now->rgsr_seed != old->rgsr_seed)
        put_name(&between, ""), put_rgsr(now);
    if (it->after.pending != it->before.pending)
        put_name(&between, it->after.pending ? "\"pending\":true" : "\"pending\":false");
    if (differ_granules(it)) {
        put_name(&between, "\"granules\":{");
        put_granules(it, &it->after, &it->before);
        put("}");
    }
    put("}}\n");
}

/* Writes a step as a line. */
static void write_step(const struct step *it)
{
    const int is_fetch = it->group == FETCH;
    line_end = line;
    put("{\"row\":\"");
    put(is_fetch ? "Fetch" : it->group == REFUSED ? "Refused" : rows[it->group].name);
    put(is_fetch ? "\",\"word\":null" : "\",\"word\":\"");
    for (int i = 3; i >= 0 && !is_fetch; i--)
        put_byte((uint8_t)(it->word >> 8 * i));
    put(is_fetch ? ",\"mode\":" : "\",\"mode\":");
    put(it->asynchronous ? "\"async\"," : "\"sync\",");
    put_before(it);
    put_end(&it->stop);
    put_after(it);
    fwrite(line, 1, (size_t)(line_end - line), stdout);
}

/* The lines of tb_build_info behind the first one, each a name and a value, as an object. */
static void write_build(void)
{
    static uint8_t text[161];
    const uint32_t length = tb_build_info(text, sizeof text - 1);
    const char *between = "";
    text[length < sizeof text - 1 ? length : sizeof text - 1] = '\0';
    strtok((char *)text, "\n");
    for (char *at = strtok(NULL, "\n"); at != NULL; at = strtok(NULL, "\n")) {
        char *colon = strchr(at, ':');
        if (colon == NULL)
            continue;
        *colon = '\0';
        printf("%s\"%s\": \"%s\"", between, at, colon + 1 + strspn(colon + 1, " "));
        between = ", ";
    }
}

/* Writes the first line. */
static void write_head(uint64_t count, uint64_t seed, const struct range *ranges, size_t length)
{
    printf("{\"format\": \"tombolopan golden steps 1\", \"count\": %llu, \"seed\": %llu, "
           "\"library\": {", (unsigned long long)count, (unsigned long long)seed);
    write_build();
    printf("}, \"pages\": [");
    for (size_t i = 0; i < length; i++)
        printf("%s[\"%llx\", %llu, \"%s\"]", i > 0 ? ", " : "",
               (unsigned long long)ranges[i].start, (unsigned long long)ranges[i].pages,
               ranges[i].letters);
    printf("]}\n");
}

/* Writes how many steps ended in each way, by the codes and the kinds of faults, and in what time
   of a processor. */
static void write_counts(const uint64_t *ends, const uint64_t *faults, clock_t time)
{
    printf("next %llu, svc %llu, break %llu, illegal %llu", (unsigned long long)ends[TB_OK],
           (unsigned long long)ends[TB_SVC], (unsigned long long)ends[TB_BREAKPOINT],
           (unsigned long long)ends[TB_ILLEGAL]);
    for (uint32_t kind = TB_TRANSLATION; kind <= TB_PC_ALIGNMENT; kind++)
        printf(", %s %llu", tb_fault_kind_name(kind), (unsigned long long)faults[kind]);
    printf("\n%.2f s of a processor\n", (double)time / CLOCKS_PER_SEC);
}

#endif
