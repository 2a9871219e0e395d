/* Makes golden steps: single steps of an A64 core as the library's tb_step makes them, as JSON
   lines. docs/GOLDEN.md has the format.

       make_golden [--count] ROWS COUNT SEED > steps.jsonl

   ROWS is isa/a64.rows. Steps are drawn for each row in turn, for words that are no instruction
   (Refused) and for fetches that fault (Fetch). The same COUNT and SEED give the same steps. With
   --count the steps are made, and what ends they had, and in what time, is written in their
   place. */
#include <ctype.h>
#include <errno.h>
#include <stdio.h>
#include <stdlib.h>
#include <string.h>
#include <time.h>
#include <tombolopan.h>
#include "golden_json.h"
#include "golden_rows.h"

#define LENGTH(array) (sizeof(array) / sizeof *(array))
#define PLAIN (((uint64_t)1 << 56) - 1)

static const struct range ranges[] = {
    {0x100000, 2, "RX", TB_READ | TB_EXEC},
    {0x110000, 1, "R", TB_READ},
    {0x120000, 2, "RWT", TB_READ | TB_WRITE | TB_TAGGED},
    {0x122000, 1, "R", TB_READ},
    {0x123000, 1, "RWT", TB_READ | TB_WRITE | TB_TAGGED},
};
enum { CODE = 0x100000, PLACES = 7, PAGE = 4096, CHECKED = 1000 };
/* Addresses that accesses are aimed at: within pages, and where two of them meet. */
static const uint64_t focus[] = {
    0x120100, 0x120100, 0x120ff8, 0x120ff0, 0x121080, 0x121ff8, 0x122ff8, 0x123040, 0x123ff8,
    0x11fff8, 0x110020, 0x100ff8, 0x200000,
};
/* Where a fetch faults: not a multiple of 4, not mapped, without EXEC. */
static const uint64_t fetches[] = {
    0x100801, 0x100802, 0x100ffe, 0x102000, 0x0ffffc, 0x110000, 0x120010, 0x122100,
};

static tb_page pages[PLACES], blind_page[1];
static tb_tag_state state, blind_state;

/* Draws. */

static uint64_t source;

static uint64_t draw(void)
{
    uint64_t z = (source += 0x9E3779B97F4A7C15u);
    z = (z ^ z >> 30) * 0xBF58476D1CE4E5B9u;
    z = (z ^ z >> 27) * 0x94D049BB133111EBu;
    return z ^ z >> 31;
}

/* A number below `count`, which is below 2^32. */
static uint64_t below(uint64_t count)
{
    return (draw() >> 32) * count >> 32;
}

static uint64_t draw_focus(void)
{
    return focus[below(LENGTH(focus))];
}

/* A register's value: of all bits, small, a power of two, near the top, or an address. */
static uint64_t draw_value(void)
{
    const uint64_t drawn = draw(), other = draw();
    const uint64_t near = focus[(other >> 32) * LENGTH(focus) >> 32] + (other & 31) - 16;
    const uint64_t address = near | drawn >> 60 << 56;
    const uint64_t values[8] = {
        other, other, drawn >> 58, (uint64_t)1 << (drawn >> 58), ~(drawn >> 60), drawn >> 32,
        address, address,
    };
    return values[drawn & 7];
}

static void draw_regs(tb_regs *regs)
{
    for (int n = 0; n < 31; n++)
        regs->x[n] = draw_value();
    regs->sp = draw_focus() & ~(uint64_t)15;
    if (below(8) == 0)
        regs->sp += below(16);
    regs->pc = CODE + 4 * (16 + below(1008));
    regs->nzcv = (uint32_t)below(16) << 28;
    regs->rgsr_tag = (uint16_t)below(16);
    regs->rgsr_seed = (uint16_t)draw();
}

/* A word with the fixed bits of a row. A field is often an end of its range or register 31. */
static uint32_t draw_of_row(const struct row *row)
{
    uint32_t word = row->value;
    for (unsigned i = 0; i < row->count; i++) {
        const uint32_t top = ((uint32_t)1 << row->fields[i].width) - 1;
        const uint64_t drawn = draw();
        const uint32_t ends[4] = {0, top, 31 & top, drawn >> 8 & 7 & top};
        uint32_t field = (uint32_t)(drawn >> 32) & top;
        if (drawn % 4 == 0)
            field = ends[drawn >> 2 & 3];
        word |= field << row->fields[i].bit;
    }
    return word;
}

/* Memory. */

/* The range that holds an address, or null. */
static const struct range *range_of(uint64_t at)
{
    for (size_t i = 0; i < LENGTH(ranges); i++)
        if (at >= ranges[i].start && at < ranges[i].start + ranges[i].pages * PAGE)
            return &ranges[i];
    return NULL;
}

/* The place of the page that holds a mapped address. */
static tb_page *page_of(uint64_t at)
{
    size_t place = 0;
    while (pages[place].number != at / PAGE)
        place++;
    return &pages[place];
}

static int start_memory(void)
{
    tb_memory_init(pages, PLACES, &state, false);
    tb_memory_init(blind_page, 1, &blind_state, false);
    uint32_t code = tb_map(blind_page, 1, CODE / PAGE, TB_EXEC);
    for (size_t i = 0; i < LENGTH(ranges) && code == TB_OK; i++)
        code = tb_map_range(pages, PLACES, ranges[i].start / PAGE, ranges[i].pages,
                            ranges[i].attrs);
    return code == TB_OK;
}

/* Whether the bytes and tags of all pages are zero, as they are between two steps. */
static int is_clean(void)
{
    static const tb_page none;
    for (size_t i = 0; i < PLACES; i++)
        if (memcmp(pages[i].bytes, none.bytes, PAGE) || memcmp(pages[i].tags, none.tags, 256))
            return 0;
    return 1;
}

static struct granule granule_at(uint64_t at)
{
    struct granule it = {at, {0}, 0};
    const tb_page *page = page_of(at);
    memcpy(it.bytes, page->bytes + at % PAGE, 16);
    it.tag = page->tags[at % PAGE / 16];
    return it;
}

static void put_granule(const struct granule *it)
{
    tb_page *page = page_of(it->at);
    memcpy(page->bytes + it->at % PAGE, it->bytes, 16);
    page->tags[it->at % PAGE / 16] = it->tag;
}

static void put_word(uint64_t at, uint32_t word)
{
    uint8_t *bytes = page_of(at)->bytes + at % PAGE;
    for (int i = 0; i < 4; i++)
        bytes[i] = (uint8_t)(word >> 8 * i);
}

/* Steps. */

/* Faster than an assignment, of which compilers may make one instruction that repeats. */
static void copy_regs(tb_regs *to, const tb_regs *from)
{
    for (int n = 0; n < 31; n++)
        to->x[n] = from->x[n];
    to->sp = from->sp;
    to->pc = from->pc;
    to->nzcv = from->nzcv;
    to->rgsr_seed = from->rgsr_seed;
    to->rgsr_tag = from->rgsr_tag;
}

/* How a word's step ends where every access faults; it changes a copy of the registers alone. */
static tb_stop probe(uint32_t word, const tb_regs *regs)
{
    static tb_regs copy;
    tb_stop stop;
    uint8_t *bytes = blind_page[0].bytes + regs->pc % PAGE;
    copy_regs(&copy, regs);
    blind_page[0].number = regs->pc / PAGE;
    for (int i = 0; i < 4; i++)
        bytes[i] = (uint8_t)(word >> 8 * i);
    tb_step(blind_page, 1, &blind_state, &copy, &stop);
    return stop;
}

static int is_literal(uint32_t word)
{
    return (word & 0x3F000000) == 0x18000000;
}

/* A load of a literal with an offset that leads to one of the chosen addresses. */
static uint32_t aim_literal(uint32_t word, uint64_t pc)
{
    static const uint32_t beside[] = {0, 0, 1, 2};
    const uint32_t offset = (uint32_t)((draw_focus() - pc) / 4) + beside[below(4)];
    return (word & ~((uint32_t)0x7FFFF << 5)) | (offset & 0x7FFFF) << 5;
}

/* Moves the base register of a load or a store whose access is at `from`, so that it accesses a
   chosen address. */
static void aim_base(uint32_t word, tb_regs *regs, uint64_t from)
{
    static const int beside[] = {0, 0, 0, 8, -8, 1, 3, 5, 12};
    static const uint64_t tags[] = {0, 3, 9};
    const unsigned base = word >> 5 & 31, top = word >> 24;
    uint64_t target = draw_focus() + (uint64_t)beside[below(LENGTH(beside))];
    if ((top == 0xD9 || top == 0x69 || top == 0x68) && below(5) > 0)
        target &= ~(uint64_t)15;
    if (is_literal(word) || below(10) == 0)
        return;
    if (base == 31)
        regs->sp = ((regs->sp + target - from) & PLAIN & ~(uint64_t)15) | tags[below(2)] << 56;
    else
        regs->x[base] = ((regs->x[base] + target - from) & PLAIN) | tags[below(3)] << 56;
}

/* Draws bytes and tags of the granules about an access. */
static void fill(struct step *it, const tb_fault *near)
{
    const uint64_t first = (near->addr & ~(uint64_t)15) - 16;
    const int is_odd = below(2) == 0;
    it->granules = 0;
    for (uint64_t at = first; at != first + 16 * GRANULES; at += 16) {
        const struct range *range = range_of(at);
        struct granule made = {at, {0}, 0};
        const uint64_t drawn[2] = {draw(), draw()};
        if (range == NULL)
            continue;
        memcpy(made.bytes, drawn, 16);
        if (range->attrs & TB_TAGGED)
            made.tag = (uint8_t)(is_odd && below(10) < 6 ? below(16) : near->ptr_tag);
        put_granule(&made);
        it->before.granules[it->granules++].at = at;
    }
}

/* A word of a row, or one that is no instruction, with how it ends where every access faults. */
static tb_stop draw_word(struct step *it)
{
    const int wants_none = it->group == REFUSED;
    tb_stop stop;
    int is_none;
    do {
        const int row = wants_none ? (int)below(row_count) : it->group;
        it->word = draw_of_row(&rows[row]);
        if (wants_none && below(10) < 3)
            it->word = (uint32_t)draw();
        stop = probe(it->word, &it->before.regs);
        is_none = stop.code == TB_ILLEGAL;
    } while (is_none != wants_none || (!is_none && row_of(it->word) != it->group));
    return stop;
}

/* The word at PC, with the granules about its access, if it has one. */
static void place_word(struct step *it)
{
    tb_regs *regs = &it->before.regs;
    tb_stop stop = draw_word(it);
    if (is_literal(it->word) && below(5) > 0) {
        it->word = aim_literal(it->word, regs->pc);
        stop = probe(it->word, regs);
    }
    if (stop.code == TB_FAULT && stop.fault.kind != TB_SP_ALIGNMENT) {
        aim_base(it->word, regs, stop.fault.addr);
        stop = probe(it->word, regs);
        if (stop.code == TB_FAULT)
            fill(it, &stop.fault);
    }
    put_word(regs->pc, it->word);
}

static void keep_granules(const struct step *it, struct moment *now)
{
    for (unsigned i = 0; i < it->granules; i++)
        now->granules[i] = granule_at(it->before.granules[i].at);
}

/* Makes the memory zero again, but for what no step may have changed. */
static void clean(const struct step *it)
{
    for (unsigned i = 0; i < it->granules; i++) {
        const struct granule none = {it->before.granules[i].at, {0}, 0};
        put_granule(&none);
    }
    if (it->group != FETCH)
        put_word(it->before.regs.pc, 0);
}

/* Makes a step of a group. */
static void make(struct step *it)
{
    state.asynchronous = below(4) == 0;
    state.pending = state.asynchronous && below(10) < 3;
    it->asynchronous = state.asynchronous;
    draw_regs(&it->before.regs);
    it->granules = 0;
    if (it->group == FETCH)
        it->before.regs.pc = fetches[below(LENGTH(fetches))];
    else
        place_word(it);
    it->before.pending = state.pending;
    keep_granules(it, &it->before);
    copy_regs(&it->after.regs, &it->before.regs);
    tb_step(pages, PLACES, &state, &it->after.regs, &it->stop);
    it->after.pending = state.pending;
    keep_granules(it, &it->after);
    clean(it);
}

/* Makes so many steps, and writes them or counts their ends. 0 where one changed what it must not,
   or where the output fails. */
static int make_all(uint64_t count, int is_counted)
{
    static uint64_t ends[TB_STOPPED + 1], faults[TB_PC_ALIGNMENT + 1];
    static struct step it;
    for (uint64_t number = 0; number < count; number++) {
        const unsigned group = number % (row_count + 2);
        it.group = group < row_count ? (int)group : group == row_count ? REFUSED : FETCH;
        make(&it);
        ends[it.stop.code]++;
        faults[it.stop.fault.kind]++;
        if (!is_counted)
            write_step(&it);
        if ((number + 1) % CHECKED == 0 && !is_clean())
            return 0;
    }
    if (is_counted)
        write_counts(ends, faults, clock());
    return is_clean() && fflush(stdout) == 0 && !ferror(stdout);
}

/* A decimal number, or 0 where it is none. */
static int read_number(const char *text, uint64_t *number)
{
    char *end;
    errno = 0;
    *number = strtoull(text, &end, 10);
    return isdigit((unsigned char)*text) && *end == '\0' && errno == 0;
}

int main(int count, char **words)
{
    const int is_counted = count == 5 && strcmp(words[1], "--count") == 0;
    uint64_t steps, seed;
    char **last = words + count - 3;
    if ((count != 4 && !is_counted) || !read_number(last[1], &steps) ||
        !read_number(last[2], &seed)) {
        fprintf(stderr, "usage: make_golden [--count] ROWS COUNT SEED\n");
        return 2;
    }
    if (!read_rows(last[0]) || !start_memory()) {
        fprintf(stderr, "make_golden: %s: it has not the form of isa/a64.rows\n", last[0]);
        return 2;
    }
    source = seed;
    if (!is_counted)
        write_head(steps, seed, ranges, LENGTH(ranges));
    if (make_all(steps, is_counted))
        return 0;
    fprintf(stderr, "make_golden: a step changed another granule, or the output failed\n");
    return 1;
}
