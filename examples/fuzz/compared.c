#include "compared.h"

#include <elf.h>
#include <stdbool.h>
#include <string.h>

enum { FEWEST = 256, MOST = 65536 };

/*
 * Calls in a row. AFL++ and libFuzzer know a comparison by the address that their functions return
 * to, libFuzzer by its lowest nine bits: by this distance these are all different.
 */
#ifdef __x86_64__
enum { DISTANCE = 17 };
__asm__(".text\n"
        "compared_sites:\n"
        ".rept 4096\n"
        "sub $8, %rsp\n"
        "call *%rcx\n"
        "add $8, %rsp\n"
        "ret\n"
        ".skip 6, 0x90\n"
        ".endr\n");
#else
enum { DISTANCE = 20 };
__asm__(".text\n"
        ".balign 4\n"
        "compared_sites:\n"
        ".rept 4096\n"
        "stp x29, x30, [sp, #-16]!\n"
        "blr x3\n"
        "ldp x29, x30, [sp], #16\n"
        "ret\n"
        "nop\n"
        ".endr\n");
#endif

extern const char compared_sites[];

static const struct {
    const char *name;
    enum compared_how how;
} known[] = {
    {"memcmp", OF_LENGTH}, {"bcmp", OF_LENGTH}, {"strcmp", TO_ZERO}, {"strcoll", TO_ZERO},
    {"strcasecmp", TO_ZERO}, {"strncmp", TO_ZERO_OF_LENGTH}, {"strncasecmp", TO_ZERO_OF_LENGTH},
    {"strstr", WITHIN}, {"strcasestr", WITHIN},
};
enum { KNOWN = sizeof known / sizeof *known };

static uint64_t functions[KNOWN];
static enum compared_how hows[KNOWN];
static tb_comparison entries[MOST];
static tb_comparisons lent = {functions, 0, entries, FEWEST};

static void enter_symbol(const char *name, uint64_t address)
{
    for (size_t i = 0; i < KNOWN; i++)
        if (lent.function_count < KNOWN && address && strcmp(name, known[i].name) == 0) {
            hows[lent.function_count] = known[i].how;
            functions[lent.function_count++] = address;
        }
}

static bool is_within(size_t length, uint64_t offset, uint64_t size)
{
    return offset <= length && size <= length - offset;
}

static void enter_symbols(const uint8_t *image, const Elf64_Shdr *table, const char *names,
                          uint64_t size)
{
    for (uint64_t at = 0; at + sizeof(Elf64_Sym) <= table->sh_size; at += sizeof(Elf64_Sym)) {
        Elf64_Sym symbol;
        memcpy(&symbol, image + table->sh_offset + at, sizeof symbol);
        if (symbol.st_name < size && memchr(names + symbol.st_name, 0, size - symbol.st_name))
            enter_symbol(names + symbol.st_name, symbol.st_value);
    }
}

static Elf64_Shdr section(const uint8_t *image, size_t length, const Elf64_Ehdr *head, uint64_t at)
{
    Elf64_Shdr found = {0};
    uint64_t offset = head->e_shoff + at * sizeof found;
    if (head->e_shoff < length && at < head->e_shnum && is_within(length, offset, sizeof found))
        memcpy(&found, image + offset, sizeof found);
    if (!is_within(length, found.sh_offset, found.sh_size))
        found.sh_size = 0;
    return found;
}

void compared_load(const uint8_t *image, size_t length)
{
    Elf64_Ehdr head;
    if (length < sizeof head)
        return;
    memcpy(&head, image, sizeof head);
    for (uint64_t at = 0; at < head.e_shnum; at++) {
        Elf64_Shdr table = section(image, length, &head, at);
        Elf64_Shdr names = section(image, length, &head, table.sh_link);
        if (table.sh_type == SHT_SYMTAB)
            enter_symbols(image, &table, (const char *)image + names.sh_offset, names.sh_size);
    }
}

tb_comparisons *compared_clear(void)
{
    memset(entries, 0, lent.entry_count * sizeof *entries);
    return &lent;
}

void compared_call(uint64_t key, void *function, uint64_t left, uint64_t right, uint64_t third)
{
    uint64_t at = (key * 0x9E3779B97F4A7C15u >> 32) % SITES;
    void (*site)(uint64_t, uint64_t, uint64_t, void *) =
        (void (*)(uint64_t, uint64_t, uint64_t, void *))(compared_sites + at * DISTANCE);
    site(left, right, third, function);
}

/* The bytes at an address, fewer at the end of a page that has none after it. */
static bool is_read(tb_fuzz *fuzz, uint64_t address, uint8_t *text)
{
    address &= UINT64_MAX >> 8;
    size_t near = 4096 - (address & 4095);
    memset(text, 0, TEXT);
    return tb_fuzz_read(fuzz, address, text, TEXT) == TB_OK ||
           (near < TEXT && tb_fuzz_read(fuzz, address, text, near) == TB_OK);
}

/* Runs the machine up to a call. */
static void go_to(tb_fuzz *fuzz, const tb_fuzz_input *again, uint64_t step)
{
    static uint8_t unseen[256];
    uint32_t steps = (uint32_t)(step - 1);
    tb_fuzz_input run = *again;
    tb_alone_end end;
    run.slices = &steps;
    run.slice_count = 1;
    tb_fuzz_run(fuzz, &run, unseen, sizeof unseen, &end);
}

static void tell_call(tb_fuzz *fuzz, const tb_comparison *it, compared_hook *hook)
{
    compared told = {it->pc, it->step, it->left, it->right, it->length, 0, hows[it->width],
                     {0}, {0}};
    if (is_read(fuzz, it->left, told.left_text) && is_read(fuzz, it->right, told.right_text))
        hook(&told);
}

static unsigned narrowest(uint64_t left, uint64_t right, unsigned width)
{
    uint64_t most = left > right ? left : right;
    if (width == 8)
        return most >> 32 ? 8 : 4;
    return most >> 16 ? 4 : most >> 8 ? 2 : 1;
}

/* An addition that sets flags compares with the opposite number. */
static void tell_numbers(const tb_comparison *it, compared_hook *hook)
{
    uint64_t right = it->right;
    if (it->kind == TB_COMPARED_ADDS || it->kind == TB_COMPARED_CCMN)
        right = it->width == 4 ? (uint32_t)-right : -right;
    compared told = {it->pc, it->step, it->left, right, 0,
                     narrowest(it->left, right, it->width), OF_LENGTH, {0}, {0}};
    hook(&told);
}

static void tell(tb_fuzz *fuzz, const tb_fuzz_input *again, const tb_comparison *it,
                 compared_hook *hook)
{
    if (it->kind == TB_COMPARED_CALL) {
        if (again)
            go_to(fuzz, again, it->step);
        tell_call(fuzz, it, hook);
    } else if (it->kind != TB_COMPARED_ANDS && it->kind != TB_COMPARED_TBZ) {
        tell_numbers(it, hook);
    }
}

/* Few places are cleared and looked at soon; they become more where a quarter is taken. */
void compared_tell(tb_fuzz *fuzz, const tb_fuzz_input *again, compared_hook *hook)
{
    size_t taken = 0;
    for (size_t at = 0; at < lent.entry_count; at++)
        if (entries[at].kind) {
            taken++;
            tell(fuzz, again, entries + at, hook);
        }
    if (taken * 4 > lent.entry_count && lent.entry_count < MOST)
        lent.entry_count *= 2;
}
