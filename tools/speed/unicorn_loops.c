/* Runs an image in Unicorn, and stops after a number of steps:
 *
 *     unicorn_loops IMAGE STEPS count|instructions|blocks
 *
 * count: Unicorn counts the steps. instructions, blocks: a hook on each counts them. */
#include <elf.h>
#include <stdint.h>
#include <stdio.h>
#include <stdlib.h>
#include <string.h>
#include <unicorn/unicorn.h>

enum { PAGE = 4096, STACK_BYTES = 0x10000 };
static const uint64_t STACK = 0x7f0000000;

struct Count {
    uint64_t done, wanted;
};

static void check(uc_err error)
{
    if (error != UC_ERR_OK) {
        fprintf(stderr, "unicorn_loops: %s\n", uc_strerror(error));
        exit(1);
    }
}

/* Called before each instruction, or each block, of `size` bytes. */
static void pass(uc_engine *engine, uint64_t address, uint32_t size, void *data)
{
    struct Count *count = data;
    (void)address;
    count->done += size / 4;
    if (count->done >= count->wanted)
        uc_emu_stop(engine);
}

static void load(uc_engine *engine, FILE *file, const Elf64_Phdr *segment)
{
    uint64_t first = segment->p_vaddr / PAGE * PAGE;
    uint64_t end = (segment->p_vaddr + segment->p_memsz + PAGE - 1) / PAGE * PAGE;
    void *bytes = calloc(1, segment->p_filesz + 1);
    check(uc_mem_map(engine, first, end - first, UC_PROT_ALL));
    if (!bytes || fseek(file, (long)segment->p_offset, SEEK_SET)
        || fread(bytes, 1, segment->p_filesz, file) != segment->p_filesz)
        exit(1);
    check(uc_mem_write(engine, segment->p_vaddr, bytes, segment->p_filesz));
    free(bytes);
}

/* Loads an image, and returns its entry. */
static uint64_t load_image(uc_engine *engine, const char *name)
{
    FILE *file = fopen(name, "rb");
    Elf64_Ehdr head;
    Elf64_Phdr segment;
    if (!file || fread(&head, sizeof head, 1, file) != 1)
        exit(1);
    for (int i = 0; i < head.e_phnum; i++) {
        if (fseek(file, (long)(head.e_phoff + (uint64_t)i * sizeof segment), SEEK_SET)
            || fread(&segment, sizeof segment, 1, file) != 1)
            exit(1);
        if (segment.p_type == PT_LOAD)
            load(engine, file, &segment);
    }
    fclose(file);
    return head.e_entry;
}

int main(int argc, char **argv)
{
    if (argc != 4)
        return 2;
    uc_engine *engine;
    uc_hook hook;
    struct Count count = {0, strtoull(argv[2], NULL, 10)};
    uint64_t stack = STACK + STACK_BYTES, steps = 0;
    check(uc_open(UC_ARCH_ARM64, UC_MODE_ARM, &engine));
    uint64_t entry = load_image(engine, argv[1]);
    check(uc_mem_map(engine, STACK, STACK_BYTES, UC_PROT_READ | UC_PROT_WRITE));
    check(uc_reg_write(engine, UC_ARM64_REG_SP, &stack));
    if (strcmp(argv[3], "count") == 0)
        steps = count.wanted;
    else
        check(uc_hook_add(engine, &hook, strcmp(argv[3], "blocks") ? UC_HOOK_CODE : UC_HOOK_BLOCK,
                          (void *)pass, &count, 1, 0));
    check(uc_emu_start(engine, entry, UINT64_MAX, 0, (size_t)steps));
    check(uc_close(engine));
    return 0;
}
