#include "kept_tenant.h"

#include <inttypes.h>
#include <stdio.h>
#include <stdlib.h>

static const uint8_t no_input[1];
static tb_fuzz tenant;
static tb_alone_end end;
static tb_fuzz_finding finding;
static uint64_t setup_steps;
static uint32_t steps;
static bool is_exact;
static compared_hook *told;
static uint64_t every, runs;

static _Noreturn void give_up(const char *what, const char *why)
{
    fprintf(stderr, "%s: %s\n", what, why);
    exit(1);
}

static unsigned long long number(const char *name, int base, unsigned long long usual)
{
    const char *text = getenv(name);
    return text ? strtoull(text, NULL, base) : usual;
}

static uint8_t *read_file(const char *name, size_t *length)
{
    FILE *file = fopen(name, "rb");
    long size = -1;
    if (file && fseek(file, 0, SEEK_END) == 0)
        size = ftell(file);
    uint8_t *bytes = size < 0 ? NULL : malloc((size_t)size + 1);
    if (!bytes || fseek(file, 0, SEEK_SET) || fread(bytes, 1, (size_t)size, file) != (size_t)size)
        give_up(name, "not read");
    fclose(file);
    *length = (size_t)size;
    return bytes;
}

void tenant_load(void)
{
    const char *name = getenv("TENANT");
    uint32_t setup = (uint32_t)number("SETUP", 10, 10000000);
    size_t length;
    if (!name)
        give_up("TENANT", "names the image");
    uint8_t *image = read_file(name, &length);
    tb_terms terms = {image, length, no_input, 0, &setup, 1, number("SEED", 16, 1),
                      (uint32_t)number("PAGES", 10, 256), 65536, 0, 0};
    if (tb_fuzz_new(&terms, &tenant, &end) != TB_OK)
        give_up(name, end.code == TB_REFUSED ? tb_refusal_name(end.refusal) : tb_text(end.code));
    if (end.status.status != TB_STATUS_RUNNING)
        give_up(name, "ends in its setup");
    if (setup && end.steps == setup)
        give_up(name, "does not yield in its setup (SETUP)");
    setup_steps = end.steps;
    steps = (uint32_t)number("STEPS", 10, 1000000);
    is_exact = number("EXACT", 10, 0) != 0;
    compared_load(image, length);
    free(image);
}

void tenant_compare(uint64_t usual, compared_hook *hook)
{
    every = number("COMPARE", 10, usual);
    told = hook;
}

static void tell_finding(void)
{
    fprintf(stderr, "%s: %" PRIu64 " bytes %s at %#" PRIx64 ", of which %#" PRIx64
            " is forbidden, by instruction %" PRIu64 " at %#" PRIx64 "\n",
            tb_trespass_name(finding.kind), finding.size, finding.write ? "written" : "read",
            finding.pointer, finding.addr, finding.step, finding.pc);
}

/* What is compared is told by a run that is not exact, which another map counts then. */
static void run_compared(const tb_fuzz_input *run, uint8_t *map, size_t map_length)
{
    static uint8_t unseen[256];
    if (is_exact)
        tb_fuzz_run_compared(&tenant, run, unseen, sizeof unseen, compared_clear(), &end);
    else
        tb_fuzz_run_compared(&tenant, run, map, map_length, compared_clear(), &end);
}

int tenant_run(const uint8_t *input, size_t length, uint8_t *map, size_t map_length,
               int saturating)
{
    tb_fuzz_input run = {length ? input : no_input, length, &steps, 1, (uint32_t)saturating, 0};
    bool is_compared = every && ++runs % every == 0;
    if (is_compared)
        run_compared(&run, map, map_length);
    if (is_exact)
        tb_fuzz_run_exact(&tenant, &run, map, map_length, &end, &finding);
    else if (!is_compared)
        tb_fuzz_run(&tenant, &run, map, map_length, &end);
    if (end.code != TB_OK || finding.missed)
        give_up("a run", tb_text(finding.missed ? TB_OUT_OF_MEMORY : end.code));
    if (is_compared)
        compared_tell(&tenant, NULL, told);
    if (finding.kind)
        tell_finding();
    return finding.kind || end.status.status >= TB_STATUS_FAULT;
}

void tenant_tell(const uint8_t *input, size_t length, compared_hook *hook)
{
    static uint8_t unseen[256];
    tb_fuzz_input run = {length ? input : no_input, length, &steps, 1, 0, 0};
    tb_alone_end ended;
    tb_fuzz_run_compared(&tenant, &run, unseen, sizeof unseen, compared_clear(), &ended);
    compared_tell(&tenant, &run, hook);
}

uint64_t tenant_steps(void)
{
    return end.steps - setup_steps;
}
