/*
 * Makes single steps under QEMU's user mode (qemu-aarch64 -cpu max): reads records of what stands
 * before a step from standard input, and writes what stands after it. check_qemu.py starts it.
 *
 * A step is a return from a signal's handler with all registers set. The next instruction is a BRK,
 * or cannot be fetched, so that the handler runs again and reads the registers. PSTATE.TCO is set
 * within the handler, whose own accesses compare no tags.
 */
#define _GNU_SOURCE
#include <signal.h>
#include <stdint.h>
#include <string.h>
#include <sys/mman.h>
#include <sys/prctl.h>
#include <ucontext.h>
#include <unistd.h>

enum { GRANULES = 8, PAGES = 7, BRK = 0xd42eeee0, MTE = 0x20 };

struct granule {
    uint64_t at;
    uint8_t bytes[16];
    uint64_t tag;
};

struct request {
    uint64_t x[31], sp, pc, nzcv, checked, has_word, word, count;
    struct granule granules[GRANULES];
};

struct answer {
    uint64_t x[31], sp, pc, nzcv, signal, code, addr, count;
};

static const struct {
    uint64_t at;
    int protection;
} pages[PAGES] = {
    {0x100000, PROT_READ | PROT_EXEC}, {0x101000, PROT_READ | PROT_EXEC},
    {0x110000, PROT_READ}, {0x120000, PROT_READ | PROT_WRITE | MTE},
    {0x121000, PROT_READ | PROT_WRITE | MTE}, {0x122000, PROT_READ},
    {0x123000, PROT_READ | PROT_WRITE | MTE},
};

static struct request request;
static int started;
static uint8_t stack[1 << 16] __attribute__((aligned(16)));

static void set_tag(uint64_t at, uint64_t tag) {
    __asm__ volatile("stg %0, [%0]" : : "r"(at | tag << 56) : "memory");
}

static uint64_t tag_of(uint64_t at) {
    uint64_t found = at;
    __asm__ volatile("ldg %0, [%1]" : "+r"(found) : "r"(at) : "memory");
    return found >> 56 & 15;
}

static int get(void *to, size_t length) {
    for (size_t have = 0; have < length;) {
        ssize_t more = read(0, (char *)to + have, length - have);
        if (more <= 0)
            return 0;
        have += (size_t)more;
    }
    return 1;
}

static void put(const void *from, size_t length) {
    for (size_t have = 0; have < length;) {
        ssize_t more = write(1, (const char *)from + have, length - have);
        if (more <= 0)
            _exit(3);
        have += (size_t)more;
    }
}

/* Lets all pages be written, or gives them what may be done with them. */
static void open_pages(int open) {
    for (int i = 0; i < PAGES; i++)
        if (!(pages[i].protection & PROT_WRITE))
            mprotect((void *)pages[i].at, 4096,
                     open ? PROT_READ | PROT_WRITE : pages[i].protection);
}

/* Each word of the code is a BRK, all else is zero with tag 0. */
static void clear(void) {
    for (int i = 0; i < PAGES; i++) {
        if (pages[i].protection & PROT_EXEC) {
            for (int n = 0; n < 1024; n++)
                ((uint32_t *)pages[i].at)[n] = BRK;
        } else {
            memset((void *)pages[i].at, 0, 4096);
        }
        for (uint64_t at = 0; pages[i].protection & MTE && at < 4096; at += 16)
            if (tag_of(pages[i].at + at))
                set_tag(pages[i].at + at, 0);
    }
}

/* Writes the granules that are not zero with tag 0. Of the code none is looked at. */
static uint64_t tell(struct granule *found) {
    static const uint8_t zero[16];
    uint64_t count = 0;
    for (int i = 0; i < PAGES; i++)
        for (uint64_t at = pages[i].at; at < pages[i].at + 4096; at += 16) {
            uint64_t tag = pages[i].protection & MTE ? tag_of(at) : 0;
            if (pages[i].protection & PROT_EXEC || (!tag && !memcmp((void *)at, zero, 16)))
                continue;
            found[count].at = at;
            memcpy(found[count].bytes, (void *)at, 16);
            found[count++].tag = tag;
        }
    return count;
}

static void answer(int signal, const siginfo_t *info, const mcontext_t *now) {
    static struct granule found[PAGES * 256];
    struct answer it;
    memcpy(it.x, now->regs, sizeof it.x);
    it.sp = now->sp;
    it.pc = now->pc;
    it.nzcv = now->pstate >> 28 & 15;
    it.signal = (uint64_t)signal;
    it.code = (uint64_t)info->si_code;
    it.addr = (uint64_t)info->si_addr;
    it.count = tell(found);
    put(&it, sizeof it);
    put(found, it.count * sizeof *found);
}

static void enter(mcontext_t *now) {
    open_pages(1);
    clear();
    for (uint64_t i = 0; i < request.count; i++) {
        memcpy((void *)request.granules[i].at, request.granules[i].bytes, 16);
        if (request.granules[i].tag)
            set_tag(request.granules[i].at, request.granules[i].tag);
    }
    if (request.has_word) {
        memcpy((void *)request.pc, &(uint32_t){(uint32_t)request.word}, 4);
        if ((request.pc & 4095) != 4092 || request.pc < 0x101000)
            *(uint32_t *)(request.pc + 4) = BRK;
    }
    open_pages(0);
    prctl(PR_SET_TAGGED_ADDR_CTRL, 1 | (request.checked ? 2 : 0) | 0xfffe << 3, 0, 0, 0);
    memcpy(now->regs, request.x, sizeof request.x);
    now->sp = request.sp;
    now->pc = request.pc;
    now->pstate = request.nzcv << 28;
}

static void handle(int signal, siginfo_t *info, void *context) {
    mcontext_t *now = &((ucontext_t *)context)->uc_mcontext;
    __asm__ volatile("msr tco, #1");
    if (started)
        answer(signal, info, now);
    started = 1;
    if (!get(&request, sizeof request))
        _exit(0);
    enter(now);
    /* A return from the handler alone would not begin the checks again. */
    __asm__ volatile("msr tco, #0");
}

int main(void) {
    static const int signals[] = {SIGTRAP, SIGSEGV, SIGBUS, SIGILL};
    stack_t other = {.ss_sp = stack, .ss_size = sizeof stack};
    struct sigaction act = {.sa_sigaction = handle, .sa_flags = SA_SIGINFO | SA_ONSTACK};
    for (int i = 0; i < PAGES; i++)
        if (mmap((void *)pages[i].at, 4096, PROT_READ | PROT_WRITE | (pages[i].protection & MTE),
                 MAP_PRIVATE | MAP_ANONYMOUS | MAP_FIXED, -1, 0) == MAP_FAILED)
            return 2;
    sigaltstack(&other, 0);
    for (int i = 0; i < 4; i++)
        sigaction(signals[i], &act, 0);
    __asm__ volatile("brk #0");
    return 4;
}
