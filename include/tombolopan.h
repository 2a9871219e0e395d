/*
 * libtombolopan_c.a: sessions of several tenants, a tenant alone, once or many times from one
 * snapshot, a tagged memory as FEAT_MTE2 has it, a step of an A64 core, a run of steps, and the
 * calls of a heap with tags.
 *
 * All memory is the caller's and is lent to each call: files, an array of places for pages, the tag
 * state, the registers. The library keeps nothing between calls but the machine that tb_fuzz_new
 * makes and tb_fuzz_free frees (tb_fuzz), and only these, tb_fuzz_run, tb_fuzz_run_exact,
 * tb_fuzz_run_compared, tb_session, tb_alone, tb_machine_acts, tb_machine_pages, tb_heap_calls,
 * tb_heap_replay, tb_heap_pages and tb_heap_live allocate, the last eight for their own time. So
 * the caller may read and write all that it lends between calls, copy it, or place it in a file.
 * Every content has a meaning:
 *
 * - A place with `mapped` 0 is free; zero bytes are free places and the synchronous mode.
 * - Of several places of one page the first counts.
 * - Of `attrs`, of each tag and of `rgsr_tag` the low four bits count.
 * - Bits 63 to 56 of `pc` are to be 0: a fetch passes them over, ADR, ADRP and BL do not.
 *
 * Rules that a caller must keep: no pointer is null, also where a count is 0; each points to what
 * its type says, of the count that is passed; what one call is lent in different arguments does not
 * overlap, and no other thread writes it meanwhile. ANY NUMBER OF THREADS MAY CALL AT ONCE, each on
 * memory of its own; what is only read (const) may be shared.
 *
 * Calls that are `static inline` are of this header alone, made of the others.
 *
 * A page's number is the plain address of its first byte divided by 4096. An access uses the low 56
 * bits of its address, and the tag of the address is in bits 59 to 56. A search for a page goes
 * through the places in order, so pages that are used most belong first.
 */
#ifndef TOMBOLOPAN_H
#define TOMBOLOPAN_H

#include <stddef.h>
#include <stdint.h>

/* The version of these layouts and calls; tb_version() tells that of the library. */
#define TB_VERSION 2

#ifdef __cplusplus
#define TB_ASSERT(condition) static_assert(condition, #condition)
extern "C" {
#else
#include <stdbool.h>
#define TB_ASSERT(condition) _Static_assert(condition, #condition)
#endif

// Written by tools/border.py: the numbers

/* What calls answer. */
enum tb_code {
    TB_OK = 0,             /* done; a step went on, a run did all of its steps */
    TB_FAULT = 1,          /* the access, or the instruction or its fetch, faulted */
    TB_SVC = 2,            /* SVC #0 */
    TB_BREAKPOINT = 3,     /* BRK with a number */
    TB_ILLEGAL = 4,        /* the word is no instruction of the profile */
    TB_NOT_MAPPED = 5,     /* the page is not mapped */
    TB_ALREADY_MAPPED = 6, /* the page is mapped already */
    TB_NO_ROOM = 7,        /* no place is free */
    TB_BAD_ARGUMENT = 8,   /* an argument is out of its range */
    TB_ABORT = 9,          /* a check of the pointer that was handed to the heap failed */
    TB_OUT_OF_MEMORY = 10, /* an allocation failed */
    TB_SCRIPT = 11,        /* a line of the script is faulty */
    TB_REFUSED = 12,       /* the tenant is not admitted */
    TB_STOPPED = 13,       /* the PC came to one of the stops */
    TB_NO_MACHINE = 14     /* the handle holds no machine */
};

/* Why an access faulted; 0 is no fault. */
enum tb_fault_kind {
    TB_TRANSLATION = 1,  /* no page is mapped there */
    TB_PERMISSION = 2,   /* the page lacks READ, WRITE or EXEC */
    TB_TAG_CHECK = 3,    /* the address tag is not the granule's allocation tag */
    TB_ALIGNMENT = 4,    /* tags stored at an address that is not a multiple of 16 */
    TB_SP_ALIGNMENT = 5, /* a stack pointer as a base that is not a multiple of 16 */
    TB_PC_ALIGNMENT = 6  /* a fetch at an address that is not a multiple of 4 */
};

/* What tb_heap_calls makes. TB_LOAD and TB_STORE are accesses of 8 bytes, the lowest first, and
   compare the tags; TB_LOAD_TAG compares none. */
enum tb_heap_op {
    TB_MALLOC = 1,      /* a chunk of `first` bytes */
    TB_FREE = 2,        /* frees the chunk at `first` */
    TB_CALLOC = 3,      /* a chunk for `first` elements of `second` bytes, all zero */
    TB_REALLOC = 4,     /* gives the chunk at `first` a size of `second` bytes */
    TB_MEMALIGN = 5,    /* a chunk of `second` bytes at a multiple of `first` */
    TB_USABLE_SIZE = 6, /* how many bytes of the chunk at `first` may be used */
    TB_LOAD = 7,        /* the number at `first` */
    TB_STORE = 8,       /* stores `second` at `first` */
    TB_LOAD_TAG = 9     /* the allocation tag of the granule that holds `first` */
};

/* Why a pointer that was handed to the heap is refused: the first check that it fails. */
enum tb_heap_abort {
    TB_MISALIGNED = 1,     /* it is not a multiple of 16 */
    TB_UNMAPPED = 2,       /* no page with TB_WRITE holds its header */
    TB_HEADER_CORRUPT = 3, /* the checksum of its header differs */
    TB_INVALID_STATE = 4,  /* its header says that it is free */
    TB_NOT_A_BLOCK = 5,    /* its header names no block of the heap */
    TB_ALREADY_FREE = 6    /* its block is free */
};

/* What is wrong with a line of a script, in the order in which it is tested. */
enum tb_script_fault {
    TB_SYNTAX = 1,         /* it has not the form of an event */
    TB_BAD_NUMBER = 2,     /* a number exceeds its limit */
    TB_NO_SUCH_FILE = 3,   /* it names a file that is not there */
    TB_TOO_MANY_EVENTS = 4 /* it is the 10001st event */
};

/* Why a tenant alone is not admitted: the first that applies. */
enum tb_refusal {
    TB_BAD_RESERVATION = 2,       /* the reservation or the room is out of its limits */
    TB_RESERVATION_TOO_SMALL = 3, /* the image's pages and the stack's exceed the reservation */
    TB_SHORT = 6,                 /* the image has less than the 64 bytes of a file header */
    TB_NOT_ELF64 = 7,             /* it is no little-endian ELF64 file of version 1 */
    TB_NOT_AARCH64 = 8,           /* e_machine isn't EM_AARCH64 */
    TB_NOT_EXEC = 9,              /* e_type isn't ET_EXEC */
    TB_BAD_HEADERS = 10,          /* e_phentsize, e_phnum or the table of program headers */
    TB_INTERPRETER = 11,          /* a program header is PT_INTERP */
    TB_SEGMENT_RANGE = 12,        /* a segment's sizes, its bytes or its addresses */
    TB_OVERLAP = 13,              /* two segments touch one page */
    TB_NO_ENTRY = 14              /* e_entry lies in no executable segment */
};

/* What became of a tenant, as the report of a session has it. */
enum tb_tenant_status {
    TB_STATUS_RUNNING = 1, /* it would go on with a next slice */
    TB_STATUS_EXIT = 2,    /* it ended itself, with a code */
    TB_STATUS_FAULT = 3,   /* an access failed */
    TB_STATUS_ILLEGAL = 4, /* a word that encodes no instruction */
    TB_STATUS_BREAK = 5,   /* a breakpoint instruction */
    TB_STATUS_ASYNC = 6,   /* in the asynchronous mode a tag differed */
    TB_STATUS_ABORT = 7    /* a heap call's check of a pointer failed */
};

/* What may be done with a page: a sum of these. */
enum tb_attrs {
    TB_READ = 1,
    TB_WRITE = 2,
    TB_EXEC = 4,
    TB_TAGGED = 8 /* its granules have allocation tags, which checked accesses compare */
};

/* What a traced access is: a sum of these. */
enum tb_access_kind {
    TB_ACCESS_READ = 1,     /* bytes are read */
    TB_ACCESS_WRITE = 2,    /* bytes are written */
    TB_ACCESS_READ_TAG = 4, /* an allocation tag is read (LDG) */
    TB_ACCESS_WRITE_TAG = 8 /* allocation tags are written (STG; STGP writes bytes too) */
};

/* What is done to a machine between its slices, or a slice (tb_machine_act). */
enum tb_act {
    TB_ACT_SLICE = 1,   /* a slice of at most `number` steps; it answers the steps so far */
    TB_ACT_GET = 2,     /* reads the register `number`: x0 to x30 0 to 30, SP 31, PC 32 */
    TB_ACT_SET = 3,     /* makes `value` the register `number` */
    TB_ACT_LOAD = 4,    /* reads the 8 bytes at `addr`, the lowest first, and compares no tags */
    TB_ACT_STORE = 5,   /* writes `value` as the 8 bytes at `addr`, and compares no tags */
    TB_ACT_LOAD_TAG = 6 /* reads the allocation tag of the granule that holds `addr` */
};

/* What an access does that the bounds of chunks forbid; 0 is no such access. */
enum tb_trespass {
    TB_PAST_SIZE = 1, /* it goes past the size of a live chunk, in its last granule */
    TB_FREED = 2,     /* it touches a chunk that was freed */
    TB_NO_CHUNK = 3   /* it touches bytes of the heap that are no chunk's */
};

/* What compared two numbers, or texts (tb_comparison); 0 where nothing is entered. */
enum tb_compared {
    TB_COMPARED_SUBS = 1,    /* CMP, SUBS: both operands */
    TB_COMPARED_ADDS = 2,    /* CMN, ADDS: the first one with the second one's negative */
    TB_COMPARED_ANDS = 3,    /* TST, ANDS: the bits of the first that the second one has */
    TB_COMPARED_CCMP = 4,    /* CCMP whose condition holds, as CMP */
    TB_COMPARED_CCMN = 5,    /* CCMN whose condition holds, as CMN */
    TB_COMPARED_CBZ = 6,     /* CBZ, CBNZ: a register with 0 */
    TB_COMPARED_TBZ = 7,     /* TBZ, TBNZ: the bit of the first that the second one has */
    TB_COMPARED_SUB_CBZ = 8, /* the operands of SUB, by CBZ or CBNZ right after it */
    TB_COMPARED_EOR_CBZ = 9, /* the operands of EOR, by CBZ or CBNZ right after it */
    TB_COMPARED_CALL = 10    /* a function that compares texts was called, or jumped to */
};

// End of what tools/border.py writes.

/* A place for a page. */
typedef struct tb_page {
    uint64_t number;
    uint32_t mapped; /* 0: the place is free */
    uint32_t attrs;  /* a sum of tb_attrs */
    uint8_t bytes[4096];
    uint8_t tags[256]; /* the allocation tag of each granule of 16 bytes */
} tb_page;

/* The tag mode and the flag (SCTLR_EL1.TCF0 and TFSRE0_EL1.TF0); any number but 0 sets either. */
typedef struct tb_tag_state {
    uint32_t asynchronous; /* a tag that differs sets the flag, and fails no access */
    uint32_t pending;      /* the flag: a tag differed; it stays set */
} tb_tag_state;

/* The registers of a core. */
typedef struct tb_regs {
    uint64_t x[31]; /* x0 to x30 */
    uint64_t sp;
    uint64_t pc;
    uint32_t nzcv;      /* N, Z, C, V in bits 31 to 28; other bits are ignored, and written as 0 */
    uint16_t rgsr_seed; /* RGSR_EL1.SEED, of the random tags of IRG */
    uint16_t rgsr_tag;  /* RGSR_EL1.TAG, the tag that was drawn last */
} tb_regs;

/* A fault, or zero in all fields where there is none. */
typedef struct tb_fault {
    uint64_t addr;    /* the plain address that failed, below 2^56 */
    uint32_t kind;    /* tb_fault_kind */
    uint32_t write;   /* 1 where a store failed */
    uint32_t ptr_tag; /* the tag of the address that was used */
    uint32_t mem_tag; /* the allocation tag that differs, for TB_TAG_CHECK; else 0 */
} tb_fault;

/* How a step or a run ended. */
typedef struct tb_stop {
    uint64_t left;   /* the steps that were not attempted */
    uint32_t code;   /* TB_OK, TB_FAULT, TB_SVC, TB_BREAKPOINT, TB_ILLEGAL or TB_STOPPED; of
                        tb_trace also TB_NO_ROOM */
    uint32_t number; /* the number of TB_BREAKPOINT, the word of TB_ILLEGAL; else 0 */
    tb_fault fault;  /* the fault of TB_FAULT; else zero */
} tb_stop;

/* A store of tags. */
typedef struct tb_tag_store {
    uint64_t addr;     /* the address of the first granule, a multiple of 16 */
    uint64_t granules; /* how many granules get the tag */
    uint32_t tag;      /* 0 to 15 */
    uint32_t zero;     /* any number but 0: their bytes become zero */
} tb_tag_store;

/* What a heap and its memory begin with. */
typedef struct tb_heap_setup {
    uint32_t cookie;       /* its low 16 bits start the checksums of the headers */
    uint32_t pages;        /* the most pages that are mapped at once, 1 to 4096 */
    uint32_t asynchronous; /* any number but 0: a tag that differs fails no access */
    uint16_t rgsr_seed;    /* the seed of the random tags, as in tb_regs */
    uint16_t rgsr_tag;     /* the tag that was drawn last; its low four bits count */
} tb_heap_setup;

/* A call of a heap or an access to its memory. op, first and second are read, the rest written. */
typedef struct tb_heap_call {
    uint32_t op;     /* tb_heap_op */
    uint32_t code;   /* TB_OK, TB_FAULT or TB_ABORT; TB_BAD_ARGUMENT where op is none */
    uint64_t first;
    uint64_t second;
    uint64_t answer; /* the pointer (0: none was made), size, number or tag; why, for TB_ABORT */
    tb_fault fault;  /* the fault of TB_FAULT; else zero */
} tb_heap_call;

/* Some bytes, which are only read. */
typedef struct tb_bytes {
    const uint8_t *bytes;
    size_t length;
} tb_bytes;

/* How a session ended. */
typedef struct tb_session_end {
    uint64_t length; /* how many bytes the whole report has, for TB_OK and TB_NO_ROOM; else 0 */
    uint64_t line;   /* the script's first faulty line, from 1, for TB_SCRIPT; else 0 */
    uint32_t code;   /* what tb_session answered */
    uint32_t fault;  /* what is wrong with the line (tb_script_fault), for TB_SCRIPT; else 0 */
} tb_session_end;

/* What a tenant alone is admitted with, and its slices. */
typedef struct tb_terms {
    const uint8_t *image; /* its ELF64 image */
    size_t image_length;
    const uint8_t *input; /* the bytes that it may read */
    size_t input_length;
    const uint32_t *slices; /* how many instructions each of its slices attempts at most */
    size_t slice_count;
    uint64_t seed;         /* of its random tags and of its heap, as in a script */
    uint32_t pages;        /* its reservation, 1 to 4096 */
    uint32_t room;         /* how many bytes it may write, at most 65536 */
    uint32_t asynchronous; /* any number but 0 chooses the asynchronous mode */
    uint32_t unused;
} tb_terms;

/* A tenant's status, or zero in all fields where there is no tenant. */
typedef struct tb_status {
    uint32_t status;  /* tb_tenant_status */
    uint32_t number;  /* the code of an exit, the word that is illegal, the number of a break, why
                         of an abort (tb_heap_abort); else 0 */
    uint64_t pc;      /* the address of the instruction; 0 for an exit and where it is running */
    uint64_t pointer; /* the pointer of an abort; else 0 */
    tb_fault fault;   /* of TB_STATUS_FAULT; else zero */
} tb_status;

/* A heap call of a tenant. */
typedef struct tb_kept_call {
    uint64_t service; /* its number: 3 malloc, 4 free, 5 calloc, 6 realloc, 7 memalign,
                         8 usable_size */
    uint64_t first;   /* x0 */
    uint64_t second;  /* x1, or 0 where the service has one argument */
    uint64_t answer;
} tb_kept_call;

/* How a tenant alone ended. */
typedef struct tb_alone_end {
    uint64_t steps;   /* how many instructions it attempted */
    uint64_t output;  /* how many bytes it wrote */
    uint64_t calls;   /* how many heap calls it made */
    uint64_t kept;    /* how many of these are kept: the last 64 at most */
    tb_status status;
    uint32_t code;    /* what tb_alone answered */
    uint32_t refusal; /* why it was refused (tb_refusal), for TB_REFUSED; else 0 */
} tb_alone_end;

/*
 * A tenant's machine that is kept between calls, or none where `machine` is null: {0} at first.
 * What `machine` points to is the library's. It is neither read nor copied, and it is changed by
 * tb_fuzz_new and tb_fuzz_free alone. A machine is used by the thread that made it; any number of
 * threads may have machines of their own.
 */
typedef struct tb_fuzz {
    uint8_t *machine;
} tb_fuzz;

/* What a run of such a machine begins with. */
typedef struct tb_fuzz_input {
    const uint8_t *input; /* the bytes that the tenant may read */
    size_t input_length;
    const uint32_t *slices; /* how many instructions each slice of the run attempts at most */
    size_t slice_count;
    uint32_t saturating; /* any number but 0 keeps a count at 255; else 0 comes behind it */
    uint32_t unused;
} tb_fuzz_input;

/*
 * What an exact run found: its first access to bytes of the heap that no live chunk has, or that
 * the chunk there has not. Zero but for `missed` where it found none.
 */
typedef struct tb_fuzz_finding {
    uint64_t step;    /* the number of the instruction among the tenant's, from 1 */
    uint64_t pc;      /* the address of the instruction */
    uint64_t addr;    /* the plain address of the first such byte */
    uint64_t pointer; /* the address that was used, with the pointer's tag */
    uint64_t size;    /* how many bytes were accessed */
    uint32_t kind;    /* tb_trespass; 0 where there was none */
    uint32_t write;   /* 1 where the bytes were written, else 0 */
    uint32_t missed;  /* 1 where memory was refused, and nothing judged from there on */
    uint32_t unused;  /* 0 */
} tb_fuzz_finding;

/* What an instruction compared, or with what a function that compares texts was called. */
typedef struct tb_comparison {
    uint64_t step;   /* the number of the instruction among those of the run, from 1 */
    uint64_t pc;     /* the address of the instruction */
    uint64_t left;   /* the first operand; of a call the first argument */
    uint64_t right;  /* the second operand; of a call the second argument */
    uint64_t length; /* of a call the third argument; else 0 */
    uint32_t kind;   /* tb_compared; 0 where nothing is entered */
    uint32_t width;  /* the bytes of an operand, 4 or 8; of a call its place in `functions` */
} tb_comparison;

/* What is lent for the comparisons of a run. */
typedef struct tb_comparisons {
    const uint64_t *functions; /* the addresses of functions that compare texts, as memcmp does */
    size_t function_count;
    tb_comparison *entries;
    size_t entry_count; /* a power of two from 256 to 65536 */
} tb_comparisons;

/*
 * A heap call in a list, whose arguments may be the answers of earlier ones: `first_of` and
 * `second_of` are 0, or the number of an earlier call of the list, from 1 on, whose answer is added
 * to call.first or call.second, modulo 2^64.
 */
typedef struct tb_heap_step {
    tb_heap_call call; /* what stands in `first` and `second` stays */
    uint32_t first_of;
    uint32_t second_of;
} tb_heap_step;

/* A chunk that is live behind heap calls. */
typedef struct tb_live_chunk {
    uint64_t address; /* its plain address */
    uint64_t size;    /* how many bytes were asked for; of none 1 */
    uint64_t call;    /* the number of the call that made it, from 1 on */
    uint32_t tag;     /* the tag of its pointer */
    uint32_t unused;  /* 0 */
} tb_live_chunk;

/*
 * Something that is done to a machine between its slices, or a slice. act, number, addr and value
 * are read, the rest is written.
 */
typedef struct tb_machine_act {
    uint32_t act;    /* tb_act */
    uint32_t number; /* the most steps of TB_ACT_SLICE; of TB_ACT_GET and TB_ACT_SET the register */
    uint64_t addr;   /* of TB_ACT_LOAD, TB_ACT_STORE and TB_ACT_LOAD_TAG */
    uint64_t value;  /* what TB_ACT_SET and TB_ACT_STORE write */
    uint64_t answer; /* what was read; of TB_ACT_SLICE the steps so far */
    uint32_t code;   /* TB_OK or TB_FAULT; TB_BAD_ARGUMENT where act is none, or the register */
    uint32_t unused;
    tb_fault fault;  /* the fault of TB_FAULT; else zero */
} tb_machine_act;

/* How a tenant's machine ended. */
typedef struct tb_machine_end {
    tb_alone_end alone; /* what is told of a tenant alone */
    tb_regs regs;       /* its registers */
} tb_machine_end;

/* A page that is mapped. */
typedef struct tb_page_entry {
    uint64_t number; /* the plain address of its first byte divided by 4096 */
    uint32_t attrs;  /* a sum of tb_attrs */
    uint32_t unused; /* 0 */
} tb_page_entry;

/* What is asked of tb_run_traced. Each range has its last address in it; none may be empty. */
typedef struct tb_trace_request {
    const uint64_t *stops; /* addresses at which it stops after an instruction */
    size_t stop_count;
    uint64_t steps;     /* the most instructions that are attempted */
    uint64_t code_low;  /* the instructions that are entered: those at addresses */
    uint64_t code_high; /* from code_low to code_high */
    uint64_t low;       /* the accesses that are entered: those with a byte at a plain address */
    uint64_t high;      /* from low to high, and of these kinds */
    uint32_t kinds;     /* a sum of tb_access_kind */
    uint32_t unused;
} tb_trace_request;

/* An instruction that was fetched and attempted, as tb_run_traced enters it. */
typedef struct tb_traced_instruction {
    uint64_t step; /* how many steps of the call were before it */
    uint64_t pc;   /* its address */
    uint32_t word;
    uint32_t unused; /* 0 */
} tb_traced_instruction;

/* An access of an instruction to memory that was completed, as tb_run_traced enters it. */
typedef struct tb_traced_access {
    uint64_t step;     /* how many steps of the call were before its instruction */
    uint64_t pc;       /* the address of its instruction */
    uint64_t addr;     /* the address that was used, its tag in bits 59 to 56 */
    uint64_t value[2]; /* the bytes, the lowest first; where tags alone are accessed, the tag */
    uint32_t size;     /* how many bytes: 1 to 16; of the tags of one granule 16, of two 32 */
    uint32_t kind;     /* a sum of tb_access_kind */
} tb_traced_access;

/* The arrays in which tb_run_traced enters instructions and accesses. */
typedef struct tb_trace_arrays {
    tb_traced_instruction *instructions;
    size_t instruction_room;
    tb_traced_access *accesses;
    size_t access_room;
} tb_trace_arrays;

/* How a traced run ended. */
typedef struct tb_trace_report {
    uint64_t steps;        /* how many instructions were attempted */
    uint64_t instructions; /* how many instructions are entered */
    uint64_t accesses;     /* how many accesses are entered */
    uint32_t code;         /* what tb_run_traced answered */
    uint32_t number;       /* of TB_BREAKPOINT its number, of TB_ILLEGAL the word; else 0 */
    tb_fault fault;        /* the fault of TB_FAULT; else zero */
} tb_trace_report;

/* An access of an instruction to memory, as tb_trace enters it. */
typedef struct tb_access {
    uint64_t pc;       /* the address of the instruction */
    uint64_t addr;     /* the address that was used, its tag in bits 59 to 56 */
    uint64_t value[2]; /* the first 16 bytes there after it, the lowest first; 0 beyond `size` */
    uint32_t word;     /* the instruction */
    uint32_t size;     /* how many bytes: 1 to 16; of LDG and STG the granule's 16, of ST2G 32 */
    uint32_t write;    /* 1 for a store */
    uint32_t mem_tag;  /* the allocation tag of the granule that holds `addr`, after it */
} tb_access;

/* Where tb_trace enters accesses: a lent array of `room`, of which `count` are entered. */
typedef struct tb_accesses {
    tb_access *entries;
    size_t room;
    size_t count;
} tb_accesses;

TB_ASSERT(sizeof(tb_page) == 4368);
TB_ASSERT(offsetof(tb_page, bytes) == 16 && offsetof(tb_page, tags) == 4112);
TB_ASSERT(sizeof(tb_tag_state) == 8);
TB_ASSERT(sizeof(tb_regs) == 272 && offsetof(tb_regs, sp) == 248 && offsetof(tb_regs, nzcv) == 264);
TB_ASSERT(sizeof(tb_fault) == 24 && offsetof(tb_fault, mem_tag) == 20);
TB_ASSERT(sizeof(tb_stop) == 40 && offsetof(tb_stop, fault) == 16);
TB_ASSERT(sizeof(tb_tag_store) == 24 && offsetof(tb_tag_store, zero) == 20);
TB_ASSERT(sizeof(tb_heap_setup) == 16 && offsetof(tb_heap_setup, rgsr_tag) == 14);
TB_ASSERT(sizeof(tb_heap_call) == 56 && offsetof(tb_heap_call, fault) == 32);
TB_ASSERT(sizeof(tb_heap_step) == 64 && offsetof(tb_heap_step, second_of) == 60);
TB_ASSERT(sizeof(tb_trace_request) == 64 && offsetof(tb_trace_request, kinds) == 56);
TB_ASSERT(sizeof(tb_traced_instruction) == 24 && offsetof(tb_traced_instruction, word) == 16);
TB_ASSERT(sizeof(tb_traced_access) == 48 && offsetof(tb_traced_access, size) == 40);
TB_ASSERT(sizeof(tb_trace_arrays) == 32 && offsetof(tb_trace_arrays, access_room) == 24);
TB_ASSERT(sizeof(tb_trace_report) == 56 && offsetof(tb_trace_report, fault) == 32);
TB_ASSERT(sizeof(tb_bytes) == 16 && offsetof(tb_bytes, length) == 8);
TB_ASSERT(sizeof(tb_session_end) == 24 && offsetof(tb_session_end, fault) == 20);
TB_ASSERT(sizeof(tb_terms) == 72 && offsetof(tb_terms, seed) == 48 &&
          offsetof(tb_terms, room) == 60);
TB_ASSERT(sizeof(tb_status) == 48 && offsetof(tb_status, fault) == 24);
TB_ASSERT(sizeof(tb_kept_call) == 32 && offsetof(tb_kept_call, answer) == 24);
TB_ASSERT(sizeof(tb_alone_end) == 88 && offsetof(tb_alone_end, status) == 32);
TB_ASSERT(sizeof(tb_machine_act) == 64 && offsetof(tb_machine_act, fault) == 40);
TB_ASSERT(sizeof(tb_machine_end) == 360 && offsetof(tb_machine_end, regs) == 88);
TB_ASSERT(sizeof(tb_page_entry) == 16 && offsetof(tb_page_entry, attrs) == 8);
TB_ASSERT(sizeof(tb_fuzz) == 8);
TB_ASSERT(sizeof(tb_fuzz_input) == 40 && offsetof(tb_fuzz_input, saturating) == 32);
TB_ASSERT(sizeof(tb_fuzz_finding) == 56 && offsetof(tb_fuzz_finding, kind) == 40);
TB_ASSERT(sizeof(tb_comparison) == 48 && offsetof(tb_comparison, kind) == 40);
TB_ASSERT(sizeof(tb_comparisons) == 32 && offsetof(tb_comparisons, entries) == 16);

/* The version of these layouts and calls, TB_VERSION. */
uint32_t tb_version(void);

/*
 * How the library was built: copies as much as `text` holds of five lines with the version of the
 * release, the commit, whether files differed from it (none, some), the toolchain's sum, and proved
 * or unproved. Answers how many bytes they have, at most 160; a 0 is not written behind them. Lines
 * of dashes are of a library that no tool of the release has marked.
 */
uint32_t tb_build_info(uint8_t *text, size_t room);

/*
 * Runs a session: a script and the files that it refers to, from 1 on, on a host of `frames`
 * frames, 1 to 65536. Copies as much of its report as `report` holds, from its start. TB_OK where
 * it holds all. TB_NO_ROOM where it does not: end->length tells how long the whole report is, and
 * the same call with that room gives it, since a session is a function of its bytes. TB_SCRIPT
 * where a line of the script is faulty, TB_OUT_OF_MEMORY and TB_BAD_ARGUMENT (frames) leave the
 * buffer as it was.
 * It takes its memory by malloc, and frees it again: 4224 bytes a frame, some 800,000 bytes beside
 * them, some 1,100 a page of each reservation, and copies of the files.
 */
uint32_t tb_session(uint32_t frames, const uint8_t *script, size_t script_length,
                    const tb_bytes *files, size_t count, uint8_t *report, size_t room,
                    tb_session_end *end);

/*
 * Runs a tenant alone for its slices: what it does in a session is the same, whatever the others
 * do.
 * Copies as much of its output, and as many of its last 64 heap calls, the oldest first, as
 * `output` and `calls` hold. TB_OK where they hold all; TB_NO_ROOM where they do not: `end` tells
 * how much there is. TB_REFUSED where the tenant is not admitted, which end->refusal tells, and
 * TB_OUT_OF_MEMORY leave both buffers as they were.
 */
uint32_t tb_alone(const tb_terms *terms, uint8_t *output, size_t output_room, tb_kept_call *calls,
                  size_t call_room, tb_alone_end *end);

/*
 * Admits a tenant alone, runs the slices of `terms`, which are its setup, and keeps the machine as
 * it is then. A tenant that sets itself up and yields (service 9) stands behind its yield after a
 * slice that is long enough. `end` tells how the tenant stands: end->status is TB_STATUS_RUNNING
 * where it will go on. A machine that `fuzz` holds is freed first. TB_REFUSED and TB_OUT_OF_MEMORY
 * leave `fuzz` without a machine. It takes some 5,000 bytes twice for each page of the reservation.
 * The setup is watched: its steps take some ten times as long as those of a run.
 */
uint32_t tb_fuzz_new(const tb_terms *terms, tb_fuzz *fuzz, tb_alone_end *end);

/*
 * Makes the machine what it was behind its setup, with another input, and runs it for the slices of
 * `run`: it does what the tenant would do that is started anew with that input and does the setup
 * with none read. Only pages that were written since are copied.
 * Each branch that is taken, and each conditional one that is not, adds one to a count of `map`,
 * whose place is a hash of the two addresses; the map is otherwise left as it is. What comes behind
 * 255, `run` says. The run is the same whatever the map holds. The counts stay in `map`: clear it
 * before a run if it is to have those of that run alone.
 * `end` has all steps, those of the setup too, as tb_alone tells them. TB_NO_MACHINE where `fuzz`
 * holds none. TB_BAD_ARGUMENT, where `map_length` is no power of two from 256 to 65536, and
 * TB_OUT_OF_MEMORY change nothing but `end`.
 */
uint32_t tb_fuzz_run(tb_fuzz *fuzz, const tb_fuzz_input *run, uint8_t *map, size_t map_length,
                     tb_alone_end *end);

/*
 * Does what tb_fuzz_run does, and tells in `finding` the first access of the run that goes beyond
 * the bytes of the tenant's chunks, within a granule too, whatever the tags: of a load or a store
 * that completed, the zeros of STZG and STZ2G too, or of a service that read or wrote. The chunks
 * are those that its heap calls made, the setup's among them; accesses of the setup are not judged.
 * The run goes on behind it: it leaves the same machine, the same counts and the same `end`. Where
 * no run was done, `finding` is zero. It takes some ten times as long for each step.
 */
uint32_t tb_fuzz_run_exact(tb_fuzz *fuzz, const tb_fuzz_input *run, uint8_t *map,
                           size_t map_length, tb_alone_end *end, tb_fuzz_finding *finding);

/*
 * Does what tb_fuzz_run does, and enters what the instructions of the run compare, and calls of the
 * functions that are lent. It leaves the same machine, the same counts and the same `end`. An
 * address has eight places, of which the operands choose one: what comes last stays there, and so
 * does what an earlier run entered, unless the caller clears it. Operands of 4 bytes have zeros
 * above. Of a call, tb_fuzz_read has the texts. TB_BAD_ARGUMENT also where `entry_count` may not
 * be; entries change only with TB_OK.
 */
uint32_t tb_fuzz_run_compared(tb_fuzz *fuzz, const tb_fuzz_input *run, uint8_t *map,
                              size_t map_length, tb_comparisons *compared, tb_alone_end *end);

/*
 * Copies bytes out of the memory of the machine as its last run left it: out of pages with READ,
 * whatever the tags. TB_FAULT, and TB_NO_MACHINE, leave the buffer as it was.
 */
uint32_t tb_fuzz_read(tb_fuzz *fuzz, uint64_t addr, uint8_t *buffer, size_t length);

/* Frees the machine, if there is one; then `fuzz` holds none. */
void tb_fuzz_free(tb_fuzz *fuzz);

/*
 * Admits a tenant alone, with its heap and its services, and does acts to its machine in order:
 * slices, and between them reads and writes of registers and memory. Enters the code and the answer
 * of each, then copies the machine's registers to end->regs, and its output and heap calls as
 * tb_alone does. An act that faults or is none changes nothing, and those behind it are done; a
 * slice of a tenant that has ended does nothing. The machine ends with this call; it is a function
 * of `terms` and of the acts, so the same array with more acts behind it goes on where this one
 * ended. The slices of `terms` are not looked at. TB_REFUSED and TB_OUT_OF_MEMORY change nothing
 * but end->alone. It answers end->alone.code.
 */
uint32_t tb_machine_acts(const tb_terms *terms, tb_machine_act *acts, size_t count, uint8_t *output,
                         size_t output_room, tb_kept_call *calls, size_t call_room,
                         tb_machine_end *end);

/*
 * Does acts to a tenant's machine as tb_machine_acts does, and copies as many of its pages as
 * `pages` holds, each once, in no order. TB_OK where it holds all, TB_NO_ROOM where it does not:
 * *mapped is how many there are. TB_REFUSED and TB_OUT_OF_MEMORY, with *mapped 0, leave `pages` as
 * it was, and TB_REFUSED the acts too.
 */
uint32_t tb_machine_pages(const tb_terms *terms, tb_machine_act *acts, size_t count,
                          tb_page_entry *pages, size_t room, uint64_t *mapped);

/* Makes each place free, sets the tag mode and clears the flag: a memory without pages. */
void tb_memory_init(tb_page *pages, size_t count, tb_tag_state *state, bool asynchronous);

/*
 * Maps a page of zero bytes and tag 0 in a free place. TB_BAD_ARGUMENT where `number` is not below
 * 2^44 or `attrs` is above 15, TB_ALREADY_MAPPED, TB_NO_ROOM: these change nothing.
 */
uint32_t tb_map(tb_page *pages, size_t count, uint64_t number, uint32_t attrs);

/* Unmaps a page. TB_NOT_MAPPED changes nothing. */
uint32_t tb_unmap(tb_page *pages, size_t count, uint64_t number);

/*
 * Copies `length` bytes out of pages with TB_READ, and compares the tag of the address with the
 * allocation tags where `check` is set. TB_FAULT leaves the memory and the buffer as they were, and
 * `fault` tells the first byte that failed. In the asynchronous mode a tag that differs sets
 * state->pending instead.
 */
uint32_t tb_read(tb_page *pages, size_t count, tb_tag_state *state, uint64_t addr, uint8_t *buffer,
                 size_t length, bool check, tb_fault *fault);

/* Copies `length` bytes into pages with TB_WRITE, all of them or none, in the same way. */
uint32_t tb_write(tb_page *pages, size_t count, tb_tag_state *state, uint64_t addr,
                  const uint8_t *bytes, size_t length, bool check, tb_fault *fault);

/*
 * Copies `length` bytes into mapped pages, whatever their attributes and tags, all of them or none:
 * code into pages without TB_WRITE, for example. It compares no tag and changes none. TB_NOT_MAPPED
 * where a byte's page is not mapped.
 */
uint32_t tb_load(tb_page *pages, size_t count, tb_tag_state *state, uint64_t addr,
                 const uint8_t *bytes, size_t length);

/*
 * The allocation tag of the granule that holds an address, 0 on a page without TB_TAGGED. It needs
 * TB_READ and compares no tag. TB_FAULT leaves *tag as it was.
 */
uint32_t tb_load_tag(tb_page *pages, size_t count, tb_tag_state *state, uint64_t addr, uint8_t *tag,
                     tb_fault *fault);

/*
 * Replaces the tags of store->granules granules of pages with TB_WRITE, all of them or none, and
 * makes their bytes zero where store->zero is set. It compares no tag. store->addr is a multiple of
 * 16, or the fault is TB_ALIGNMENT. TB_BAD_ARGUMENT where store->tag is above 15.
 */
uint32_t tb_store_tags(tb_page *pages, size_t count, tb_tag_state *state, const tb_tag_store *store,
                       tb_fault *fault);

/*
 * Attempts the instruction at regs->pc, and answers stop->code. TB_OK is the only answer after
 * which a register or the memory differs, but for bits that do not count; after any other the PC is
 * still at the instruction. To go on after TB_SVC or TB_BREAKPOINT, add 4 to the PC.
 */
uint32_t tb_step(tb_page *pages, size_t count, tb_tag_state *state, tb_regs *regs, tb_stop *stop);

/*
 * Attempts at most `steps` instructions, stops after the first whose answer is not TB_OK, and
 * answers stop->code. It keeps decoded instructions for its own time, so one run of many steps is
 * faster than as many calls of tb_step.
 */
uint32_t tb_run(tb_page *pages, size_t count, tb_tag_state *state, tb_regs *regs, uint64_t steps,
                tb_stop *stop);

/*
 * tb_run that also stops where the PC is one of `stops` after an instruction, and answers
 * TB_STOPPED then. The first instruction is attempted also where it is at one of them, so the same
 * call goes on from there.
 */
uint32_t tb_run_until(tb_page *pages, size_t count, tb_tag_state *state, tb_regs *regs,
                      uint64_t steps, const uint64_t *stops, size_t stop_count, tb_stop *stop);

/*
 * Makes `count` calls in order on a new heap over a memory of its own without pages, and enters the
 * code and the answer of each. A call that aborts or faults changes nothing of the heap, and those
 * behind it are made too. The heap ends with this call; since it is deterministic, the same array
 * with more calls behind it goes on where this one ended. TB_BAD_ARGUMENT where setup->pages is not
 * 1 to 4096 and TB_OUT_OF_MEMORY change nothing. It takes its memory by malloc, about 5,600 bytes
 * a page and 11,000 more, and frees it again.
 */
uint32_t tb_heap_calls(const tb_heap_setup *setup, tb_heap_call *calls, size_t count);

/*
 * Makes the calls of a list in order on a new heap, as tb_heap_calls does, and enters the code and
 * the answer of each. An argument may be the answer of an earlier call (tb_heap_step). Where that
 * call gave none, since it aborted or faulted, or was not made itself, the call is not made, and
 * its code is TB_BAD_ARGUMENT. TB_BAD_ARGUMENT where setup->pages is not 1 to 4096, with *bad 0, or
 * where a step is none, since its `op` is no tb_heap_op or it refers to itself, to a later call, or
 * to one that answers nothing (TB_FREE, TB_STORE): *bad is its number then, from 1 on. That and
 * TB_OUT_OF_MEMORY make no call and enter nothing.
 */
uint32_t tb_heap_replay(const tb_heap_setup *setup, tb_heap_step *steps, size_t count,
                        uint64_t *bad);

/*
 * Makes the calls of a list as tb_heap_replay does, and copies as many of the heap's pages as
 * `pages` holds, each once, in no order. TB_OK where it holds all, TB_NO_ROOM where it does not:
 * *mapped is how many there are. TB_BAD_ARGUMENT is that of tb_heap_replay, with *mapped 0.
 * TB_OUT_OF_MEMORY, with *mapped 0, leaves `pages` as it was; the answers may be entered then.
 */
uint32_t tb_heap_pages(const tb_heap_setup *setup, tb_heap_step *steps, size_t count,
                       tb_page_entry *pages, size_t room, uint64_t *mapped, uint64_t *bad);

/*
 * Copies as many of the chunks that are live behind a list's calls as `chunks` holds, by ascending
 * addresses, by the answers that tb_heap_replay has entered in it. TB_OK where it holds all,
 * TB_NO_ROOM where it does not: *live is how many there are. TB_OUT_OF_MEMORY, with *live 0, leaves
 * `chunks` as it was.
 */
uint32_t tb_heap_live(const tb_heap_step *steps, size_t count, tb_live_chunk *chunks, size_t room,
                      uint64_t *live);

/*
 * tb_run_until that also enters instructions and accesses: of those that are asked for each
 * instruction that is fetched, before it is attempted, and each access that is completed, both from
 * the start of their arrays on, in order. What `step` says is the same in both. It stops with
 * TB_NO_ROOM before an instruction when an array has no room left; the same call goes on from
 * there. An array whose room is 0 is not wanted: nothing is entered, and it is never full.
 * TB_BAD_ARGUMENT where a range is empty or request->kinds is above 15 changes nothing but `end`.
 * It answers end->code.
 */
uint32_t tb_run_traced(tb_page *pages, size_t count, tb_tag_state *state, tb_regs *regs,
                       const tb_trace_request *request, tb_trace_arrays *entered,
                       tb_trace_report *end);

/*
 * Writes the text of an instruction word at the address `pc`, as objdump has it, and a 0 behind it:
 * `room` of 96 is enough for each. TB_ILLEGAL where the word is no instruction of the profile, and
 * TB_NO_ROOM where the text and its 0 do not fit, leave the buffer as it was.
 */
uint32_t tb_disassemble(uint32_t word, uint64_t pc, uint8_t *text, size_t room);

/*
 * Maps `length` pages from the number `first` on, as tb_map does: all of them or none.
 * TB_BAD_ARGUMENT where a number is not below 2^44 or `attrs` is above 15, TB_ALREADY_MAPPED where
 * one of them is mapped, TB_NO_ROOM where fewer places are free: these change nothing.
 */
static inline uint32_t tb_map_range(tb_page *pages, size_t count, uint64_t first, uint64_t length,
                                    uint32_t attrs) {
    const uint64_t limit = (uint64_t)1 << 44;
    uint64_t room = 0;
    uint32_t code = TB_OK;
    if (first > limit || length > limit - first || attrs > 15)
        return TB_BAD_ARGUMENT;
    for (size_t i = 0; i < count; i++) {
        if (pages[i].mapped == 0)
            room++;
        else if (pages[i].number >= first && pages[i].number - first < length)
            return TB_ALREADY_MAPPED;
    }
    if (length > room)
        return TB_NO_ROOM;
    for (uint64_t i = 0; i < length && code == TB_OK; i++)
        code = tb_map(pages, count, first + i, attrs);
    return code;
}

/* The place of the page that holds an address, or `count`. */
static inline size_t tb_place_of(const tb_page *pages, size_t count, uint64_t addr) {
    const uint64_t number = (addr & (((uint64_t)1 << 56) - 1)) / 4096;
    size_t i = 0;
    while (i < count && (pages[i].mapped == 0 || pages[i].number != number))
        i++;
    return i;
}

/*
 * The number of the `length` bytes, at most 8, at an address, the lowest first, whatever the
 * attributes and tags of its pages. It compares no tag; a byte that is not mapped is 0.
 */
static inline uint64_t tb_peek(const tb_page *pages, size_t count, uint64_t addr, size_t length) {
    uint64_t value = 0;
    for (size_t i = 0; i < length && i < 8; i++) {
        const size_t place = tb_place_of(pages, count, addr + i);
        if (place < count)
            value |= (uint64_t)pages[place].bytes[(addr + i) % 4096] << 8 * i;
    }
    return value;
}

/*
 * How many bytes a load or a store of the profile accesses, by its word: 1 to 16, of LDG, STG and
 * STZG 16, of ST2G and STZ2G 32. Of other words it says nothing.
 */
static inline uint32_t tb_access_size(uint32_t word) {
    if (word >> 24 == 0xd9)
        return (word & 0x00800000) != 0 ? 32 : 16;
    if ((word & 0x38000000) == 0x28000000)
        return word >> 31 != 0 || (word & 0x40400000) == 0x40000000 ? 16 : 8;
    if ((word & 0x3f000000) == 0x18000000)
        return (word & 0x40000000) != 0 ? 8 : 4;
    return (uint32_t)1 << (word >> 30);
}

/*
 * Of tb_trace_step: withholds READ, WRITE and TAGGED of each page, and keeps its attributes four
 * bits higher.
 */
static inline void tb_withhold(tb_page *pages, size_t count) {
    for (size_t i = 0; i < count; i++)
        pages[i].attrs = (pages[i].attrs & 15) << 4 | (pages[i].attrs & TB_EXEC);
}

/* Of tb_trace_step: gives each page the attributes back that tb_withhold kept. */
static inline void tb_give_back(tb_page *pages, size_t count) {
    for (size_t i = 0; i < count; i++)
        pages[i].attrs = pages[i].attrs >> 4 & 15;
}

/*
 * tb_step that also enters the instruction's access to memory, if it has one and succeeds, behind
 * those that are entered. TB_NO_ROOM where there is no room for one that it may have: then nothing
 * is attempted. An instruction is attempted first while all pages lack READ and WRITE, so that an
 * access faults and changes nothing, and then with the attributes that it finds, as tb_step does;
 * bits of `attrs` that do not count become 0.
 */
static inline uint32_t tb_trace_step(tb_page *pages, size_t count, tb_tag_state *state,
                                     tb_regs *regs, tb_accesses *accesses, tb_stop *stop) {
    tb_access it;
    uint32_t code;
    size_t place;
    tb_withhold(pages, count);
    code = tb_step(pages, count, state, regs, stop);
    tb_give_back(pages, count);
    if (code != TB_FAULT || stop->fault.kind != TB_PERMISSION)
        return code;
    /* A fetch that failed is no access. */
    place = tb_place_of(pages, count, regs->pc);
    if (place == count || (pages[place].attrs & TB_EXEC) == 0)
        return code;
    if (accesses->count >= accesses->room) {
        static const tb_fault none = {0, 0, 0, 0, 0};
        stop->code = TB_NO_ROOM;
        stop->fault = none;
        return TB_NO_ROOM;
    }
    it.pc = regs->pc;
    it.addr = stop->fault.addr | (uint64_t)stop->fault.ptr_tag << 56;
    it.word = (uint32_t)tb_peek(pages, count, it.pc, 4);
    it.size = tb_access_size(it.word);
    it.write = stop->fault.write;
    code = tb_step(pages, count, state, regs, stop);
    if (code != TB_OK)
        return code;
    it.value[0] = tb_peek(pages, count, it.addr, it.size);
    it.value[1] = it.size > 8 ? tb_peek(pages, count, it.addr + 8, it.size - 8) : 0;
    place = tb_place_of(pages, count, it.addr);
    it.mem_tag = 0;
    if (place < count && (pages[place].attrs & TB_TAGGED) != 0)
        it.mem_tag = pages[place].tags[it.addr % 4096 / 16] & 15;
    accesses->entries[accesses->count++] = it;
    return TB_OK;
}

/*
 * tb_run that also enters each access to memory (not the fetches of instructions), in order, behind
 * those that are entered. It stops with TB_NO_ROOM before an instruction that may have an access
 * for which there is no room; with more room, or with accesses->count made less, the same call goes
 * on from there. It makes each step by tb_trace_step, so it is slower than tb_run.
 */
static inline uint32_t tb_trace(tb_page *pages, size_t count, tb_tag_state *state, tb_regs *regs,
                                uint64_t steps, tb_accesses *accesses, tb_stop *stop) {
    static const tb_stop done = {0, TB_OK, 0, {0, 0, 0, 0, 0}};
    uint64_t left = steps;
    uint32_t code = TB_OK;
    *stop = done;
    while (left > 0 && code == TB_OK) {
        code = tb_trace_step(pages, count, state, regs, accesses, stop);
        if (code != TB_NO_ROOM)
            left--;
    }
    stop->left = left;
    return code;
}

/* Whether an array may be lent: not null, aligned, and in the address space from end to end. */
static inline bool tb_is_array(const void *it, size_t count, size_t size, size_t alignment) {
    const uintptr_t at = (uintptr_t)it;
    return at != 0 && at % alignment == 0 && count <= (uintptr_t)-1 / 2 / size &&
           at <= (uintptr_t)-1 - count * size;
}

/* Whether two arrays have no byte in common; one without bytes has none with any. */
static inline bool tb_are_apart(const void *one, size_t size, const void *other,
                                size_t other_size) {
    const uintptr_t a = (uintptr_t)one, b = (uintptr_t)other;
    return size == 0 || other_size == 0 || (a < b ? b - a >= size : a - b >= other_size);
}

/* tb_disassemble that answers TB_BAD_ARGUMENT where `text` is no array. */
static inline uint32_t tb_checked_disassemble(uint32_t word, uint64_t pc, uint8_t *text,
                                              size_t room) {
    if (!tb_is_array(text, room, 1, 1))
        return TB_BAD_ARGUMENT;
    return tb_disassemble(word, pc, text, room);
}

/*
 * tb_heap_replay that answers TB_BAD_ARGUMENT, and changes nothing, where a pointer is null or
 * misaligned, an array is larger than the address space, or what is written overlaps another
 * argument.
 */
static inline uint32_t tb_checked_heap_replay(const tb_heap_setup *setup, tb_heap_step *steps,
                                              size_t count, uint64_t *bad) {
    if (!tb_is_array(setup, 1, sizeof *setup, 4) || !tb_is_array(steps, count, sizeof *steps, 8) ||
        !tb_is_array(bad, 1, sizeof *bad, 8))
        return TB_BAD_ARGUMENT;
    if (!tb_are_apart(steps, count * sizeof *steps, setup, sizeof *setup) ||
        !tb_are_apart(steps, count * sizeof *steps, bad, sizeof *bad) ||
        !tb_are_apart(setup, sizeof *setup, bad, sizeof *bad))
        return TB_BAD_ARGUMENT;
    return tb_heap_replay(setup, steps, count, bad);
}

/* tb_heap_pages that answers TB_BAD_ARGUMENT in the same cases. */
static inline uint32_t tb_checked_heap_pages(const tb_heap_setup *setup, tb_heap_step *steps,
                                             size_t count, tb_page_entry *pages, size_t room,
                                             uint64_t *mapped, uint64_t *bad) {
    const void *its[5];
    size_t sizes[5];
    if (!tb_is_array(setup, 1, sizeof *setup, 4) || !tb_is_array(steps, count, sizeof *steps, 8) ||
        !tb_is_array(pages, room, sizeof *pages, 8) || !tb_is_array(mapped, 1, 8, 8) ||
        !tb_is_array(bad, 1, 8, 8))
        return TB_BAD_ARGUMENT;
    its[0] = setup, sizes[0] = sizeof *setup;
    its[1] = steps, sizes[1] = count * sizeof *steps;
    its[2] = pages, sizes[2] = room * sizeof *pages;
    its[3] = mapped, sizes[3] = 8;
    its[4] = bad, sizes[4] = 8;
    for (int i = 0; i < 5; i++)
        for (int k = i + 1; k < 5; k++)
            if (!tb_are_apart(its[i], sizes[i], its[k], sizes[k]))
                return TB_BAD_ARGUMENT;
    return tb_heap_pages(setup, steps, count, pages, room, mapped, bad);
}

/* tb_heap_live that answers TB_BAD_ARGUMENT in the same cases. */
static inline uint32_t tb_checked_heap_live(const tb_heap_step *steps, size_t count,
                                            tb_live_chunk *chunks, size_t room, uint64_t *live) {
    if (!tb_is_array(steps, count, sizeof *steps, 8) ||
        !tb_is_array(chunks, room, sizeof *chunks, 8) || !tb_is_array(live, 1, 8, 8) ||
        !tb_are_apart(steps, count * sizeof *steps, chunks, room * sizeof *chunks) ||
        !tb_are_apart(steps, count * sizeof *steps, live, 8) ||
        !tb_are_apart(chunks, room * sizeof *chunks, live, 8))
        return TB_BAD_ARGUMENT;
    return tb_heap_live(steps, count, chunks, room, live);
}

/*
 * Whether what a tenant begins with may be lent, its arrays too, and has no byte in common with an
 * array that is written.
 */
static inline bool tb_are_terms(const tb_terms *terms, const void *written, size_t size) {
    return tb_is_array(terms, 1, sizeof *terms, 8) &&
           tb_is_array(terms->image, terms->image_length, 1, 1) &&
           tb_is_array(terms->input, terms->input_length, 1, 1) &&
           tb_is_array(terms->slices, terms->slice_count, 4, 4) &&
           tb_are_apart(terms, sizeof *terms, written, size) &&
           tb_are_apart(terms->image, terms->image_length, written, size) &&
           tb_are_apart(terms->input, terms->input_length, written, size) &&
           tb_are_apart(terms->slices, terms->slice_count * 4, written, size);
}

/*
 * tb_machine_acts that answers TB_BAD_ARGUMENT, and changes nothing, where a pointer is null or
 * misaligned, an array is larger than the address space, or what is written overlaps another
 * argument.
 */
static inline uint32_t tb_checked_machine_acts(const tb_terms *terms, tb_machine_act *acts,
                                               size_t count, uint8_t *output, size_t output_room,
                                               tb_kept_call *calls, size_t call_room,
                                               tb_machine_end *end) {
    const void *its[4];
    size_t sizes[4];
    if (!tb_is_array(acts, count, sizeof *acts, 8) || !tb_is_array(output, output_room, 1, 1) ||
        !tb_is_array(calls, call_room, sizeof *calls, 8) || !tb_is_array(end, 1, sizeof *end, 8))
        return TB_BAD_ARGUMENT;
    its[0] = acts, sizes[0] = count * sizeof *acts;
    its[1] = output, sizes[1] = output_room;
    its[2] = calls, sizes[2] = call_room * sizeof *calls;
    its[3] = end, sizes[3] = sizeof *end;
    for (int i = 0; i < 4; i++) {
        if (!tb_are_terms(terms, its[i], sizes[i]))
            return TB_BAD_ARGUMENT;
        for (int k = i + 1; k < 4; k++)
            if (!tb_are_apart(its[i], sizes[i], its[k], sizes[k]))
                return TB_BAD_ARGUMENT;
    }
    return tb_machine_acts(terms, acts, count, output, output_room, calls, call_room, end);
}

/* tb_machine_pages that answers TB_BAD_ARGUMENT in the same cases. */
static inline uint32_t tb_checked_machine_pages(const tb_terms *terms, tb_machine_act *acts,
                                                size_t count, tb_page_entry *pages, size_t room,
                                                uint64_t *mapped) {
    if (!tb_is_array(acts, count, sizeof *acts, 8) ||
        !tb_is_array(pages, room, sizeof *pages, 8) || !tb_is_array(mapped, 1, 8, 8) ||
        !tb_are_terms(terms, acts, count * sizeof *acts) ||
        !tb_are_terms(terms, pages, room * sizeof *pages) || !tb_are_terms(terms, mapped, 8) ||
        !tb_are_apart(acts, count * sizeof *acts, pages, room * sizeof *pages) ||
        !tb_are_apart(acts, count * sizeof *acts, mapped, 8) ||
        !tb_are_apart(pages, room * sizeof *pages, mapped, 8))
        return TB_BAD_ARGUMENT;
    return tb_machine_pages(terms, acts, count, pages, room, mapped);
}

/*
 * tb_run_traced that answers TB_BAD_ARGUMENT, and changes nothing, where a pointer is null or
 * misaligned, an array is larger than the address space, or what is written overlaps another
 * argument.
 */
static inline uint32_t tb_checked_run_traced(tb_page *pages, size_t count, tb_tag_state *state,
                                             tb_regs *regs, const tb_trace_request *request,
                                             tb_trace_arrays *entered, tb_trace_report *end) {
    const void *its[9];
    size_t sizes[9];
    if (!tb_is_array(request, 1, sizeof *request, 8) ||
        !tb_is_array(request->stops, request->stop_count, 8, 8) ||
        !tb_is_array(pages, count, sizeof *pages, 8) || !tb_is_array(state, 1, sizeof *state, 4) ||
        !tb_is_array(regs, 1, sizeof *regs, 8) || !tb_is_array(end, 1, sizeof *end, 8) ||
        !tb_is_array(entered, 1, sizeof *entered, 8) ||
        !tb_is_array(entered->instructions, entered->instruction_room,
                     sizeof *entered->instructions, 8) ||
        !tb_is_array(entered->accesses, entered->access_room, sizeof *entered->accesses, 8))
        return TB_BAD_ARGUMENT;
    /* The first six are written, the last three are read. */
    its[0] = pages, sizes[0] = count * sizeof *pages;
    its[1] = state, sizes[1] = sizeof *state;
    its[2] = regs, sizes[2] = sizeof *regs;
    its[3] = entered->instructions;
    sizes[3] = entered->instruction_room * sizeof *entered->instructions;
    its[4] = entered->accesses, sizes[4] = entered->access_room * sizeof *entered->accesses;
    its[5] = end, sizes[5] = sizeof *end;
    its[6] = request, sizes[6] = sizeof *request;
    its[7] = request->stops, sizes[7] = request->stop_count * 8;
    its[8] = entered, sizes[8] = sizeof *entered;
    for (int i = 0; i < 6; i++)
        for (int k = i + 1; k < 9; k++)
            if (!tb_are_apart(its[i], sizes[i], its[k], sizes[k]))
                return TB_BAD_ARGUMENT;
    return tb_run_traced(pages, count, state, regs, request, entered, end);
}

// Written by tools/border.py: the texts

/* What a code says that a call answered, a tb_code, in a few words. The text stays. */
static inline const char *tb_text(uint32_t code) {
    switch (code) {
    case TB_OK: return "ok";
    case TB_FAULT: return "fault";
    case TB_SVC: return "svc";
    case TB_BREAKPOINT: return "breakpoint";
    case TB_ILLEGAL: return "illegal instruction";
    case TB_NOT_MAPPED: return "page not mapped";
    case TB_ALREADY_MAPPED: return "page already mapped";
    case TB_NO_ROOM: return "no room";
    case TB_BAD_ARGUMENT: return "bad argument";
    case TB_ABORT: return "heap abort";
    case TB_OUT_OF_MEMORY: return "out of memory";
    case TB_SCRIPT: return "faulty script line";
    case TB_REFUSED: return "tenant refused";
    case TB_STOPPED: return "stopped";
    case TB_NO_MACHINE: return "no machine";
    default: return "unknown";
    }
}

/* The name of a tb_fault_kind as reports have it; "none" for 0. The text stays. */
static inline const char *tb_fault_kind_name(uint32_t kind) {
    switch (kind) {
    case 0: return "none";
    case TB_TRANSLATION: return "Translation";
    case TB_PERMISSION: return "Permission";
    case TB_TAG_CHECK: return "TagCheck";
    case TB_ALIGNMENT: return "Alignment";
    case TB_SP_ALIGNMENT: return "SpAlignment";
    case TB_PC_ALIGNMENT: return "PcAlignment";
    default: return "unknown";
    }
}

/* The name of a tb_heap_abort as reports have it; "none" for 0. The text stays. */
static inline const char *tb_heap_abort_name(uint32_t why) {
    switch (why) {
    case 0: return "none";
    case TB_MISALIGNED: return "Misaligned";
    case TB_UNMAPPED: return "Unmapped";
    case TB_HEADER_CORRUPT: return "HeaderCorrupt";
    case TB_INVALID_STATE: return "InvalidState";
    case TB_NOT_A_BLOCK: return "NotABlock";
    case TB_ALREADY_FREE: return "AlreadyFree";
    default: return "unknown";
    }
}

/* The name of a tb_script_fault as mte_host writes it; "none" for 0. The text stays. */
static inline const char *tb_script_fault_name(uint32_t fault) {
    switch (fault) {
    case 0: return "none";
    case TB_SYNTAX: return "Syntax";
    case TB_BAD_NUMBER: return "BadNumber";
    case TB_NO_SUCH_FILE: return "NoSuchFile";
    case TB_TOO_MANY_EVENTS: return "TooManyEvents";
    default: return "unknown";
    }
}

/* The name of a tb_refusal as reports have it; "none" for 0. The text stays. */
static inline const char *tb_refusal_name(uint32_t refusal) {
    switch (refusal) {
    case 0: return "none";
    case TB_BAD_RESERVATION: return "BadReservation";
    case TB_RESERVATION_TOO_SMALL: return "ReservationTooSmall";
    case TB_SHORT: return "Short";
    case TB_NOT_ELF64: return "NotElf64";
    case TB_NOT_AARCH64: return "NotAarch64";
    case TB_NOT_EXEC: return "NotExec";
    case TB_BAD_HEADERS: return "BadHeaders";
    case TB_INTERPRETER: return "Interpreter";
    case TB_SEGMENT_RANGE: return "SegmentRange";
    case TB_OVERLAP: return "Overlap";
    case TB_NO_ENTRY: return "NoEntry";
    default: return "unknown";
    }
}

/* The name of a tb_tenant_status as reports have it; "none" for 0. The text stays. */
static inline const char *tb_tenant_status_name(uint32_t status) {
    switch (status) {
    case 0: return "none";
    case TB_STATUS_RUNNING: return "running";
    case TB_STATUS_EXIT: return "exit";
    case TB_STATUS_FAULT: return "fault";
    case TB_STATUS_ILLEGAL: return "illegal";
    case TB_STATUS_BREAK: return "break";
    case TB_STATUS_ASYNC: return "async";
    case TB_STATUS_ABORT: return "abort";
    default: return "unknown";
    }
}

/* The name of a tb_trespass; "none" for 0. The text stays. */
static inline const char *tb_trespass_name(uint32_t kind) {
    switch (kind) {
    case 0: return "none";
    case TB_PAST_SIZE: return "PastSize";
    case TB_FREED: return "Freed";
    case TB_NO_CHUNK: return "NoChunk";
    default: return "unknown";
    }
}

/* The name of a tb_compared; "none" for 0. The text stays. */
static inline const char *tb_comparison_name(uint32_t kind) {
    switch (kind) {
    case 0: return "none";
    case TB_COMPARED_SUBS: return "subs";
    case TB_COMPARED_ADDS: return "adds";
    case TB_COMPARED_ANDS: return "ands";
    case TB_COMPARED_CCMP: return "ccmp";
    case TB_COMPARED_CCMN: return "ccmn";
    case TB_COMPARED_CBZ: return "cbz";
    case TB_COMPARED_TBZ: return "tbz";
    case TB_COMPARED_SUB_CBZ: return "sub cbz";
    case TB_COMPARED_EOR_CBZ: return "eor cbz";
    case TB_COMPARED_CALL: return "call";
    default: return "unknown";
    }
}

// End of what tools/border.py writes.

#ifdef __cplusplus
}
#endif

#endif
