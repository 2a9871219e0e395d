// The loops of measure.py as programs for Linux, for an emulator of Linux programs: ROUNDS many
// rounds, then exit 0. MEMORY selects the loop of loads and stores over two pages, OFFSETS the one
// of register offsets over 64 KiB, both mapped with PROT_MTE, tag 5, synchronous checks.

#define ROUNDS_LOW (ROUNDS & 0xFFFF)
#define ROUNDS_HIGH (ROUNDS >> 16)

        .arch   armv8.5-a+memtag
        .globl  _start
_start:
#if defined MEMORY || defined OFFSETS
        // prctl(PR_SET_TAGGED_ADDR_CTRL, PR_TAGGED_ADDR_ENABLE | PR_MTE_TCF_SYNC | all tags,
        //       0, 0, 0)
        mov     x0, #55
        mov     x1, #3
        movk    x1, #0x7, lsl #16
        orr     x1, x1, #0xfff8
        mov     x2, #0
        mov     x3, #0
        mov     x4, #0
        mov     x8, #167
        svc     #0
        cbnz    x0, failed
        // mmap(0, 65536, PROT_READ | PROT_WRITE | PROT_MTE, MAP_PRIVATE | MAP_ANONYMOUS, -1, 0)
        mov     x0, #0
        mov     x1, #65536
        mov     x2, #0x23
        mov     x3, #0x22
        mov     x4, #-1
        mov     x5, #0
        mov     x8, #222
        svc     #0
        tbnz    x0, #63, failed
        movk    x0, #0x0500, lsl #48
        mov     x2, x0
        mov     x3, #4096
1:      stg     x2, [x2], #16
        sub     x3, x3, #1
        cbnz    x3, 1b
#endif
#if defined OFFSETS
        .inst   0xD2800001, 0xD2800002, 0xD2800003, 0xD2820106
        movz    x28, #ROUNDS_LOW
        movk    x28, #ROUNDS_HIGH, lsl #16
2:      .inst   0xF8616804, 0x8B040063, 0xF8226803, 0xCA040065
        .inst   0x91002021, 0x927D3021, 0x8B060042, 0x927D3042
#elif defined MEMORY
        add     x1, x0, #4096
        mov     x3, #0
        movz    x28, #ROUNDS_LOW
        movk    x28, #ROUNDS_HIGH, lsl #16
2:      .inst   0xF9400002, 0x8B020063, 0xF9000403, 0xCA020064
        .inst   0xF9400825, 0xCB0400A6, 0xF9000C26, 0xD345FCC7
        .inst   0xF9440008, 0x8B070109, 0xF9040809, 0xAA03012A, 0xF947F82B, 0x91001D6C, 0xF907FC2C
#else
        .inst   0xD2800060, 0xD299BDE1, 0xF2B13561, 0xF2C8ACE1, 0xF2E02461
        movz    x28, #ROUNDS_LOW
        movk    x28, #ROUNDS_HIGH, lsl #16
2:      .inst   0x8B010000, 0xCB030002, 0xCA001C44, 0xD343FC85
        .inst   0xAA0100A6, 0x91048CC7, 0x92403CE8, 0xD37BE909
        .inst   0xEB02012A, 0x93CA254B, 0x8A24016C, 0x8B25498D, 0xCA0001A1, 0xD1000463, 0x9342FC6E
#endif
        sub     x28, x28, #1
        cbnz    x28, 2b
        mov     x0, #0
exit:   mov     x8, #93
        svc     #0
failed: mov     x0, #1
        b       exit
