#include <stdio.h>
#include <tombolopan.h>

int main(void) {
    /* add x0, x0, #1; brk #1 */
    static const uint8_t code[] = {0x00, 0x04, 0x00, 0x91, 0x20, 0x00, 0x20, 0xd4};
    static tb_page pages[2];
    static tb_tag_state state;
    static tb_regs regs;
    static tb_stop stop;
    tb_map(pages, 2, 0x10000 / 4096, TB_READ | TB_EXEC);
    tb_load(pages, 2, &state, 0x10000, code, sizeof code);
    regs.pc = 0x10000;
    regs.x[0] = 41;
    tb_run(pages, 2, &state, &regs, 100, &stop);
    printf("breakpoint %u, x0 is %u\n", (unsigned)stop.number, (unsigned)regs.x[0]);
    return 0;
}
