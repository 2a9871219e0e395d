mod tombolopan;

use tombolopan::{Memory, Regs, TB_EXEC, TB_READ};

fn main() {
    let mut memory = Memory::new(2, false);
    memory.map(0x10000 / 4096, TB_READ | TB_EXEC);
    // add x0, x0, #1; brk #1
    memory.load(0x10000, &[0x00, 0x04, 0x00, 0x91, 0x20, 0x00, 0x20, 0xd4]);
    let mut regs = Regs { pc: 0x10000, ..Regs::default() };
    regs.x[0] = 41;
    let stop = memory.run(&mut regs, 100);
    println!("breakpoint {}, x0 is {}", stop.number, regs.x[0]);
}
