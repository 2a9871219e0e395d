//! Two instructions are run, and each is written with its text.

use tombolopan_sys::{Memory, Regs, TB_EXEC, TB_READ, TraceRequest, TracedInstruction, disassemble};

fn main() {
    let mut memory = Memory::new(2, false);
    memory.map(0x10000 / 4096, TB_READ | TB_EXEC);
    // add x0, x0, #1; brk #1
    memory.load(0x10000, &[0x00, 0x04, 0x00, 0x91, 0x20, 0x00, 0x20, 0xd4]);
    let mut regs = Regs { pc: 0x10000, ..Regs::default() };
    regs.x[0] = 41;
    let mut seen = [TracedInstruction::default(); 4];
    let end = memory.run_traced(&mut regs, &TraceRequest::of(100), &mut seen, &mut []);
    for it in &seen[..end.instructions as usize] {
        println!("{:#x}: {}", it.pc, disassemble(it.word, it.pc).unwrap_or_default());
    }
    println!("breakpoint {}, x0 is {}", end.number, regs.x[0]);
}
