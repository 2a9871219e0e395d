from tombolopan import EXEC, READ, Memory, Regs, run

memory = Memory(places=2)
memory.map(0x10000, 4096, READ | EXEC)
memory.load(0x10000, bytes.fromhex("00040091" "200020d4"))  # add x0, x0, #1; brk #1
regs = Regs(pc=0x10000)
regs.x[0] = 41
stop = run(memory, regs, steps=100)
print(f"breakpoint {stop.number}, x0 is {regs.x[0]}")
