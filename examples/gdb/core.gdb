# An ELF core of the end of a tenant, with its tags: gdb opens it with no front.
set pagination off
set style enabled off
backtrace
print *n
memory-tag print-logical-tag n
memory-tag print-allocation-tag n
memory-tag check n
print $_siginfo.si_code
print $_siginfo._sifields._sigfault.si_addr
info registers pc x0
