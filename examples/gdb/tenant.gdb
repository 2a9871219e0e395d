# What every session over `mte_run --gdb` wants. It is read before the target is named:
#
#     gdb-multiarch T.elf -x tenant.gdb -ex 'target extended-remote | mte_run --gdb T.elf'

# GDB has the image; it is to seek no libraries of a system.
set sysroot
# A packet may wait for a long run on a busy machine; GDB gives up after 2 seconds by default.
set remotetimeout 60
# The tenant is only read: so GDB says it itself, and sends nothing.
set may-write-memory off
set may-write-registers off

# `step` passes over the C library of examples/libc. To step into it: `skip disable`. The library
# names its sources from a folder of its own; for them say where examples/libc/build.py keeps them:
#     set substitute-path ./musl REPOSITORY/examples/libc/out/sources/musl
#     set substitute-path ./tenant REPOSITORY/examples/libc
skip -gfi musl/src/*/*
skip -gfi tenant/src/*
skip -gfi tenant/out/include/*
skip -gfi compiler-rt/*

# GDB asks before a command of its own is defined anew.
set $tenant_confirm = $_gdb_setting("confirm")
set confirm off

define chunk
  eval "monitor chunk 0x%lx", (unsigned long) ($arg0)
end
document chunk
chunk E: the heap chunks that the address E was in, who made and freed them, the tags around it.
E is an expression without spaces.
end

define why
  monitor why
end
document why
why: the whole report of the tenant's end.
end

define calls
  monitor calls
end
document calls
calls: the last 64 heap calls, with their steps.
end

define goto
  eval "monitor goto %lu", (unsigned long) ($arg0)
  maintenance flush register-cache
  maintenance flush dcache
  frame
end
document goto
goto N: moves the tenant to step N, forwards or backwards (print $step tells where it is).
Watchpoints compare with the value that they had before: set them after it.
end

define record
  echo Nothing needs to be recorded: reverse-continue, reverse-step and goto N work as it is.\n
end
document record
A tenant goes back without a recording: reverse-continue, reverse-step, reverse-next,
reverse-finish, reverse-stepi, goto N.
end

define record full
  record
end

define checkpoint
  printf "Note the step: goto %lu comes back here.\n", $step
end
document checkpoint
checkpoint: tells by which command one comes back here (goto N).
end

define generate-core-file
  echo Run mte_run --core FILE T.elf for a core: GDB cannot write one of a tenant.\n
end
document generate-core-file
A core of a tenant's end is written by mte_run --core FILE T.elf.
end

if $tenant_confirm
  set confirm on
end
