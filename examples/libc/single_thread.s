// What the host's table lacks and a tenant of one thread does not need, for GNU's assembler in
// front of a compiler's text: loads and stores that order others are plain ones, exclusive stores
// succeed, barriers and prefetches do nothing.
    .arch armv8.5-a+memtag

    .macro make_plain name, move, width
    .macro \name\width rt, rn:vararg
    \move\width \rt, \rn
    .endm
    .endm

    .macro make_succeeding name, move, width
    .macro \name\width rs, rt, rn:vararg
    \move\width \rt, \rn
    mov \rs, #0
    .endm
    .endm

    .macro make_nothing name
    .macro \name kind:vararg
    .endm
    .endm

    .irp width,,b,h
    .irp load, ldar, ldapr, ldxr, ldaxr
    make_plain \load, ldr, \width
    .endr
    make_plain stlr, str, \width
    make_succeeding stxr, str, \width
    make_succeeding stlxr, str, \width
    .endr
    .irp name, dmb, dsb, isb, prfm, prfum
    make_nothing \name
    .endr
