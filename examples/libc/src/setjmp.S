/* setjmp and longjmp without registers of floating point: x19 to x30 and SP, in this order. */
    .text

    .macro function name
    .globl \name
    .type \name, %function
\name:
    .endm

    .macro each_pair move
    \move x19, x20, [x0]
    \move x21, x22, [x0, #16]
    \move x23, x24, [x0, #32]
    \move x25, x26, [x0, #48]
    \move x27, x28, [x0, #64]
    \move x29, x30, [x0, #80]
    .endm

    function setjmp
    function _setjmp
    function __setjmp
    function sigsetjmp
    function __sigsetjmp
    each_pair stp
    mov x2, sp
    str x2, [x0, #96]
    mov w0, #0
    ret
    .size setjmp, . - setjmp

    function longjmp
    function _longjmp
    each_pair ldp
    ldr x2, [x0, #96]
    mov sp, x2
    cmp w1, #0
    csinc w0, w1, wzr, ne
    ret
    .size longjmp, . - longjmp

    .section .note.GNU-stack, "", %progbits
