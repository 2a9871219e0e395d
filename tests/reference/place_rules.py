"""A program for each rule of places that `mte_run --check=places` follows: what is made before a
service is used after it.

By the macro `passed` x20 gets a pointer to the first variable that no function of the program made;
the macro `address` makes one in the function that runs. No function has DWARF.
"""

VARIABLES = r"""
.section .data
.balign 16
.macro variable name, bytes
.type \name, %object
.size \name, \bytes
\name: .zero \bytes
.endm
variable cell, 16
variable first, 32
variable second, 32
.zero 64
.balign 16
variable large, 8192
.zero 64
.text
.macro address register, name
adrp x\register, \name
add x\register, x\register, :lo12:\name
.endm
.macro passed
address 22, cell
address 9, first
stp x9, x9, [x22]
ldr x20, [x22]
.endm
.macro service
mov x28, #200
99: sub x28, x28, #1
cbnz x28, 99b
mov x0, #24
mov x8, #3
svc #0
.endm
.macro finish
mov x0, #0
mov x8, #0
svc #0
.endm
"""
FRAMED = "sub sp, sp, #64"


def called(number: int, *body: str) -> str:
    """A function that is called, with a number as its label."""
    return f"b {number}2f; {number}1: {'; '.join(body)}; ret; {number}2: bl {number}1b"


# Those with True end by a finding.
RULES: dict[str, tuple[bool, str]] = {
    "a copied number": (True, "passed; address 21, first; mov x5, #0; mov x21, x5; "
                              "add x24, x20, x21; service; mov x5, #32; ldr x1, [x24, x5]"),
    "mixed numbers": (True, "passed; address 21, first; mov x5, #8; mov x6, #8; eor x21, x5, x6; "
                            "add x24, x20, x21; service; mov x5, #32; ldr x1, [x24, x5]"),
    "mixed with a made number": (False, "passed; address 6, first; mov x6, #0; mov x5, #0; "
                                        "and x21, x5, x6; add x24, x20, x21; service; "
                                        "mov x5, #32; ldr x1, [x24, x5]"),
    "a sum of numbers": (True, "passed; address 21, first; mov x5, #0; mov x6, #0; "
                               "add x21, x5, x6; add x24, x20, x21; service; mov x5, #32; "
                               "ldr x1, [x24, x5]"),
    "a returned frame": (True, called(1, FRAMED, "add x21, sp, #8; add sp, sp, #64")
                         + "; service; ldr x1, [x21]"),
    "a returned frame by a sum": (True, called(1, FRAMED, "mov x29, sp; mov x5, #8; "
                                               "add x21, x29, x5; add sp, sp, #64")
                                  + "; service; ldr x1, [x21]"),
    "a frame that was left": (True, called(
        1, FRAMED, "mov x27, x30; " + called(2, "add sp, sp, #16; add x21, sp, #8; "
                                             "add sp, sp, #48; mov x30, x27"))
        + "; service; ldr x1, [x21]"),
    "another stack": (False, called(
        1, FRAMED, "address 22, cell; mov x9, sp; lsl x9, x9, #1; lsr x9, x9, #1; str x9, [x22]; "
        "ldr x24, [x22]; mov sp, x24; add x21, sp, #8; add sp, sp, #64")
        + "; service; ldr x1, [x21]"),
    "the same stack": (True, called(
        1, FRAMED, "mov x24, sp; mov sp, x24; add x21, sp, #8; add sp, sp, #64")
        + "; service; ldr x1, [x21]"),
    "over the end": (True, "address 21, first; mov x5, #28; add x24, x21, x5; service; "
                           "str x1, [x24]"),
    "the second of a pair": (True, "passed; mov x5, #24; add x24, x20, x5; service; "
                                   "stp x1, x2, [x24]"),
    "a base that is moved": (True, "passed; ldr x1, [x20], #32; service; ldr x1, [x20]"),
    "a base that is moved first": (True, "address 21, first; ldr x1, [x21, #40]!; service; "
                                         "mov x5, #40; ldr x1, [x21, x5]"),
    "a pair of loads": (True, "passed; address 21, first; ldp x20, x21, [x22]; service; "
                              "mov x5, #32; ldr x1, [x21, x5]"),
    "a word of the frame": (False, FRAMED + "; passed; str x20, [sp, #8]; ldr x21, [sp, #8]; "
                            "service; mov x5, #32; ldr x1, [x21, x5]"),
    "a word of the frame by x29": (False, FRAMED + "; passed; mov x29, sp; str x20, [sp, #8]; "
                                   "ldr x21, [x29, #8]; service; mov x5, #32; ldr x1, [x21, x5]"),
    "a word by a pointer": (True, "passed; ldr x21, [x22]; service; mov x5, #32; "
                                  "ldr x1, [x21, x5]"),
    "a pointer as index": (True, "passed; mov x5, #32; service; ldr x1, [x5, x20]"),
    "an address by itself": (True, "adr x21, first; service; mov x5, #72; ldr x1, [x21, x5]"),
    "an address of a page": (True, "address 21, first; service; mov x5, #72; ldr x1, [x21, x5]"),
    "a page and a number": (False, "adrp x21, first; mov x5, #0; add x21, x21, x5; "
                                   "add x21, x21, :lo12:first; service; mov x5, #72; "
                                   "ldr x1, [x21, x5]"),
    "a high constant": (False, "address 21, large + 4096; add x21, x21, #1, lsl #12; service; "
                               "ldr x1, [x21]"),
    "a low constant": (True, "address 21, large + 8184; add x21, x21, #4; add x21, x21, #4; "
                             "mov x5, #8; add x21, x21, x5; service; ldr x1, [x21]"),
    "passed to a function": (True, "address 19, first; "
                             + called(1, "service; ldr x1, [x19, #32]")),
    "made by a function": (False, "address 19, first; service; ldr x1, [x19, #32]"),
    "back from a function": (False, "address 19, first; " + called(1, "nop")
                             + "; service; ldr x1, [x19, #32]"),
}


def start(number: int) -> str:
    """The symbol at which a program begins."""
    return f"rule_{number}"


def text_of_rules() -> str:
    """The text of all programs, for an assembler."""
    parts = [VARIABLES]
    for number, (_, body) in enumerate(RULES.values()):
        parts.append(f".globl {start(number)}\n{start(number)}: {body}; finish\n")
    return "".join(parts)
