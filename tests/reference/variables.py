"""Draws programs in C whose functions move pointers to variables about, by instructions, and use
them in and outside their variables.

Each function has variables of its own. Its instructions are drawn over a pool of registers, of
which it is known how many bytes are left in front of each pointer and after it. It calls the next
function, and may get a pointer to a variable of that one back.
"""

import random
from collections.abc import Sequence
from dataclasses import dataclass, field

# What a function has, by size, and the register that has its address first.
OWN = {"bytes": (24, 9), "words": (48, 10), "single": (8, 11)}
SHARED = {"text_of_image": 40, "words_of_image": 64, "single_of_image": 8}
POOL = (9, 10, 11, 12, 13, 14, 15)
NUMBER, HALF, TEMPORARY = 2, 3, 4
KEPT = 6
FUNCTIONS, LENGTH = 3, 40
WRONG = 0.01
HEAD = """
__attribute__((aligned(16))) char text_of_image[40] = "text";
long words_of_image[8] = {1}, single_of_image = 1;
"""
FUNCTION = """
__attribute__((noinline, used)) void *{name}(void *one, void *other)
{{
    char bytes[24];
    long words[6], single = 1;
    void *kept[6];
    for (int i = 0; i < 6; i++)
        kept[i] = 0, words[i] = 1;
    for (int i = 0; i < 24; i++)
        bytes[i] = 1;
    register void *r9 __asm__("x9") = bytes;
    register void *r10 __asm__("x10") = words;
    register void *r11 __asm__("x11") = &single;
    register void *r12 __asm__("x12") = one;
    register void *r13 __asm__("x13") = other;
    register void **r19 __asm__("x19") = kept;
    __asm__ volatile(
{lines}
        : "+r"(r9), "+r"(r10), "+r"(r11), "+r"(r12), "+r"(r13), "+r"(r19)
        : : "x0", "x1", "x2", "x3", "x4", "x5", "x8", "x14", "x15", "x30", "memory", "cc");
    return r9;
}}
"""
START = """
__asm__(".globl {name}\\n{name}:\\n mov x0, #0\\n mov x1, #0\\n bl {first}\\n mov x0, #0\\n"
        " mov x8, #0\\n svc #0\\n");
"""


@dataclass
class Function:
    """A function as it is drawn: where pointers are in their variables, as the bytes in front and
    after, by register and by what is kept."""

    source: random.Random
    callee: str
    lines: list[str] = field(default_factory=list)
    left: dict[int, tuple[int, int]] = field(default_factory=dict)
    kept: dict[str, tuple[int, int]] = field(default_factory=dict)

    def put(self, *lines: str) -> None:
        """Adds instructions."""
        self.lines += lines

    def pointer(self) -> int:
        """A register that has a pointer."""
        return self.source.choice(sorted(self.left))

    def place(self, register: int, size: int) -> int:
        """The offset of an access, which is wrong at times."""
        before, after = self.left[register]
        if self.source.random() < WRONG:
            return self.source.choice((after, after - size + 1, -before - 1))
        return self.source.randrange(-before, max(after - size, -before) + 1)

    def move(self, to: int, of: int, by: int) -> None:
        """A pointer was moved to another register."""
        before, after = self.left[of]
        self.left[to] = before + by, after - by

    def step(self, register: int) -> int:
        """How far a pointer is moved: mostly within its variable."""
        before, after = self.left[register]
        if self.source.random() < 5 * WRONG or before + after <= 0:
            return self.source.randrange(-12, 13)
        return self.source.randrange(-before, after + 1)


def by_constant(it: Function) -> None:
    """A constant is added, in place or not, or in two parts."""
    of = it.pointer()
    to = it.source.choice((of, it.source.choice(POOL)))
    by = it.step(of)
    sign = "add" if by >= 0 else "sub"
    if it.source.random() < 0.2:
        it.put(f"add x{to}, x{of}, #1, lsl #12", f"sub x{to}, x{to}, #{4096 - by}"
               if 0 < 4096 - by < 4096 else f"sub x{to}, x{to}, #1, lsl #12")
        by = by if 0 < by else 0
    else:
        flags = it.source.choice(("", "", "s"))
        it.put(f"{sign}{flags} x{to}, x{of}, #{abs(by)}")
    it.move(to, of, by)


def by_register(it: Function) -> None:
    """Numbers are added and subtracted by registers, or bits are moved and chosen."""
    of, to, by = it.pointer(), it.source.choice(POOL), it.source.randrange(0, 9)
    n, h = f"x{NUMBER}", f"w{NUMBER}"
    forms: Sequence[tuple[int, str]] = (
        (by, f"add x{to}, x{of}, {n}"), (by, f"add x{to}, {n}, x{of}"),
        (-by, f"sub x{to}, x{of}, {n}"), (2 * by, f"add x{to}, x{of}, {n}, lsl #1"),
        (by, f"add x{to}, x{of}, {h}, uxtw"), (4 * by, f"add x{to}, x{of}, {h}, sxtw #2"),
        (by, f"add x{to}, x{of}, {n}, sxtx"), (0, f"mov x{to}, x{of}"), (0, f"mov x{to}, x{of}"),
        (0, f"csel x{to}, x{of}, {n}, al"), (0, f"orr x{to}, x{of}, xzr"),
        (0, f"eor x{to}, x{of}, {n}; eor x{to}, x{to}, {n}"),
        (0, f"eor x{to}, {n}, x{of}; eor x{to}, {n}, x{to}"),
        (0, f"csel x{to}, {n}, x{of}, ne"),
        (by, f"madd x{to}, {n}, x{HALF}, x{of}"), (0, f"and x{to}, x{of}, #0xffffffffffffff"),
        (0, f"sub x{TEMPORARY}, x{of}, x{it.pointer()}; mov x{to}, x{of}"),
        (0, f"lsl x{TEMPORARY}, x{of}, #8; lsr x{to}, x{TEMPORARY}, #8"),
    )
    moved, form = it.source.choice(forms)
    it.put(f"mov {n}, #{by}", f"mov x{HALF}, #1", "cmp xzr, xzr", form)
    it.move(to, of, moved)


def access(it: Function) -> None:
    """A load or a store by a pointer, of one register or two."""
    of = it.pointer()
    fitting = [size for size in (1, 1, 2, 4, 8, 16) if size <= sum(it.left[of])]
    if not fitting:
        return
    size = it.source.choice(fitting)
    at = it.place(of, size)
    if size == 16:
        base = of if at % 8 == 0 else TEMPORARY
        if base != of:
            it.put(f"add x{base}, x{of}, #{at % 8}")
        it.put(f"{it.source.choice(('ldp', 'stp'))} x3, x5, [x{base}, #{at - at % 8}]")
        return
    kind = {1: "b", 2: "h", 4: "", 8: ""}[size]
    register = f"{'x' if size == 8 else 'w'}{TEMPORARY}"
    name = f"{it.source.choice(('ldr', 'str'))}{kind}"
    way = it.source.randrange(6)
    if way == 0 and -256 <= at < 256:
        it.put(f"{name} {register}, [x{of}, #{at}]!")
        it.move(of, of, at)
    elif way == 1 and -256 <= at < 256:
        it.put(f"{name} {register}, [x{of}], #{at}")
        it.move(of, of, at)
    elif way == 2:
        it.put(f"mov x{NUMBER}, #{at}", f"{name} {register}, [x{of}, x{NUMBER}]")
    elif way == 3:
        it.put(f"mov x{NUMBER}, #{at}", f"{name} {register}, [x{NUMBER}, x{of}]")
    elif way == 4 and at % size == 0:
        scaled = {1: "", 2: " #1", 4: " #2", 8: " #3"}[size]
        it.put(f"mov w{NUMBER}, #{at // size}",
               f"{name} {register}, [x{of}, w{NUMBER}, sxtw{scaled}]")
    else:
        it.put(f"{name.replace('dr', 'dur').replace('tr', 'tur')} {register}, [x{of}, #{at}]")


def keep(it: Function) -> None:
    """A pointer is stored in the frame or loaded from there, also by another pointer."""
    if it.kept and it.source.random() < 0.6:
        slot = it.source.choice(sorted(it.kept))
        to = it.source.choice(POOL)
        it.put(f"ldr x{to}, {slot}")
        it.left[to] = it.kept[slot]
        return
    of, at = it.pointer(), 8 * it.source.randrange(KEPT)
    slot = it.source.choice((f"[sp, #{at}]", f"[x19, #{at}]"))
    it.put(f"str x{of}, {slot}")
    it.kept[slot] = it.left[of]


def of_frame(it: Function) -> None:
    """An address of the frame, of which the variable is not known."""
    to, by = it.source.choice(POOL), it.source.randrange(0, 120)
    number = f"mov x{NUMBER}, #{by}; "
    forms = (f"add x{to}, sp, #{by}", f"sub x{to}, x29, #{by}", f"{number}add x{to}, sp, x{NUMBER}",
             f"{number}sub x{to}, x29, x{NUMBER}")
    it.put(it.source.choice(forms))
    it.left[to] = 0, 1
    if it.source.random() < 0.7:
        it.put(f"ldrb w{TEMPORARY}, [x{to}]")


def of_image(it: Function) -> None:
    """An address of the image, of one variable or of another by a constant more."""
    name, to = it.source.choice(sorted(SHARED)), it.source.choice(POOL)
    by = it.source.randrange(SHARED[name])
    it.left[to] = by, SHARED[name] - by
    way = it.source.randrange(4)
    if way == 0:
        it.put(f"adr x{to}, {name} + {by}")
        return
    if way == 1:
        it.put(f"adrp x{to}, {name}", f"mov x{NUMBER}, #{by}", f"add x{to}, x{to}, x{NUMBER}",
               f"add x{to}, x{to}, :lo12:{name}")
        return
    it.put(f"adrp x{to}, {name} + {by}")
    if way == 2:
        it.put(f"ldrb w{TEMPORARY}, [x{to}, :lo12:{name} + {by}]")
    it.put(f"add x{to}, x{to}, :lo12:{name} + {by}")


def on_stack(it: Function) -> None:
    """SP goes down and up again, by constants, by an access or by a register."""
    to = it.source.choice(POOL)
    ways = (
        ("sub sp, sp, #32", f"mov x{to}, sp", f"str x{to}, [sp, #8]", f"ldr x{to}, [sp, #8]",
         "add sp, sp, #32"),
        (f"stp x{it.pointer()}, x{it.pointer()}, [sp, #-32]!", f"add x{to}, sp, #16",
         "ldp x4, x5, [sp], #32"),
        (f"str x{it.pointer()}, [sp, #-16]!", f"ldr x{to}, [sp], #16"),
        ("mov x4, sp", "sub sp, sp, #64", f"mov x{to}, sp", "strb w3, [sp, #3]", "mov sp, x4"),
        ("mov x4, sp", "mov x5, #48", "sub sp, sp, x5", f"add x{to}, sp, #8", "str x5, [sp, #-16]!",
         "mov sp, x4"),
    )
    it.put(*it.source.choice(ways))
    it.left.pop(to, None)


def service(it: Function) -> None:
    """Bytes are written out of a variable or read into it."""
    of, number = it.pointer(), it.source.choice((1, 2))
    count = max(it.left[of][1], 0) + (it.source.random() < WRONG)
    it.put(f"mov x0, x{of}", f"mov x1, #{count}", f"mov x8, #{number}", "svc #0")


def call(it: Function) -> None:
    """The next function is called with two pointers, and gives one to a variable of its own back at
    times."""
    if not it.callee:
        return
    passed = [it.pointer(), it.pointer()]
    kept = sorted(it.left)
    base = it.source.choice(("sp", "x29"))
    it.put("stp x29, x30, [sp, #-96]!", "mov x29, sp" if base == "x29" else "nop",
           *(f"str x{register}, [sp, #{16 + 8 * at}]" for at, register in enumerate(kept)),
           f"mov x0, x{passed[0]}", f"mov x1, x{passed[1]}",
           it.source.choice((f"bl {it.callee}", f"adr x4, {it.callee}; blr x4")),
           *(f"ldr x{register}, [{base}, #{16 + 8 * at}]" for at, register in enumerate(kept)),
           "ldp x29, x30, [sp], #96")
    if it.source.random() < 5 * WRONG:
        it.put(f"mov x{kept[0]}, x0")
        it.left[kept[0]] = 0, 1


WAYS = (by_constant, by_constant, by_register, by_register, access, access, access, access, keep,
        keep, of_frame, of_image, on_stack, service, call)


def draw_function(source: random.Random, name: str, callee: str, is_first: bool) -> str:
    """The text of a function."""
    it = Function(source, callee)
    for size, register in OWN.values():
        it.left[register] = 0, size
    if not is_first:
        it.left[12] = it.left[13] = 0, 1
    for _ in range(LENGTH):
        source.choice(WAYS)(it)
        if not it.left:
            break
    texts = ["sub sp, sp, #64", *it.lines, "add sp, sp, #64"]
    lines = "\n".join(f'        "{line}\\n"' for line in texts)
    return FUNCTION.format(name=name, lines=lines)


def start(seed: int) -> str:
    """The symbol at which a program begins."""
    return f"start_{seed}"


def draw(seeds: Sequence[int]) -> str:
    """The text of programs in one image, each of its seed."""
    parts = [HEAD]
    for seed in seeds:
        source = random.Random(seed)
        names = [f"drawn_{seed}_{at}" for at in range(FUNCTIONS)]
        for at in reversed(range(FUNCTIONS)):
            callee = names[at + 1] if at + 1 < FUNCTIONS else ""
            parts.append(f"void *{names[at]}(void *, void *);"
                         + draw_function(source, names[at], callee, at == 0))
        parts.append(START.format(name=start(seed), first=names[0]))
    return "\n".join(parts)
