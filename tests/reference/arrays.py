"""Draws programs in C, which are C++ of clang and of gcc too, with arrays of variable length and
memory of `alloca` in blocks and in loops, beside what each of their accesses does.

Each access has a number, and is one of its array's bytes. A program reads two bytes: the access of
that number goes past the array's end or in front of its start, by some elements. No number of an
access is NONE: then the program is correct. No frame has more arrays than `mte_run` keeps.
"""

import random
from dataclasses import dataclass, field

FUNCTIONS, DEEPEST, IN_FRAME = 4, 3, 10
# To a multiple of how many bytes SP moves.
UNIT = 16
# What no access has as its number.
NONE = 0xFFFF
# The number that each function is called with, which no compiler knows.
GIVEN_COUNT = 3
# Types of elements, with their bytes, and what of them is a number.
TYPES = (
    ("char", 1, ""), ("short", 2, ""), ("int", 4, ""), ("long", 8, ""),
    ("struct three", 3, ".at[2]"), ("struct wide", 24, ".at[0]"), ("struct even", 16, ".at[0]"),
)
# Where the member is that is written, and its bytes: at the start and 8 for others.
MEMBERS = {"char": (0, 1), "short": (0, 2), "int": (0, 4), "struct three": (2, 1)}
HEAD = """
#ifdef __cplusplus
#define IN_C extern "C"
#else
#define IN_C
#endif
IN_C int number_given(void);
#define NEVER __attribute__((noinline))
struct three { char at[3]; };
struct even { long at[2]; };
struct wide { long at[3]; };
static volatile int given_count = 3;
static int wrong;
static char *volatile kept;
NEVER static unsigned fill(char *at, int count)
{
    for (int i = 0; i < count; i++)
        ((volatile char *)at)[i] = (char)i;
    return (unsigned char)at[count / 2];
}
NEVER static unsigned fill_kept(int count) { return fill(kept, count); }
NEVER static unsigned fill_deep(int depth, char *at, int count)
{
    char own[depth + 1];
    fill(own, depth + 1);
    return depth ? fill_deep(depth - 1, at, count) : fill(at, count) + (unsigned char)own[0];
}
NEVER static unsigned sum_of(const char *at, int from, int count)
{
    unsigned sum = 0;
    while (count > from)
        sum += (unsigned char)((const volatile char *)at)[--count];
    return sum;
}
NEVER static long pick(long a, long b, long c, long d, long e, long f, long g, long h, long i,
                       long j) { return (a ^ b ^ c ^ d ^ e ^ f ^ g ^ h ^ i) + j; }
"""
MAIN = """
IN_C int main(void)
{{
    wrong = number_given();
    return ({calls}) & 0;
}}
"""
# The rest, in a file of its own, in C.
GIVEN = """
#include "tenant.h"
int number_given(void)
{
    unsigned char given[2] = {0, 0};
    tenant_read(given, 2);
    return given[0] + 256 * given[1];
}
"""
# Other statements: calls with arguments on the stack, and plain arrays beside.
OTHERS = (
    "sum += (unsigned)pick(1, sum, 3, n, 5, 6, 7, 8, 9, {n});",
    "{{ char own[{n}]; sum += fill(own, {n}); }}",
    "{{ long own[2] = {{{n}, 1}}; sum += sum_of((char *)own, 0, 16); }}",
    "sum += fill((char *)__builtin_alloca({n}), {n});",
)


@dataclass(frozen=True)
class Array:
    """An array of variable length, or memory of `alloca`, which has no name."""

    number: int
    type_: str
    element: int
    member: str
    count: int
    is_named: bool

    @property
    def size(self) -> int:
        """Its bytes."""
        return self.element * self.count

    def known(self, compiler: str) -> int:
        """The bytes that `mte_run` takes it for: clang shows what the size is rounded to."""
        return self.size if compiler == "gcc" else self.size + -self.size % UNIT


@dataclass(frozen=True)
class Access:
    """An access at a line, and what it is where it is wrong: bytes past its array's end, or in
    front of its start, by their distance from these."""

    array: Array
    line: int
    is_past: bool
    distance: int
    count: int

    def told(self, compiler: str) -> str:
        """What `mte_run` says of it, if it says anything."""
        size = self.array.known(compiler)
        beyond = self.array.size + self.distance - size
        if self.is_past and beyond + self.count <= 0:
            return ""
        far = max(beyond, 0) if self.is_past else self.distance
        kind, side = ("Overflow", "right") if self.is_past else ("Underflow", "left")
        unit = "byte" if far == 1 else "bytes"
        return f": Buffer {kind}, {far} {unit} {side} of the {size}-byte block of the stack at "


@dataclass
class Program:
    """A program as it is drawn, and its accesses, by their numbers."""

    source: random.Random
    lines: list[str] = field(default_factory=HEAD.splitlines)
    accesses: list[Access] = field(default_factory=list)
    arrays: int = 0
    # How many arrays the frame has that is drawn, and how often the innermost loop's body runs.
    in_frame: int = 0
    turns: int = 1

    def put(self, depth: int, line: str) -> None:
        """Adds a line in so many blocks."""
        self.lines.append(f"{'    ' * depth}{line}")


def declare(it: Program, depth: int) -> Array:
    """Declares an array of variable length, or a pointer to memory of `alloca`."""
    type_, element, member = it.source.choice(TYPES)
    more, is_named = it.source.randrange(0, 100 // element + 1), it.source.random() < 0.6
    number, count = it.arrays, GIVEN_COUNT + more
    it.arrays += 1
    it.in_frame += 1 if is_named else it.turns
    if is_named and it.source.random() < 0.2:
        it.put(depth, f"{type_} a{number}[n][{more + 1}];")
        count, member = GIVEN_COUNT * (more + 1), "[0]" + member
        element, count = element * (more + 1), GIVEN_COUNT
    elif is_named:
        it.put(depth, f"{type_} a{number}[n + {more}];")
    else:
        size = f"(n + {more}) * sizeof({type_})"
        it.put(depth, f"{type_} *a{number} = ({type_} *)__builtin_alloca({size});")
    return Array(number, type_, element, member, count, is_named)


def access(it: Program, depth: int, array: Array) -> None:
    """An access to an array, which is wrong where its number is given."""
    far, name, size = it.source.randrange(1, 4), f"a{array.number}", array.size
    wrong = f"{far} * (wrong == {len(it.accesses)})"
    is_past, distance, count = True, 0, far
    way = it.source.randrange(8)
    if way == 0:
        text = f"sum += fill((char *){name}, {size} + {wrong});"
    elif way == 1:
        text = f"kept = (char *){name}, sum += fill_kept({size} + {wrong});"
    elif way == 2:
        text = f"sum += fill_deep(2, (char *){name}, {size} + {wrong});"
    elif way == 3:
        text = f"sum += sum_of((char *){name} + {size}, -{size} - {wrong}, 0);"
        is_past, distance = False, 1
    elif way == 4:
        text = f"((char *){name})[{size - 1} + {wrong}] = 1;"
        distance, count = far - 1, 1
    elif way == 5:
        text = f"((char *){name})[-{wrong}] += 1;"
        is_past, distance = False, far
    elif way == 6:
        text = f"{name}[n * 1 + {array.count - GIVEN_COUNT - 1} + {wrong}]{array.member} = 1;"
        offset, count = MEMBERS.get(array.type_, (0, 8))
        distance = (far - 1) * array.element + offset
    else:
        it.put(depth, f"sum += fill((char *){name}, {size});")
        text = (f"for (char *at = (char *){name}; at < (char *){name} + {size} + {wrong}; at++)"
                " sum += (unsigned char)*at;")
    it.put(depth, text)
    it.accesses.append(Access(array, len(it.lines), is_past, distance, count))


def block(it: Program, depth: int, outer: list[Array]) -> None:
    """Declares arrays and accesses those that there are, among other statements and blocks."""
    own = list(outer)
    for _ in range(it.source.randrange(2, 7)):
        way = it.source.random()
        is_full = it.in_frame + it.turns > IN_FRAME
        if way < 0.3 and not is_full or not own:
            own.append(declare(it, depth))
        elif way < 0.5 and depth < DEEPEST and not is_full:
            inner(it, depth, own)
        elif way < 0.6:
            other = it.source.choice(OTHERS).format(n=it.source.randrange(1, 40))
            it.put(depth, other)
        else:
            access(it, depth, it.source.choice(own))
    access(it, depth, own[-1])


def inner(it: Program, depth: int, outer: list[Array]) -> None:
    """A block, or a loop, which is left at its end or in front of that."""
    turns = it.source.choice((1, 1, 2, 3))
    if turns == 1:
        it.put(depth, it.source.choice(("{", "if (n > 0) {")))
    else:
        it.put(depth, f"for (unsigned i{depth} = 0; i{depth} < {turns}; i{depth}++) {{")
    it.turns *= turns
    block(it, depth + 1, outer)
    if turns > 1 and it.source.random() < 0.5:
        it.put(depth + 1, f"if (i{depth} == n - 2) {it.source.choice(('continue', 'break'))};")
        block(it, depth + 1, outer)
    it.turns //= turns
    it.put(depth, "}")


def drawn(seed: int) -> Program:
    """A program."""
    it = Program(random.Random(seed))
    for number in range(FUNCTIONS):
        it.in_frame = 0
        it.put(0, f"NEVER static unsigned f{number}(unsigned n, unsigned sum)")
        it.put(0, "{")
        block(it, 1, [])
        it.put(1, "return sum;")
        it.put(0, "}")
    return it


def text_of(it: Program) -> str:
    """The text of a program."""
    calls = " + ".join(f"f{number}((unsigned)given_count, 1)" for number in range(FUNCTIONS))
    return "\n".join(it.lines) + MAIN.format(calls=calls)
