"""Draws programs in C whose arrays are in blocks and in inlined functions, so that compilers put
several in one place, also with values that have no name: compound literals, what functions return,
and structures that are passed by value.

Each array has a number, which is in its name. A program reads two bytes, and writes one byte past
the array of that number: it is correct where no array has it. No frame has more arrays than
`mte_run` keeps.

With `keep_pointers` a program has numbers of pointers besides: by one it keeps a pointer to an
array, and uses it elsewhere in the function. That is wrong where the array's block has ended: it
does not have the use, which comes after the pointer was kept or is in a loop with it.
"""

import random
from dataclasses import dataclass, field

FUNCTIONS, INLINED, DEEPEST, ARRAYS, IN_FRAME = 6, 3, 3, 3, 24
# The least bytes of an array whose place gcc shares.
SHARED = 32
# What no array has as its number.
NONE = 0xFFFF
HEAD = """
int number_given(void);
#define NEVER __attribute__((noinline))
#ifndef ALWAYS
#define ALWAYS __attribute__((always_inline)) inline
#endif
static char *volatile kept;
struct big { unsigned long all[12]; };
struct wide { unsigned char all[40]; };
static int wrong;
NEVER static unsigned fill(volatile char *at, int count, int number)
{
    for (int i = 0; i < count + (number == wrong); i++)
        at[i] = (char)(i + number);
    return (unsigned char)at[count / 2];
}
NEVER static unsigned sum_of(const volatile char *at, int count)
{
    unsigned sum = 0;
    while (count > 0)
        sum += (unsigned char)at[--count];
    return sum;
}
NEVER static unsigned use_kept(int count) { return fill(kept, count, -1); }
NEVER static unsigned use_deep(int depth) { return depth ? use_deep(depth - 1) : use_kept(1); }
NEVER static unsigned use_second(int count, char *at) { return fill(at, count, -1); }
NEVER static struct big made(unsigned of)
{
    struct big it;
    for (int i = 0; i < 12; i++)
        it.all[i] = of + i;
    return it;
}
NEVER static unsigned last_of(struct big it) { return it.all[11]; }
NEVER static unsigned end_of(const struct wide *it) { return it->all[39]; }
"""
CALLER = "NEVER static unsigned g{number}(unsigned sum) {{ return f{number}(sum); }}"
MAIN = """
int main(void)
{{
    wrong = number_given();
    return ({calls}) & 0;
}}
"""
# The rest, in a file of its own: registers that are variables look as if a file was optimized.
GIVEN = """
#include "tenant.h"
int number_given(void)
{
    unsigned char given[2] = {0, 0};
    tenant_read(given, 2);
    return given[0] + 256 * given[1];
}
"""
# Values that have no name.
UNNAMED = (
    "sum += last_of(made(sum));", "sum += made(sum + {n}).all[{n} % 12];",
    "sum += end_of(&(struct wide){{{{1, sum}}}});",
    "sum += last_of((struct big){{{{sum, {n}}}}});",
)
# The number of the first pointer that may be kept, and how many a function has.
KEPT, POINTERS = 0x8000, 4
USES = (
    "sum += (unsigned char)*own;", "own[0] = 1;", "sum += fill(own, 1, -1);",
    "sum += use_second(1, own);", "{ kept = own; sum += use_kept(1); }",
    "{ kept = own; sum += use_deep(2); }",
)


@dataclass(frozen=True)
class Point:
    """A place between two lines, with the blocks around it, and which of these are loops."""

    line: int
    blocks: tuple[int, ...]
    loops: frozenset[int]

    def may_follow(self, other: "Point") -> bool:
        """Whether it is reached after another point of its function."""
        return self.line > other.line or bool(self.loops & other.loops)


@dataclass(frozen=True)
class Kept:
    """A pointer to an array that is kept, and whether it is used after the array's block."""

    array: int
    is_wrong: bool


@dataclass
class Program:
    """A program as it is drawn, with the sizes of its arrays, by their numbers."""

    source: random.Random
    # How many of the statements are blocks.
    share: float = 0.25
    sizes: list[int] = field(default_factory=list)
    lines: list[str] = field(default_factory=list)
    # How many arrays the frame of the function has that is drawn, and those of inlined ones.
    in_frame: int = 0
    inlined: dict[str, int] = field(default_factory=dict)
    # The arrays of inner blocks whose places gcc shares with what has no name.
    shared: set[int] = field(default_factory=set)
    # The blocks that are open, those of arrays, the points of each function, and the loops.
    open: list[int] = field(default_factory=list)
    homes: list[int] = field(default_factory=list)
    points: list[list[Point]] = field(default_factory=list)
    loops: set[int] = field(default_factory=set)
    blocks: int = 0
    kept: list[Kept] = field(default_factory=list)

    def put(self, depth: int, *lines: str) -> None:
        """Adds lines in so many blocks."""
        self.lines += [f"{'    ' * depth}{line}" for line in lines]

    def mark(self) -> None:
        """Notes a point."""
        loops = frozenset(self.loops.intersection(self.open))
        self.points[-1].append(Point(len(self.lines), tuple(self.open), loops))


def arrays(it: Program, depth: int) -> list[int]:
    """Declares arrays, and returns their numbers."""
    numbers = []
    for _ in range(it.source.randrange(1, ARRAYS + 1)):
        size = it.source.choice((1, 8, 15, 16, 24, 33, 40, 64, 100, it.source.randrange(1, 130)))
        numbers.append(len(it.sizes))
        it.sizes.append(size)
        it.homes.append(it.open[-1])
        if size >= SHARED and len(it.open) > 1:
            it.shared.add(numbers[-1])
        it.in_frame += 1
        it.put(depth, f"char a{numbers[-1]}[{size}];")
    return numbers


def statement(it: Program, depth: int, own: list[int]) -> None:
    """A use of arrays, of a value without a name, an inlined call, or a block."""
    way = it.source.random()
    called = [name for name, count in it.inlined.items() if it.in_frame + count <= IN_FRAME]
    if way < it.share and depth <= DEEPEST and it.in_frame + 2 * ARRAYS <= IN_FRAME:
        head = it.source.choice(("{", "if (wrong >= 0) {", f"for (int i{depth} = 0; "
                                 f"i{depth} < 2; i{depth}++) {{"))
        it.put(depth, head)
        if head.startswith("for"):
            it.loops.add(it.blocks)
        block(it, depth + 1)
        it.put(depth, "}")
    elif way < 0.4 and called:
        name = it.source.choice(called)
        it.in_frame += it.inlined[name]
        it.put(depth, f"sum += {name}(sum);")
    elif way < 0.6:
        it.put(depth, it.source.choice(UNNAMED).format(n=it.source.randrange(100)))
    elif way < 0.8:
        at = it.source.choice(own)
        it.put(depth, f"sum += fill(a{at}, {it.sizes[at]}, {at});")
    else:
        at = it.source.choice(own)
        it.put(depth, f"sum += fill(a{at}, {it.sizes[at]}, {at}) + sum_of(a{at}, {it.sizes[at]});")


def block(it: Program, depth: int) -> None:
    """Declares arrays and uses each, among other statements."""
    it.open.append(it.blocks)
    it.blocks += 1
    own = arrays(it, depth)
    it.mark()
    for at in it.source.sample(own, len(own)):
        for _ in range(it.source.randrange(3)):
            statement(it, depth, own)
            it.mark()
        it.put(depth, f"sum += fill(a{at}, {it.sizes[at]}, {at});")
        it.mark()
    it.put(depth, f"sum += (unsigned char)a{own[0]}[0];")
    it.open.pop()


def drawn(seed: int, share: float = 0.25) -> Program:
    """A program, whose first functions are inlined in later ones."""
    it = Program(random.Random(seed), share)
    for number in range(FUNCTIONS):
        is_inlined = number < INLINED
        words = "ALWAYS" if is_inlined else "NEVER"
        it.in_frame = 0
        it.put(0, f"{words} static unsigned f{number}(unsigned sum)", "{")
        it.points.append([])
        block(it, 1)
        it.put(0, "    return sum;", "}")
        if is_inlined:
            it.inlined[f"f{number}"] = it.in_frame
        it.put(0, CALLER.format(number=number))
    return it


def keep_pointers(it: Program) -> None:
    """Adds pointers that are kept, and a use of each, to the functions of a program."""
    added: list[tuple[int, str]] = []
    for points in it.points:
        for _ in range(POINTERS):
            first, use = it.source.sample(points, 2)
            array = it.source.choice([at for at, home in enumerate(it.homes)
                                      if home == first.blocks[-1]])
            number = KEPT + len(it.kept)
            is_past = it.homes[array] not in use.blocks and use.may_follow(first)
            it.kept.append(Kept(array, is_past))
            added.append((first.line, f"    if (wrong == {number}) own = a{array};"))
            is_use = f"if (wrong == {number} && own)"
            added.append((use.line, f"    {is_use} {it.source.choice(USES)}"))
        added.append((points[0].line, "    char *own = 0;"))
    for line, text in sorted(added, key=lambda at: at[0], reverse=True):
        it.lines.insert(line, text)


def text_of(it: Program) -> str:
    """The text of a program."""
    calls = " + ".join(f"g{number}(1)" for number in range(FUNCTIONS))
    return HEAD + "\n".join(it.lines) + MAIN.format(calls=calls)
