#!/usr/bin/env python3
"""Small programs with one weakness each, by the families of CWE, and what `mte_run --check` says.

    weaknesses.py [--run PROGRAM] [--only WORD] [--sample STEP] [--list | --write]

Each program is made of a place (the stack, the image, the heap), of a way by which its pointer
travels, of a type and of a wrong use. It is compiled by clang and gcc at -O0 and at -O2, with the
wrong use and without it: with it, `--check` has to name the family's cause, and the line of the
wrong use (or of a use behind it) has to be in the stack; without it, it has to say nothing. PROGRAM
is crates/mte_run/out/mte_run. WORD is a family, as 121. Of each STEP programs one is taken, and
compiled at -O0 alone; --list only prints the programs' titles. Printed is a table by families, and
each program that is not as it should be; --write puts the table into docs/project/CHECKED.md.
Status 1: a program is accused without the bug, or one of a sample is not told.
"""

import argparse
import itertools
import pathlib
import re
import subprocess
import sys
import tempfile
from collections.abc import Iterator
from concurrent.futures import ThreadPoolExecutor
from typing import NamedTuple

ROOT = pathlib.Path(__file__).resolve().parent.parent
PAGE = ROOT / "docs" / "project" / "CHECKED.md"
SAMPLES = ROOT / "examples" / "c"
RUN = ROOT / "crates" / "mte_run" / "out" / "mte_run"
FLAGS = ("-w", "-g", "-ffreestanding", "-nostdlib", "-static", "-mgeneral-regs-only",
         "-fno-builtin")
COMPILERS = {
    "clang": ("clang", "--target=aarch64-linux-gnu", "-fuse-ld=lld"),
    "gcc": ("aarch64-linux-gnu-gcc",),
}
LEVELS = ("-O0", "-O2")
PRELUDE = """#include "tenant.h"
#define APART __attribute__((noinline))
#ifdef GOOD
#define WRONG(bad, good) (good)
#else
#define WRONG(bad, good) (bad)
#endif
static volatile long one = 1, zero = 0;
static volatile long sink;
static void *volatile kept;
APART void *malloc(size_t size) { return tenant_malloc(size); }
APART void free(void *chunk) { tenant_free(chunk); }
APART void *_Znwm(size_t size) { void *p = tenant_malloc(size); sink++; return p; }
APART void *_Znam(size_t size) { void *p = tenant_malloc(size); sink++; return p; }
APART void _ZdlPv(void *chunk) { sink++; tenant_free(chunk); sink++; }
APART void _ZdaPv(void *chunk) { sink++; tenant_free(chunk); sink++; }
APART void copy_bytes(char *to, const char *from, long count)
{ for (long i = 0; i < count; i++) to[i] = from[i]; }
APART void set_bytes(char *to, int value, long count)
{ for (long i = 0; i < count; i++) ((volatile char *)to)[i] = (char)value; }
APART void copy_text(char *to, const char *from)
{ while ((*to++ = *from++)) ; }
static char source[256];
APART long mixed(long a, long b, long c, long d)
{ for (volatile int i = 0; i < 3; i++) a = a * 3 + (b << 2) - c / 3 + d % 5; return a; }
"""
TYPES = {"bytes": "char", "shorts": "short", "ints": "int", "longs": "long",
         "pairs": "struct pair { int a, b; }"}
PLACES = {
    "stack": "T place[N]; set_bytes((char *)place, 1, sizeof place);",
    "image": "static T place[N] = {{0}}; set_bytes((char *)place, 1, sizeof place);",
    "heap": "T *place = malloc(N * sizeof(T)); set_bytes((char *)place, 1, N * sizeof(T));",
}
# How the pointer gets to where it is used: what is in front of main, and what is in it.
WAYS = {
    "there": ("", "T *q = place; USE"),
    "passed": ("APART void use(T *q) { USE }\n", "use(place);"),
    "in a structure": ("struct box { long before; T *q; };\n"
                       "APART void use(struct box *box) { T *q = box->q; USE }\n",
                       "struct box box = {3, place}; use(&box);"),
    "kept": ("APART void use(void) { T *q = kept; USE }\n", "kept = place; use();"),
    "passed on": ("APART void use(T *q) { USE }\n"
                  "APART void pass(T *q, long depth) { if (depth) pass(q, depth - 1); else "
                  "use(q); sink = depth; }\n", "pass(place, 3 * one);"),
}
WRITES = {
    "written by an index": "((volatile V *)q)[WRONG(N, N - 1) * one] = 1;",
    "written in a loop": "for (long i = 0; i < N + WRONG(1, 0); i++) ((volatile V *)q)[i] = 1;",
    "set": "set_bytes((char *)q, 2, (N + WRONG(1, 0)) * (long)sizeof(T));",
    "copied to": "copy_bytes((char *)q, source, (N + WRONG(1, 0)) * (long)sizeof(T));",
    "walked over": "volatile V *at = (volatile V *)q; for (long i = 0; i < N + WRONG(1, 0); i++) "
                   "*at++ = 1;",
}
READS = {
    "read by an index": "sink = ((volatile V *)q)[WRONG(N, N - 1) * one];",
    "summed": "for (long i = 0; i < N + WRONG(1, 0); i++) sink += ((volatile V *)q)[i];",
    "copied from": "copy_bytes(source, (char *)q, (N + WRONG(1, 0)) * (long)sizeof(T));",
}
UNDER_WRITES = {"written in front": "((volatile V *)q)[WRONG(-1, 0) * one] = 1;"}
UNDER_READS = {"read in front": "sink = ((volatile V *)q)[WRONG(-1, 0) * one];"}


class Program(NamedTuple):
    """A program: its family, what it does, its source, and what is to be said of it."""

    family: str
    title: str
    text: str
    wanted: tuple[str, ...]


def filled(way: str, use: str, place: str, kind: str, count: int) -> str:
    """The source of a program that uses a pointer to a place."""
    before, inside = WAYS[way]
    declared = TYPES[kind]
    name = " ".join(declared.split()[:2]) if declared.startswith("struct") else declared
    head = f"{declared};\n" if declared.startswith("struct") else ""
    value = "int" if declared.startswith("struct") else declared
    if declared.startswith("struct"):
        use = use.replace("(volatile V *)q)[WRONG(N, N - 1) * one]",
                          "(volatile V *)q)[2 * WRONG(N, N - 1) * one]")
        use = use.replace("(volatile V *)q)[WRONG(-1, 0)", "(volatile V *)q)[2 * WRONG(-1, 0)")
        use = use.replace("i < N +", "i < 2 * N +")
    zero = PLACES[place].replace("{{0}}", "{0}")
    body = f"{head}#define T {name}\n#define V {value}\n#define N {count}\n"
    return (f"{PRELUDE}{body}{before.replace('USE', use)}"
            f"int main(void)\n{{\n    {zero}\n    {inside.replace('USE', use)}\n"
            f"    sink = ((char *)place)[0];\n"
            f"    {'free(place);' if place == 'heap' else ''}\n    return 0;\n}}\n")


def bounded(family: str, places: tuple[str, ...], uses: dict[str, str], count: int, first: int,
            cause: str) -> Iterator[Program]:
    """Programs that go beyond a place: of all that there are, as many as are wanted."""
    every = list(itertools.product(places, uses, WAYS, TYPES))
    step = max(1, len(every) // count) | 1
    taken: set[int] = set()
    at = first
    for _ in range(count):
        at %= len(every)
        while at in taken:
            at = (at + 1) % len(every)
        taken.add(at)
        place, use, way, kind = every[at]
        size = 3 + at % 7
        text = filled(way, uses[use], place, kind, size)
        title = f"{size} {kind} of the {place}, {use}, {way}"
        yield Program(family, title, text, (cause,))
        at += step


def plain(family: str, wanted: tuple[str, ...], bodies: dict[str, str]) -> Iterator[Program]:
    """Programs that are given as they are: what is in front of main, `@`, and what is in it."""
    for title, body in bodies.items():
        before, _, inside = body.rpartition("@")
        text = (f"{PRELUDE}{before}\nAPART void work(void)\n{{\n    {inside}\n}}\n"
                "int main(void)\n{\n    work();\n    sink = mixed(one, zero, sink, 4);\n"
                "    copy_bytes(source, source + 8, 64);\n    return 0;\n}\n")
        yield Program(family, title, text, wanted)


OVER, UNDER = "Buffer Overflow", "Buffer Underflow"
OVERWRITTEN = {
    "a pointer behind a buffer of the heap, which is then written by":
        "long aim[2];@char *a = malloc(16); long **b = malloc(16); *b = aim; "
        "set_bytes(a, 0, 16 + 24 * WRONG(1, 0)); **b = 1; free(a); free(b);",
    "a pointer behind a buffer of the stack, which is then written by":
        "long aim[2]; APART void put(char *to, long count) { copy_bytes(to, source, count); }@"
        "struct { char text[16]; } a; long *b = aim; kept = &b; put(a.text, 16 + WRONG(9, 0)); "
        "*(long *)(*(long **)kept ? *(long **)kept : aim) = a.text[one];",
    "the links of a node that is taken out of a list":
        "struct node { struct node *next, *last; char text[8]; };@"
        "struct node *a = malloc(sizeof *a), *b = malloc(sizeof *b); a->next = b; b->last = a; "
        "b->next = a; a->last = b; set_bytes(a->text, 7, 8 + WRONG(16, 0)); "
        "b->last->next = b->next; free(a); free(b);",
    "a function's address behind an array of the image":
        "char text[8] = {1}; APART void nothing(void) { sink++; } "
        "void (*volatile hook)(void) = nothing;@"
        "set_bytes(text, 0, 8 + WRONG(8, 0)); if (hook) hook(); else nothing();",
}
WRAPPED = {
    "a product of 32 bits": "@unsigned n = 0x40000001u * (unsigned)WRONG(one, zero) + 4 * "
        "(unsigned)WRONG(zero, one); int *p = malloc(n * (unsigned)4); p[WRONG(2, 1) * one] = 1; "
        "free(p);",
    "a sum of 16 bits": "@unsigned short n = (unsigned short)(65530 * WRONG(one, zero) + 10); char "
        "*p = malloc(n); set_bytes(p, 1, 10); free(p);",
    "a sum of 8 bits": "@unsigned char n = (unsigned char)(WRONG(250, 20) * one + 16); char *p = "
        "malloc(n); set_bytes(p, 1, 36); free(p);",
    "a header that is added": "APART char *make(unsigned size) { return malloc(size + 16u); }@"
        "char *p = make(WRONG(0xfffffff8u, 32u) * (unsigned)one); set_bytes(p, 0, 20); free(p);",
    "rows by columns": "APART int *make(unsigned a, unsigned b) { return malloc(a * b * 4); }@"
        "int *p = make(WRONG(0x8001u, 8u) * (unsigned)one, WRONG(0x8000u, 8u)); "
        "((volatile int *)p)[63 * one] = 3; "
        "((volatile int *)p)[WRONG(0x8000, 0) * one] = 3; free(p);",
    "a difference below 0": "@unsigned n = (unsigned)(WRONG(4, 12) * one) - 8u; char *p = "
        "malloc(16); set_bytes(p, 1, n < 64 ? n : 64); free(p);",
    "a size that is cut to 16 bits": "@long n = WRONG(65540, 40) * one; char *p = malloc("
        "(unsigned short)n); set_bytes(p, 1, 40); free(p);",
    "a count that is doubled": "APART short *make(unsigned n) { return malloc(2 * n); }@short *p = "
        "make(WRONG(0x80000008u, 24u) * (unsigned)one); ((volatile short *)p)[12 * one] = 1; "
        "free(p);",
    "a rounding up": "APART char *make(unsigned n) { return malloc((n + 15u) & ~15u); }@char *p = "
        "make(WRONG(0xfffffff5u, 5u) * (unsigned)one); set_bytes(p, 1, 16); free(p);",
    "a shift": "@unsigned n = (unsigned)WRONG(0x20000001, 8) * (unsigned)one << 3; long *p = "
        "malloc(n); ((volatile long *)p)[WRONG(4, 7) * one] = 1; free(p);",
}
LOST = {
    "never freed": "@char *p = malloc(24); p[0] = 1; WRONG((void)0, free(p));",
    "overwritten by another": "@char *volatile p = malloc(24); WRONG((void)0, free(p)); p = "
        "malloc(40); free(p);",
    "left on an early return": "APART int early(long n) { char *p = malloc(30); p[0] = (char)n; if "
        "(n == 1) { WRONG((void)0, free(p)); return 0; } free(p); return 1; }@early(one);",
    "a list of which the head is freed": "struct node { struct node *next; };@struct node *list = "
        "0; for (int i = 0; i < 5; i++) { struct node *n = malloc(16); n->next = list; list = n; } "
        "while (list) { struct node *next = list->next; free(list); list = WRONG(0, next); }",
    "a member of what is freed": "struct box { char *text; };@struct box *b = malloc(sizeof *b); "
        "b->text = malloc(50); b->text[0] = 1; WRONG((void)0, free(b->text)); free(b);",
    "what a realloc was refused": "@char *p = malloc(100); p[0] = 1; char *q = tenant_realloc(p, "
        "WRONG(1l << 40, 200) * one); free(q); q = 0; p = 0;",
    "made in a loop": "APART void turn(void) { char *p = malloc(12); p[0] = 1; WRONG((void)0, "
        "free(p)); }@for (int i = 0; i < 9; i++) turn();",
    "two that lead to each other": "struct node { struct node *other; };APART void pair(void) { "
        "struct node *a = malloc(16), *b = malloc(16); a->other = b; b->other = a; WRONG((void)0, "
        "(free(a), free(b))); }@pair();",
    "a pointer that was counted up": "APART void count(void) { char *p = malloc(16); for (int i = "
        "0; i < 16; i++) *p++ = 1; WRONG((void)0, free(p - 16)); }@count();",
    "returned and not taken": "APART char *make(void) { char *p = malloc(70); p[0] = 2; return p; "
        "}@char *p = make(); WRONG((void)0, free(p)); p = 0;",
}
TWICE = {
    "one after the other": "@char *p = malloc(24); free(p); WRONG(free(p), (void)0);",
    "by two names": "@char *p = malloc(24), *volatile q = p; free(p); WRONG(free(q), (void)0);",
    "in a function and behind it": "APART void done(char *p) { free(p); }@char *p = malloc(40); "
        "done(p); WRONG(free(p), (void)0);",
    "after the block was given again": "@char *p = malloc(32); free(p); char *q = malloc(32); "
        "WRONG(free(p), (void)0); free(q);",
    "by a realloc to 0": "@char *p = malloc(24); tenant_realloc(p, 0); WRONG(free(p), (void)0);",
    "by the owner and a copy of it": "struct box { char *p; }; APART void drop(struct box b) { "
        "free(b.p); }@struct box a = {malloc(48)}; struct box b = a; drop(a); WRONG(drop(b), "
        "(void)0);",
    "in a loop": "@char *p = malloc(64); for (int i = 0; i < WRONG(2, 1); i++) free(p);",
    "on an error's path": "APART int tried(char *p) { if (one) { free(p); return -1; } return 0; }@"
        "char *p = malloc(20); if (tried(p) < 0) { WRONG(free(p), (void)0); }",
    "a large one": "@char *p = malloc(200000); free(p); WRONG(free(p), (void)0);",
    "after many others": "@char *p = malloc(24), *all[40]; free(p); for (int i = 0; i < 40; i++) "
        "all[i] = malloc(24); WRONG(free(p), (void)0); for (int i = 0; i < 40; i++) free(all[i]);",
}
FREED = {
    "read": "@char *p = malloc(24); p[3] = 1; char *volatile q = p; WRONG(free(p), (void)0); sink "
        "= q[3]; WRONG((void)0, free(p));",
    "written": "@int *p = malloc(24); WRONG(free(p), (void)0); ((volatile int *)p)[2] = 1; "
        "WRONG((void)0, free(p));",
    "by a pointer into its middle": "@char *p = malloc(100), *q = p + 50; q[0] = 1; "
        "WRONG(free(p), (void)0); sink = ((volatile char *)q)[0]; WRONG((void)0, free(p));",
    "after a realloc that moved": "@char *p = malloc(32); p[0] = 1; char *q = tenant_realloc(p, "
        "5000); sink = ((volatile char *)WRONG(p, q))[0]; free(q);",
    "after its block was given again": "@char *p = malloc(48); WRONG(free(p), (void)0); char *q = "
        "malloc(48); q[0] = 2; ((volatile char *)p)[0] = 1; free(q); WRONG((void)0, free(p));",
    "the next of a list's node": "struct node { struct node *next; long v; };@struct node *n = "
        "malloc(sizeof *n); n->next = 0; n->v = 1; kept = n; WRONG(free(n), (void)0); sink = "
        "((struct node *volatile)kept)->next != 0; WRONG((void)0, free(n));",
    "by a callback": "APART void show(void *p) { sink = *(volatile long *)p; } void (*volatile "
        "hook)(void *) = show;@long *p = malloc(16); *p = 1; WRONG(free(p), (void)0); hook(p); "
        "WRONG((void)0, free(p));",
    "written out": "@char *p = malloc(24); set_bytes(p, 65, 24); WRONG(free(p), (void)0); "
        "tenant_write(p, 4); WRONG((void)0, free(p));",
    "read into": "@char *p = malloc(24); WRONG(free(p), (void)0); sink = (long)tenant_read(p, 8); "
        "WRONG((void)0, free(p));",
    "a member's": "struct box { char *p; };@struct box b = {malloc(30)}; b.p[1] = 1; "
        "WRONG(free(b.p), (void)0); sink = ((volatile char *)b.p)[1]; WRONG((void)0, free(b.p));",
    "copied": "@char *p = malloc(64); set_bytes(p, 1, 64); WRONG(free(p), (void)0); "
        "copy_bytes(source, p, 64); WRONG((void)0, free(p));",
    "a large one": "@char *p = malloc(150000); p[100000] = 1; WRONG(free(p), (void)0); sink = "
        "((volatile char *)p)[100000]; WRONG((void)0, free(p));",
}
UNSET = {
    "a number of the stack": "APART int read_it(volatile int *p) { return *p; }@int n; WRONG((void)"
        "0, (n = 1)); kept = &n; if (read_it(&n)) sink = 3;",
    "a number of the heap": "@int *p = malloc(8); WRONG((void)0, (*p = 1)); if (*(volatile int *)p "
        "> 3) sink = 1; free(p);",
    "the last of an array": "@int *p = malloc(40); for (int i = 0; i < WRONG(9, 10); i++) p[i] = "
        "i; for (int i = 0; i < 10; i++) if (((volatile int *)p)[i] == 7) sink++; free(p);",
    "a member": "struct s { int a, b; }; APART int sum(struct s *s) { return s->a > s->b; }@struct "
        "s *s = malloc(sizeof *s); s->a = 1; WRONG((void)0, (s->b = 2)); sink = sum(s) ? 1 : 2; "
        "if (sum(s)) sink = 4; free(s);",
    "an index": "@unsigned char *p = malloc(4); p[0] = 1; WRONG((void)0, (p[1] = 1)); sink = "
        "source[((volatile unsigned char *)p)[1]]; free(p);",
    "what is written out": "@char *p = malloc(16); set_bytes(p, 66, WRONG(15, 16)); "
        "tenant_write(p, 16); free(p);",
    "a pointer": "@char **p = malloc(16); WRONG((void)0, (p[0] = source)); sink = *(volatile char "
        "*)((char *volatile *)p)[0]; free(p);",
    "a size": "@long *p = malloc(16); WRONG((void)0, (p[1] = 8)); free(malloc((size_t)((volatile "
        "long *)p)[1] % 100)); free(p);",
    "after a switch": "APART int pick(long n) { volatile int r; switch (n) { case 0: r = 1; break; "
        "case 5: r = 2; break; } return r; }@if (pick(WRONG(1, 0) * one) == 2) sink = 1;",
    "what a realloc has added": "@char *p = malloc(8); set_bytes(p, 1, 8); p = tenant_realloc(p, "
        "64); WRONG((void)0, set_bytes(p, 1, 64)); if (((volatile char *)p)[40]) sink = 1; "
        "free(p);",
    "an element that a loop leaves out": "@volatile short all[12]; for (int i = 0; i < 12; i += "
        "WRONG(2, 1)) all[i] = 1; long n = 0; for (int i = 0; i < 12; i++) if (all[i] > 4) n++; "
        "sink = n;",
    "a flag that only one path sets": "APART int flag(long n) { volatile int f; if (n > 5) f = 1; "
        "return f; }@if (flag(WRONG(2, 9) * one)) sink = 1;",
}
NULL = {
    "read": "@int *volatile p = WRONG(0, (int *)source); sink = *p;",
    "written": "@int *volatile p = WRONG(0, (int *)source); *p = 1;",
    "a member": "struct s { long a[4]; int b; };@struct s *volatile p = WRONG(0, (struct s *)"
        "source); sink = p->b;",
    "what malloc refused": "@char *p = malloc((size_t)(WRONG(1l << 40, 16) * one)); *(volatile "
        "char *)p = 1; WRONG((void)0, free(p));",
    "what a search has not found": "struct n { struct n *next; long key; }; APART struct n *find("
        "struct n *l, long k) { while (l && l->key != k) l = l->next; return l; }@struct n a = {0, "
        "1}; sink = find(&a, WRONG(2, 1) * one)->key;",
    "an element": "@long *volatile p = WRONG(0, (long *)source); sink = p[3 * one];",
    "called": "APART void nothing(void) { sink++; }@void (*volatile f)(void) = WRONG(0, nothing); "
        "f();",
    "at the end of a list": "struct n { struct n *next; long v; };@struct n a = {0, 1}, b = {&a, "
        "2}; struct n *volatile at = &b; for (int i = 0; i < WRONG(3, 2); i++) { sink += at->v; at "
        "= at->next; }",
}
RETURNED = {
    "a number's": "APART int *give(void) { int n = 3; kept = &n; sink = n; return kept; }@int *p = "
        "WRONG(give(), (int *)source); sink = *(volatile int *)p;",
    "an array's": "APART char *give(void) { char text[32]; set_bytes(text, 65, 32); kept = text; "
        "return kept; }@char *p = WRONG(give(), source); sink = ((volatile char *)p)[5];",
    "an argument's": "APART long *give(long n) { kept = &n; sink = n; return kept; }@long *p = "
        "WRONG(give(4), (long *)source); sink = *(volatile long *)p;",
    "a structure's, in another": "struct box { int *p; }; APART void put(struct box *b) { int a[6] "
        "= {one}; kept = a; b->p = WRONG(kept, (int *)source); sink = a[0]; }@struct box b; "
        "put(&b); sink = ((volatile int *)b.p)[2];",
    "written to": "APART int *give(void) { int a[4] = {one, 2}; kept = a; sink = a[1]; return "
        "kept; }@int *p = WRONG(give(), (int *)source); ((volatile int *)p)[1] = 7;",
    "of a function two calls deep": "APART void inner(void) { long n[3] = {one}; kept = n; sink = "
        "n[0]; } APART void outer(void) { inner(); sink++; }@outer(); long *p = WRONG(kept, (long "
        "*)source); sink = ((volatile long *)p)[0];",
    "passed to another function": "APART int *give(void) { int a[9] = {one}; kept = a; sink = "
        "a[0]; return kept; } APART int sum(int *p) { int s = 0; for (int i = 0; i < 3; i++) s += "
        "((volatile int *)p)[i]; return s; }@sink = sum(WRONG(give(), (int *)source));",
    "kept in a table": "static char *table[3]; APART void put(int i) { char text[16]; set_bytes("
        "text, 66, 16); kept = text; table[i] = kept; sink = text[1]; }@put(1); sink = ((volatile "
        "char *)WRONG(table[one], source))[0];",
}
NOT_OF_HEAP = {
    "a number of the stack": "@long n = one; kept = &n; WRONG(free(kept), (void)0); sink = n;",
    "an array of the stack": "@char a[64]; set_bytes(a, 1, 64); WRONG(free(a), (void)0); sink = "
        "a[one];",
    "an array of the image": "static char a[64];@set_bytes(a, 1, 64); WRONG(free(a), (void)0);",
    "a member of a structure of the image": "static struct { long a; char b[40]; } s;@s.a = 1; "
        "WRONG(free(s.b), (void)0);",
    "by a function, of its caller's": "APART void drop(char *p) { WRONG(free(p), (void)0); sink = "
        "p[0]; }@char a[32]; set_bytes(a, 1, 32); drop(a);",
    "given another size": "@char a[48]; set_bytes(a, 1, 48); kept = a; char *p = WRONG("
        "tenant_realloc(kept, 100), 0); sink = p != 0;",
    "a table's entry that was not made": "static char first[16]; static char *table[2] = {first};@"
        "table[1] = malloc(16); for (int i = WRONG(0, 1); i < 2; i++) free(table[i * one]);",
    "kept in a structure": "struct box { void *p; }; APART void drop(struct box *b) { WRONG("
        "free(b->p), (void)0); sink++; }@int n = 3; struct box b = {&n}; drop(&b); sink = n;",
}
INSIDE = {
    "4 bytes in": "@char *p = malloc(24); free(p + WRONG(4, 0) * one);",
    "16 bytes in": "@char *p = malloc(48); free(p + WRONG(16, 0) * one);",
    "after a search": "@char *p = malloc(32), *q = p; set_bytes(p, 65, 31); p[31] = 0; for (int i "
        "= 0; i < 9; i++) q++; free(WRONG(q, p));",
    "a member's address": "struct s { long a; char b[24]; };@struct s *p = malloc(sizeof *p); "
        "free(WRONG((void *)p->b, (void *)p));",
    "the last element's": "@long *p = malloc(80); kept = &p[9 * WRONG(one, zero)]; free(kept);",
    "counted in a loop": "@char *p = malloc(16), *q = p; for (int i = 0; i < 16; i++) *q++ = 1; "
        "free(WRONG(q - 8, p));",
}
MISMATCHED = {
    "new, free": "@int *p = _Znwm(8); WRONG(free(p), _ZdlPv(p));",
    "new, delete[]": "@int *p = _Znwm(8); WRONG(_ZdaPv(p), _ZdlPv(p));",
    "new[], delete": "@int *p = _Znam(40); WRONG(_ZdlPv(p), _ZdaPv(p));",
    "new[], free": "@int *p = _Znam(40); WRONG(free(p), _ZdaPv(p));",
    "malloc, delete": "@int *p = malloc(8); WRONG(_ZdlPv(p), free(p));",
    "malloc, delete[]": "APART void drop(int *p) { WRONG(_ZdaPv(p), free(p)); sink++; }@int *p = "
        "malloc(8); drop(p);",
}


def programs() -> Iterator[Program]:
    """All programs, by their families."""
    yield from bounded("121", ("stack",), WRITES, 20, 3, OVER)
    yield from bounded("122", ("heap",), WRITES, 18, 7, OVER)
    yield from plain("123", (OVER,), OVERWRITTEN)
    yield from bounded("124", ("heap", "stack"), UNDER_WRITES, 8, 1, UNDER)
    yield from bounded("125", ("image", "heap"), READS, 10, 11, OVER)
    yield from bounded("126", ("heap", "stack", "image"), READS, 10, 5, OVER)
    yield from bounded("127", ("heap", "stack"), UNDER_READS, 6, 2, UNDER)
    yield from plain("190", (OVER,), WRAPPED)
    yield from plain("401", ("lost at the end",), LOST)
    yield from plain("415", ("Double Free",), TWICE)
    yield from plain("416", ("Use After Free",), FREED)
    yield from plain("457", ("Uninitialized Value",), UNSET)
    yield from plain("476", ("Null Pointer",), NULL)
    yield from plain("562", ("Use After Return",), RETURNED)
    yield from plain("590", ("which no heap call returned",), NOT_OF_HEAP)
    yield from plain("761", ("Invalid Pointer",), INSIDE)
    yield from plain("762", ("Mismatched Free",), MISMATCHED)


class Verdict(NamedTuple):
    """What is said of a build of a program, with its bug and without."""

    is_found: bool
    is_right: bool
    is_clean: bool
    words: str


def said_of(run: pathlib.Path, image: pathlib.Path, given: pathlib.Path) -> str:
    """What `--check` writes of a tenant."""
    words = [str(run), "--check=all,places", "--steps", "2000000", "--input", str(given),
             str(image)]
    ran = subprocess.run(words, capture_output=True, timeout=900, check=False)
    return ran.stderr.decode(errors="replace")


def has_line(program: Program, said: str) -> bool:
    """Whether a line that is wrong is in the stack: that of the access, or for chunks that are lost
    that of the call. A wrong value may be used behind the line that makes it."""
    lines = program.text.splitlines()
    stack = re.split(r"\n  (?:allocated|freed) by ", said)[0] if "Cause" in said else said
    numbers = [int(it) for it in re.findall(r" at program\.c:(\d+)", stack)]
    wrong = [at for at, line in enumerate(lines, 1) if "WRONG(" in line and "#define" not in line]
    return any(min(wrong) <= number <= max(wrong) + 2 for number in numbers)


def causes_in(said: str) -> list[str]:
    """The lines that name a cause, or chunks that are lost."""
    return [line for line in said.splitlines() if "Cause" in line or "lost at" in line]


def judged(run: pathlib.Path, program: Program, compiler: str, level: str) -> Verdict:
    """What is said of a build of a program, with its bug and without."""
    with tempfile.TemporaryDirectory() as name:
        folder = pathlib.Path(name)
        (folder / "program.c").write_text(program.text, encoding="utf-8")
        (folder / "input").write_bytes(b"y" * 100)
        told = []
        for defined in ((), ("-DGOOD",)):
            image = folder / "program.elf"
            words = [*COMPILERS[compiler], level, *FLAGS, *defined, f"-I{SAMPLES}",
                     str(SAMPLES / "start.c"), str(folder / "program.c"), "-o", str(image)]
            built = subprocess.run(words, capture_output=True, text=True, check=False)
            if built.returncode:
                return Verdict(False, False, False, f"not compiled: {built.stderr[:400]}")
            told.append(said_of(run, image, folder / "input"))
    causes, wrong = causes_in(told[0]), causes_in(told[1])
    is_right = any(word in line for word in program.wanted for line in causes)
    said = "; ".join(causes or ["nothing"])
    return Verdict(bool(causes), is_right and has_line(program, told[0]), not wrong,
                   said + "".join(f"; without the bug: {line}" for line in wrong))


def table(rows: dict[str, list[list[Verdict]]], builds: list[tuple[str, str]]) -> Iterator[str]:
    """By families how many programs there are, and of how many each build is told, and how many of
    these with the right cause and line."""
    names = [f"{compiler} {level}" for compiler, level in builds]
    yield f"| CWE | Programs | {' | '.join(names)} |"
    yield "|---|---|" + "---|" * len(builds)
    sums = [(0, 0)] * len(builds)
    for family, all_ in rows.items():
        counts = [(sum(it[at].is_found for it in all_), sum(it[at].is_right for it in all_))
                  for at in range(len(builds))]
        sums = [(a + c, b + d) for (a, b), (c, d) in zip(sums, counts)]
        cells = " | ".join(f"{found}, {right}" for found, right in counts)
        yield f"| {family} | {len(all_)} | {cells} |"
    total = sum(len(it) for it in rows.values())
    yield f"| all | {total} | {' | '.join(f'{found}, {right}' for found, right in sums)} |"


def judge_all(run: pathlib.Path, chosen: list[Program],
              builds: list[tuple[str, str]]) -> dict[str, list[list[Verdict]]]:
    """The verdicts of programs by their families; those that are not as they should be are
    printed."""
    rows: dict[str, list[list[Verdict]]] = {}
    with ThreadPoolExecutor(2) as workers:
        tries = [[workers.submit(judged, run, program, *build) for build in builds]
                 for program in chosen]
        for program, tried in zip(chosen, tries):
            verdicts = [it.result() for it in tried]
            rows.setdefault(program.family, []).append(verdicts)
            for (compiler, level), verdict in zip(builds, verdicts):
                if not (verdict.is_right and verdict.is_clean):
                    print(f"{program.family}: {program.title}: {compiler} {level}: "
                          f"{verdict.words}", flush=True)
    return rows


def write_table(lines: list[str]) -> None:
    """Puts the table into the page, in the place of the one that is there."""
    text = PAGE.read_text(encoding="utf-8")
    held = re.search(r"^\| CWE \|.*\n(?:\|.*\n)*", text, re.M)
    if not held:
        sys.exit("weaknesses.py: the page has no such table")
    PAGE.write_text(text.replace(held[0], "\n".join(lines) + "\n"), encoding="utf-8")


def main() -> None:
    reader = argparse.ArgumentParser()
    reader.add_argument("--run", type=pathlib.Path, default=RUN)
    reader.add_argument("--only", default="")
    reader.add_argument("--sample", type=int, default=0)
    reader.add_argument("--list", action="store_true")
    reader.add_argument("--write", action="store_true")
    given = reader.parse_args()
    chosen = [it for it in programs() if it.family.startswith(given.only)]
    chosen = chosen[::given.sample or 1]
    if given.list:
        print("\n".join(f"{it.family}: {it.title}" for it in chosen))
        return
    builds = list(itertools.product(COMPILERS, LEVELS[:1] if given.sample else LEVELS))
    rows = judge_all(given.run, chosen, builds)
    lines = list(table(rows, builds))
    print("\n".join(lines))
    if given.write:
        write_table(lines)
    every = [verdict for all_ in rows.values() for verdicts in all_ for verdict in verdicts]
    is_right = all(it.is_clean and (it.is_right or not given.sample) for it in every)
    sys.exit(0 if is_right else 1)


if __name__ == "__main__":
    main()
