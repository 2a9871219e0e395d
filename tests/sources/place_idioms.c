/* What correct programs do with pointers to variables, for a checker that must not object: IDIOM
   says which. */
#include <stdarg.h>
#include "tenant.h"

static volatile int one = 1;
static volatile int sink;
static void *volatile cell;
#ifndef PAST /* How far a correct program goes past the end of an array. */
#define PAST 0
#endif

__attribute__((noinline)) static void fill(char *to, int count)
{
    for (int i = 0; i < count; i++)
        to[i] = (char)i;
}

__attribute__((noinline)) static void set_all(int *all, int count)
{
    for (int i = 0; i < count; i++)
        all[i] = i;
}

__attribute__((noinline)) static int sum_between(const int *from, const int *to)
{
    int sum = 0;
    while (from != to)
        sum += *from++;
    return sum;
}

__attribute__((noinline)) static int sum_back(const int *from, const int *to)
{
    int sum = 0;
    while (to != from)
        sum += *--to;
    return sum;
}

#if IDIOM == 13 || IDIOM == 27 || IDIOM == 32 /* What a jump over frames keeps and restores. */
static void *place[14];
int save_place(void **to) __attribute__((returns_twice));
_Noreturn void jump_back(void **to);
__asm__("save_place:\n"
        "    stp x19, x20, [x0]\n"
        "    stp x21, x22, [x0, #16]\n"
        "    stp x23, x24, [x0, #32]\n"
        "    stp x25, x26, [x0, #48]\n"
        "    stp x27, x28, [x0, #64]\n"
        "    stp x29, x30, [x0, #80]\n"
        "    mov x2, sp\n"
        "    str x2, [x0, #96]\n"
        "    mov w0, #0\n"
        "    ret\n"
        "jump_back:\n"
        "    ldp x19, x20, [x0]\n"
        "    ldp x21, x22, [x0, #16]\n"
        "    ldp x23, x24, [x0, #32]\n"
        "    ldp x25, x26, [x0, #48]\n"
        "    ldp x27, x28, [x0, #64]\n"
        "    ldp x29, x30, [x0, #80]\n"
        "    ldr x2, [x0, #96]\n"
        "    mov sp, x2\n"
        "    mov w0, #1\n"
        "    br x30\n");
#endif

#if IDIOM == 1 /* The fields of a structure, one after the other, as bytes. */
struct mixed {
    char first;
    long second;
    short third[3];
};
static int idiom(void)
{
    struct mixed mixed;
    memset(&mixed, 0, sizeof mixed);
    mixed.third[2] = 7;
    char *bytes = (char *)&mixed;
    int sum = 0;
    for (size_t i = 0; i < sizeof mixed; i++)
        sum += bytes[i];
    return sum;
}
#elif IDIOM == 2 /* An array of arrays as one. */
static int idiom(void)
{
    int rows[4][5];
    set_all(&rows[0][0], 20);
    static int others[3][4];
    set_all(others[0], 12);
    return rows[3][4] + others[2][3 * one];
}
#elif IDIOM == 3 /* The end of an array, which is the start of the next. */
static int of_image[4] = {1, 2, 3, 4}, next_of_image[4] = {5, 6, 7, 8};
static int idiom(void)
{
    int first[4], second[4];
    set_all(first, 4);
    set_all(second, 4);
    int sum = sum_between(first, first + 4) + sum_back(second, second + 4);
    sum += sum_back(of_image, of_image + 4) + sum_between(next_of_image, next_of_image + 4);
    return sum + sum_back(of_image + 1, of_image + 4 * one);
}
#elif IDIOM == 4 /* Memory of the stack whose size is not known before. */
static int idiom(void)
{
    int sum = 0;
    for (int count = 1; count < 40; count++) {
        char *all = __builtin_alloca((size_t)count);
        char some[count];
        fill(all, count);
        fill(some, count);
        sum += all[count - 1] + some[count - one];
    }
    return sum;
}
#elif IDIOM == 5 /* Arguments of which their number says how many there are. */
__attribute__((noinline)) static long sum_all(int count, ...)
{
    va_list list, again;
    long sum = 0;
    va_start(list, count);
    va_copy(again, list);
    for (int i = 0; i < count; i++)
        sum += va_arg(list, long);
    while (count-- > 0)
        sum -= va_arg(again, long);
    va_end(list);
    va_end(again);
    return sum;
}
static int idiom(void)
{
    return (int)sum_all(12, 1l, 2l, 3l, 4l, 5l, 6l, 7l, 8l, 9l, 10l, 11l, 12l * one);
}
#elif IDIOM == 6 /* One member of a union by another. */
union either {
    char bytes[24];
    long words[3];
    int halves[6];
};
static int idiom(void)
{
    union either either;
    fill(either.bytes, 24);
    set_all(either.halves, 6);
    return (int)either.words[2 * one] + either.bytes[23];
}
#elif IDIOM == 7 /* From a member back to its structure. */
struct link {
    struct link *next;
};
struct item {
    long value;
    struct link link;
    char name[5];
};
__attribute__((noinline)) static int item_value(struct link *link)
{
    struct item *item = (struct item *)((char *)link - offsetof(struct item, link));
    return (int)item->value + item->name[4];
}
static struct item of_image;
static int idiom(void)
{
    struct item item = {one, {0}, "four"};
    return item_value(&item.link) + item_value(&of_image.link);
}
#elif IDIOM == 8 /* What a linker puts behind one another, from a symbol without a size on. */
static const int __attribute__((section("numbers"), used)) n1 = 1, n2 = 2, n3 = 3;
extern const int __start_numbers[], __stop_numbers[];
static int idiom(void)
{
    return sum_between(__start_numbers, __stop_numbers) + sum_back(__start_numbers, __stop_numbers);
}
#elif IDIOM == 9 /* Texts that are one's end, and constants that are the same. */
static int length_of(const char *text)
{
    int length = 0;
    while (text[length * one])
        length++;
    return length;
}
static int idiom(void)
{
    const char *all[] = {"a text", "text", "", "another text", "text"};
    int sum = 0;
    for (int i = 0; i < 5; i++)
        sum += length_of(all[i]);
    return sum;
}
#elif IDIOM == 10 /* Variables that the linker joins. */
int common_numbers[7] __attribute__((common));
char common_bytes[3] __attribute__((common));
static int idiom(void)
{
    set_all(common_numbers, 7);
    fill(common_bytes, 3);
    return common_numbers[6 * one] + common_bytes[2 * one];
}
#elif IDIOM == 11 /* Variables of two blocks, which may have one place. */
static int idiom(void)
{
    int sum = 0;
    if (one) {
        int some[4];
        set_all(some, 4);
        for (int i = 0; i < 4; i++)
            sum += some[i * one];
    }
    {
        int more[16];
        set_all(more, 16);
        for (int i = 0; i < 16; i++)
            sum += more[i * one];
    }
    return sum;
}
#elif IDIOM == 12 /* A pointer to a variable of a block, kept after the block and not used. */
static int idiom(void)
{
    int *outer = 0, kept = one;
    for (int turn = 0; turn < 3; turn++) {
        int inner = 5;
        outer = turn < 2 ? &inner : &kept;
        cell = outer;
        sink = *(int *)cell + inner;
    }
    return outer != 0 && *(int *)cell >= 0;
}
#elif IDIOM == 13 /* A jump over frames to where they were left. */
static volatile int left;
__attribute__((noinline)) static void go_back(int *depth)
{
    int local[8];
    set_all(local, 8);
    cell = local;
    if (*depth > 0) {
        int lower = *depth - 1;
        go_back(&lower);
    }
    left++;
    jump_back(place);
}
static int idiom(void)
{
    int table[6];
    int depth = 3;
    set_all(table, 6);
    for (volatile int turn = 0; turn < 4; turn++)
        if (save_place(place) == 0) {
            go_back(&depth);
        } else {
            int behind[4], *kept = behind;
            set_all(kept, 4);
            sink = kept[one];
        }
    int again[5];
    set_all(again, 5);
    return table[5 * one] + again[4 * one] + left;
}
#elif IDIOM == 14 /* One before the first and one past the last, counted by both. */
__attribute__((noinline)) static long both_ways(int count)
{
    int a[6], b[6], c[6];
    set_all(a, 6), set_all(b, 6), set_all(c, 6);
    long sum = 0;
    int *up = a - 1, *also = b - 1, *down = c + 6;
    while (count-- > 0)
        sum += *++up + *++also - *--down;
    for (int i = 1; i <= 6; i++)
        sum += (a - 1)[i * one];
    return sum;
}
static int idiom(void)
{
    return (int)both_ways(6);
}
#elif IDIOM == 15 /* Three variables by one index each, which may have one address. */
static int first_of[4] = {1}, second_of[4] = {2}, third_of[4] = {3};
static int idiom(void)
{
    int sum = 0;
    for (int i = 0; i < 4; i++)
        sum += first_of[i * one] + second_of[3 - i] * third_of[i];
    return sum;
}
#elif IDIOM == 16 /* A frame of more than a page. */
static int idiom(void)
{
    int large[1500], small[3];
    char bytes[4500];
    set_all(large, 1500);
    set_all(small, 3);
    fill(bytes, 4500);
    return large[1499 * one] + small[2 * one] + bytes[4499];
}
#elif IDIOM == 17 /* Structures that are passed and returned as they are. */
struct large {
    long words[7];
};
__attribute__((noinline)) static struct large doubled(struct large given)
{
    for (int i = 0; i < 7; i++)
        given.words[i] *= 2;
    return given;
}
static int idiom(void)
{
    struct large large = {{1, 2, 3, 4, 5, 6, one}};
    struct large twice = doubled(doubled(large));
    return (int)twice.words[6 * one];
}
#elif IDIOM == 18 /* A list of nodes in the frames of a recursion. */
struct node {
    struct node *up;
    int value;
};
__attribute__((noinline)) static int walk(struct node *up, int depth)
{
    struct node node = {up, depth};
    if (depth > 0)
        return walk(&node, depth - 1) + node.value;
    int sum = 0;
    for (struct node *at = &node; at; at = at->up)
        sum += at->value;
    return sum;
}
static int idiom(void)
{
    return walk(0, 50 * one);
}
#elif IDIOM == 19 /* Elements that are sorted, and exchanged a byte at a time. */
static void exchange(char *one_place, char *other, size_t size)
{
    for (size_t i = 0; i < size; i++) {
        char byte = one_place[i];
        one_place[i] = other[i];
        other[i] = byte;
    }
}
static int idiom(void)
{
    struct {
        int key;
        char text[6];
    } all[7];
    for (int i = 0; i < 7; i++)
        all[i].key = (i * 5) % 7 * one, fill(all[i].text, 6);
    for (int i = 0; i < 7; i++)
        for (int j = 0; j + 1 < 7; j++)
            if (all[j].key > all[j + 1].key)
                exchange((char *)&all[j], (char *)&all[j + 1], sizeof all[0]);
    return all[6].key;
}
#elif IDIOM == 20 /* The distance of two variables, and words of a text that end past it. */
static size_t length_by_words(const char *text)
{
    const uint64_t *word = (const uint64_t *)text;
    while (((*word - 0x0101010101010101u) & ~*word & 0x8080808080808080u) == 0)
        word++;
    const char *at = (const char *)word;
    while (*at)
        at++;
    return (size_t)(at - text);
}
static int idiom(void)
{
    char text[13] __attribute__((aligned(8))), other[5];
    fill(other, 5);
    for (int i = 0; i < 12; i++)
        text[i] = 'a';
    text[12] = 0;
    cell = (void *)(text - other);
    return (int)length_by_words(text) + (other + (intptr_t)cell)[3];
}
#elif IDIOM == 21 /* A table of pointers to variables, and one into another's middle. */
static int values[5] = {1, 2, 3, 4, 5};
static int *const pointers[] = {values, &values[2], &values[4], values + 5};
static int idiom(void)
{
    int sum = 0;
    for (int i = 0; i < 3; i++)
        sum += *pointers[i * one];
    return sum + sum_between(pointers[1], pointers[3]) + sum_back(pointers[0], pointers[3]);
}
#elif IDIOM == 22 /* A second stack, which is left and entered again. */
static char stack[4096] __attribute__((aligned(16)));
static void *stacks[2];
void switch_stack(void **from, void **to);
__asm__("switch_stack:\n"
        "    stp x29, x30, [sp, #-96]!\n"
        "    stp x19, x20, [sp, #16]\n"
        "    stp x21, x22, [sp, #32]\n"
        "    stp x23, x24, [sp, #48]\n"
        "    stp x25, x26, [sp, #64]\n"
        "    stp x27, x28, [sp, #80]\n"
        "    mov x9, sp\n"
        "    str x9, [x0]\n"
        "    ldr x9, [x1]\n"
        "    mov sp, x9\n"
        "    ldp x19, x20, [sp, #16]\n"
        "    ldp x21, x22, [sp, #32]\n"
        "    ldp x23, x24, [sp, #48]\n"
        "    ldp x25, x26, [sp, #64]\n"
        "    ldp x27, x28, [sp, #80]\n"
        "    ldp x29, x30, [sp], #96\n"
        "    ret\n");
__attribute__((noinline)) static void other_side(void)
{
    int own[6];
    set_all(own, 6);
    for (;;) {
        cell = &own[3];
        switch_stack(&stacks[1], &stacks[0]);
        own[5 * one]++;
    }
}
static int idiom(void)
{
    int mine[6];
    void **top = (void **)(stack + sizeof stack - 96);
    top[1] = (void *)other_side;
    stacks[1] = top;
    set_all(mine, 6);
    int sum = 0;
    for (int i = 0; i < 5; i++) {
        switch_stack(&stacks[0], &stacks[1]);
        sum += *(int *)cell + mine[i * one];
    }
    return sum;
}
#elif IDIOM == 23 /* Digits from the end of a buffer. */
__attribute__((noinline)) static char *digits_of(char *end, unsigned number)
{
    *--end = 0;
    do
        *--end = (char)('0' + number % 10);
    while (number /= 10);
    return end;
}
static int idiom(void)
{
    char before[8], buffer[12], behind[8];
    fill(before, 8), fill(behind, 8);
    char *text = digits_of(buffer + sizeof buffer, 4096u * (unsigned)one);
    char *p = buffer + sizeof buffer;
    *--p = 0;
    for (int i = 0; i < 5; i++)
        *--p = (char)('a' + i);
    return text[one] + *p + before[7] + behind[7 * one];
}
#elif IDIOM == 24 /* A variable's address beside numbers that are like it. */
static int idiom(void)
{
    int local[4];
    set_all(local, 4);
    uintptr_t number = (uintptr_t)local;
    number ^= number >> 9;
    static char buckets[61];
    buckets[number % 61]++;
    uintptr_t low = (uintptr_t)&local[1] & ~(uintptr_t)3;
    return *(int *)low + buckets[(uintptr_t)local % 61];
}
#elif IDIOM == 25 /* Variables from their ends on, whose addresses are made of one another's. */
static int forward[16] = {1, 2, 3}, back[20] = {1}, behind[20] = {2};
__attribute__((noinline)) static int next_of(int number)
{
    return number + one;
}
static int idiom(void)
{
    int sum = 0;
    for (int *at = forward + 16; at-- > forward;)
        sum += *at + next_of(2);
    for (int *at = back + 20; at-- > back;)
        sum += next_of(*at);
    for (int *at = behind; at < behind + 20; at++)
        sum += next_of(*at);
    return sum;
}
#elif IDIOM == 26 /* The ends of small arrays, from which they are counted. */
static char first_text[8] = "abcdefg", second_text[16] = "0123456789abcde";
static int idiom(void)
{
    char small[8], large[16], *small_end = small + 8, *large_end = large + 16;
    fill(small, 8), fill(large, 16);
    int sum = (small + 8)[-one] + (large + 16)[-one] + (first_text + 8)[-one];
    for (int i = 1; i <= 8; i++)
        sum += small_end[-i] + large_end[-i - 8] + (second_text + 16)[-i * one];
    return sum;
}
#elif IDIOM == 27 /* A large frame, by one register for several variables, and jumps back to it. */
__attribute__((noinline)) static void leave(void)
{
    jump_back(place);
}
__attribute__((noinline)) static void leave_and_return(void)
{
    if (save_place(place) == 0)
        leave();
}
static int idiom(void)
{
    char below[4500], first = (char)one, second = (char)(one + 1), third = (char)(one + 2);
    char small[15], more[21], above[5000], *kept = above;
    fill(below, 4500);
    fill(small, 15);
    fill(more, 21);
    fill(above, 5000);
    for (volatile int turn = 0; turn < 3; turn++) {
        if (turn != 1)
            leave_and_return();
        else if (save_place(place) == 0)
            leave();
        third += first + second;
        for (int i = 0; i < 5; i++)
            second += third * i, first += small[i * one] + more[i + 2];
        fill(small, 15);
        fill(more, 21);
        small[14] = more[20] + first;
    }
    below[4499 * one] += kept[(4999 + PAST) * one];
    return first + second + third + below[4499 * one] + small[14] + more[20 * one];
}
#elif IDIOM == 28 /* Variables of blocks, while their blocks run and however they are left. */
static int *volatile kept;
__attribute__((noinline)) static int sum_kept(int count)
{
    int sum = 0;
    while (count > 0)
        sum += kept[--count];
    return sum;
}
static void count_down(int **all)
{
    for (int i = 0; i < 4; i++)
        (*all)[i]--;
}
static int idiom(void)
{
    int sum = 0, *last = &sum;
    for (int turn = 0; turn < 6; turn++) {
        int all[4] = {turn, one, 2, 3};
        int *own __attribute__((cleanup(count_down))) = all;
        kept = all;
        if (turn == 1)
            continue;
        for (int i = 0; i < 4; i++) {
            int *inner = i > 1 ? &own[i] : &turn;
            kept = inner;
            sum += *last + sum_kept(1);
        }
        kept = own;
        if (turn == 4 * one)
            goto out;
        sum += sum_kept(4);
    }
out:
    switch (one) {
        int common[4];
    case 0:
        sum = 0;
        break;
    case 1:
        set_all(kept = common, 4);
        if (one) {
        case 2:;
            int part[4];
            set_all(last = part, 4);
            sum += sum_kept(4) + *last;
        }
        sum += sum_kept(4);
    }
    sum += ({
        int all[4] = {one, 2, 3, 4};
        kept = all;
        sum_kept(4) + *kept;
    });
    kept = (int[]){one, 2, 3};
    return sum + sum_kept(3) + *(last = &sum);
}
#elif IDIOM == 29 /* Arrays of variable length in blocks, however these are left. */
__attribute__((noinline)) static int rows_of(int rows, int columns, int all[rows][columns])
{
    int sum = 0;
    for (int i = 0; i < rows; i++)
        for (int j = 0; j < columns; j++)
            sum += all[i][j] = i * j;
    return sum;
}
static int idiom(void)
{
    int sum = 0, turn = 0;
    char outer[3 * one];
    fill(outer, 3);
again:
    for (int count = one; count < 9; count++) {
        int part[count], *last = part + count;
        set_all(part, count);
        if (count == 3 && turn++ < 2)
            goto again;
        if (count == 4)
            continue;
        short words[count + turn];
        for (int i = 0; i < count + turn; i++)
            words[i] = (short)i;
        int rows[count][turn + 1];
        struct {
            long all[2];
        } wide[count];
        wide[count - 1].all[1] = sum;
        sum += rows_of(count, turn + 1, rows) + last[-one] + words[count - one];
        sum += (int)wide[count - one].all[one] + sum_back(part, last);
        if (count == 7)
            break;
    }
    return sum + outer[2 * one];
}
#elif IDIOM == 30 /* Memory of alloca that lasts as long as its function, in a list. */
struct node {
    struct node *next;
    char text[3];
};
__attribute__((noinline)) static char *text_of(char *to, const char *from, int count)
{
    for (int i = 0; i < count; i++)
        to[i] = from[i];
    return to;
}
static int idiom(void)
{
    struct node *first = 0;
    int sum = 0;
    for (int i = 0; i < 60; i++) {
        struct node *made = __builtin_alloca(sizeof(struct node) + (size_t)(i % 5) * one);
        made->next = first;
        text_of(made->text, "six letters", 3 + i % 5);
        first = made;
        if (i % 10 == 5) {
            int *fixed = __builtin_alloca(40);
            set_all(fixed, 10);
            sum += fixed[9 * one];
        }
    }
    for (struct node *at = first; at; at = at->next)
        sum += at->text[2];
    int *counted = (int *)__builtin_alloca(8 * sizeof(int) * (size_t)one) - 1;
    for (int i = 1; i <= 8; i++)
        counted[i * one] = i;
    return sum + counted[8 * one];
}
#elif IDIOM == 31 /* Arrays of variable length in large frames, with arguments of a number. */
__attribute__((noinline)) static long pick(int at, ...)
{
    va_list list;
    long value = 0;
    va_start(list, at);
    while (at-- >= 0)
        value = va_arg(list, long);
    va_end(list);
    return value;
}
static int idiom(void)
{
    char large[4600], some[10 + one] __attribute__((aligned(16)));
    char wide[20 + one] __attribute__((aligned(64)));
    fill(large, 4600);
    fill(some, 11);
    fill(wide, 21);
    long value = pick(11, 1l, 2l, 3l, 4l, 5l, 6l, 7l, 8l, 9l, 10l, 11l, 12l);
    long all[value], *last = all + value;
    for (long *at = all; at < last; at++)
        *at = pick(9, 1l, 2l, 3l, 4l, 5l, 6l, 7l, 8l, value, 10l);
    char more[value + 13];
    fill(more, (int)value + 13);
    wide[20 * one] = some[10 * one] = (char)pick(10, 1l, 2l, 3l, 4l, 5l, 6l, 7l, 8l, 9l, 10l, 11l);
    return (int)(last[-one] + more[24 * one] + large[4599 * one] + wide[20 * one] + some[one]);
}
#elif IDIOM == 32 /* Jumps over frames out of arrays of variable length. */
__attribute__((noinline)) static void leave(int count)
{
    char some[count];
    fill(some, count);
    cell = some;
    if (count > 3)
        leave(count - 1);
    jump_back(place);
}
static int idiom(void)
{
    char before[9 + one];
    int sum = 0;
    fill(before, 10);
    for (volatile int turn = 1; turn < 8; turn++) {
        if (save_place(place) == 0) {
            char inner[turn];
            fill(inner, turn);
            leave(turn + 2);
        }
        char behind[turn * 7], *last = behind + turn * 7;
        fill(behind, turn * 7);
        sum += behind[turn] + last[-one] + before[9 * one];
        fill(before, 10);
    }
    char all[sum % 7 + 1];
    fill(all, sum % 7 + 1);
    return sum + all[sum % 7];
}
#elif IDIOM == 33 /* Sizes that a program has rounded. */
static int idiom(void)
{
    int sum = 0;
    for (size_t bytes = (size_t)one; bytes < 40; bytes += 7) {
        size_t whole = (bytes + 15) & ~(size_t)15;
        char *rounded = __builtin_alloca((bytes + 15) & ~(size_t)15);
        char all[bytes + 15], words[(bytes + 15) / 16 * 16], kept[whole];
        fill(rounded, (int)whole);
        fill(all, (int)bytes + 15);
        fill(words, (int)whole);
        fill(kept, (int)whole);
        sum += rounded[whole - 1] + all[bytes + 14] + words[whole - 1] + kept[whole - 1];
    }
    return sum;
}
#endif

int main(void)
{
    sink = idiom();
    return 0;
}
