/* Two chunks that lead to one another alone, over the C library. The function that made them has
 * returned, and its words are still on the stack: below SP at the exit, or, where LIVE is 1, in
 * the frame of a function that never gave them a value. */
#include <stdlib.h>

struct part {
    struct part *other;
    char text[24];
};

__attribute__((noinline)) static int make(void)
{
    struct part *volatile one = malloc(sizeof *one);
    struct part *volatile two = malloc(sizeof *two);
    one->other = two;
    two->other = one;
    one->text[0] = 'x';
    two->text[0] = 'y';
    return one->other->text[0];
}

/* Takes what registers may still have of the chunks. */
__attribute__((noinline)) static void clear(void)
{
#define ZERO(n) __asm__ volatile("mov x" #n ", xzr" : : : "x" #n)
    ZERO(1); ZERO(2); ZERO(3); ZERO(4); ZERO(5); ZERO(6); ZERO(7); ZERO(8); ZERO(9); ZERO(10);
    ZERO(11); ZERO(12); ZERO(13); ZERO(14); ZERO(15); ZERO(16); ZERO(17);
}

__attribute__((noinline, noreturn)) static void leave(void)
{
    volatile char room[2000];
    __asm__ volatile("" : : "r"(room) : "memory");
    room[0] = 0;
    clear();
    _Exit(room[0]);
}

int main(void)
{
    if (make() != 'y')
        return 1;
    clear();
    if (LIVE)
        leave();
    _Exit(0);
}
