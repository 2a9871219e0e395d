// Uses of variables of blocks after the blocks, one a build: BUG says which.
#define _Noreturn
extern "C" {
#include "tenant.h"
}

static volatile int one = 1;
static volatile int sink;

struct Reader {
    const int *from;
    [[gnu::noinline]] int operator()() const { return *from; }
};

struct Counter {
    int &count;
    explicit Counter(int &of) : count(of) { ++count; }
    ~Counter() { --count; }
    [[gnu::noinline]] int get() const { return count; }
};

static int bug()
{
#if BUG == 1 /* a reference that is captured */
    Reader reader = {nullptr};
    {
        int captured = one;
        auto lambda = [&captured] { return Reader{&captured}; };
        reader = lambda();
        sink = reader();
    }
    return reader();
#elif BUG == 2 /* a copy that is captured */
    const int *copy;
    {
        int number = one;
        auto lambda = [number] { return &number; };
        copy = lambda();
        sink = *copy;
    }
    return *copy;
#elif BUG == 3 /* an object whose destructor has run */
    int count = one;
    Counter *last = nullptr;
    for (int i = 0; i < 2; i++) {
        Counter counter(count);
        last = &counter;
        sink = last->get();
    }
    return last->get();
#elif BUG == 4 /* an element of a loop over a range */
    int numbers[3] = {one, 2, 3};
    int *last = nullptr;
    for (int element : numbers) {
        element += one;
        last = &element;
        sink = *last;
    }
    return *last;
#endif
}

extern "C" int main()
{
    sink = bug();
    return 0;
}
