// What correct programs of C++ do with pointers to variables, for a checker that must not object.
#define _Noreturn
extern "C" {
#include "tenant.h"
}

static volatile int one = 1;
static volatile int sink;

struct Pair {
    int first, second;
};

struct Three {
    long all[3];
};

struct Numbers {
    int all[4];
    int get(int index) { return all[index]; }
};

struct Shape {
    long width;
    explicit Shape(long of) : width(of) {}
    virtual long area() const { return width; }
};

struct Box : Shape {
    long height;
    Box(long of, long by) : Shape(of), height(by) {}
    long area() const override { return Shape::area() * height; }
};

template <class T, int COUNT> struct Array {
    T all[COUNT];
    T *begin() { return all; }
    T *end() { return all + COUNT; }
    T &operator[](int index) { return all[index]; }
};

template <class T> [[gnu::noinline]] static long sum_of(T *from, T *to)
{
    long sum = 0;
    while (from != to)
        sum += *from++;
    return sum;
}

[[gnu::noinline]] static void set(Pair *pair)
{
    for (unsigned i = 0; i < sizeof *pair; i++)
        reinterpret_cast<volatile char *>(pair)[i] = 1;
}

[[gnu::noinline]] static Three made(long first)
{
    return {{first, first + 1, first + 2}};
}

// Names for the parts of what a function returned, of a copy, and of a variable.
static long named_parts()
{
    auto [three] = made(one);
    Pair pair;
    set(&pair);
    auto [left, right] = pair;
    auto &[low, high] = pair;
    return three[2] + left + right + low + high;
}

// Pointers to members, and pointers to these.
[[gnu::noinline]] static int called(Numbers *of, int (Numbers::**get)(int), int (Numbers::*all)[4])
{
    return (of->**get)(2) + (of->*all)[one];
}

static int members()
{
    int (Numbers::*get)(int) = &Numbers::get;
    int(Numbers::*all)[4] = &Numbers::all;
    Numbers numbers = {{1, 2, 3, one}};
    return called(&numbers, &get, all);
}

// A structure by its base, arrays by their ends, and a function that refers to variables.
[[gnu::noinline]] static long area_of(const Shape &shape)
{
    return shape.area();
}

static Array<int, 6> of_image;

static long structures()
{
    Array<int, 10> ints;
    Array<long, 5> longs;
    Box box(one, 3);
    for (int &number : ints)
        number = one;
    for (long &number : longs)
        number = 2;
    auto both = [&](int index) { return ints[index] + longs[index % 5] + of_image[index % 6]; };
    long sum = area_of(box);
    for (int index = 0; index < 10; index++)
        sum += both(index * one);
    return sum + sum_of(ints.begin(), ints.end()) + sum_of(longs.begin(), longs.end());
}

// A class whose constructor is elsewhere, so that DWARF may only declare it, and values without
// names, whose places are later those of arrays.
struct Elsewhere {
    long all[12];
    Elsewhere();
};

extern "C" [[gnu::noinline]] void _ZN9ElsewhereC1Ev(long *all)
{
    for (long number = 0; number < 12; number++)
        all[number] = number;
}

struct Large {
    long all[12];
    explicit Large(long of)
    {
        for (long &number : all)
            number = of++;
    }
    [[gnu::noinline]] long sum() const { return sum_of(all, all + 12); }
};

[[gnu::noinline]] static long last_of(Large of)
{
    return of.all[11];
}

[[gnu::noinline]] static long length_of(const unsigned char *text)
{
    long length = 0;
    while (text[length])
        length++;
    return length;
}

[[gnu::noinline]] static long written(unsigned char *text, int count)
{
    while (count-- > 0)
        text[count] = count < 14;
    return length_of(text);
}

static long places_of_others()
{
    long sum = 0;
    {
        Elsewhere it;
        sum += sum_of(it.all, it.all + 12);
    }
    if (one) {
        unsigned char name[15];
        sum += written(name, 15);
    }
    sum += Large(one).sum();
    for (int times = 0; times < one; times++) {
        unsigned char text[15];
        sum += last_of(Large(times));
        sum += written(text, 15);
    }
    return sum;
}

// Objects whose destructors use variables of their own block, however it is left.
struct Mutex {
    int locked = 0;
    [[gnu::noinline]] ~Mutex() { locked = -locked; }
};

struct Guard {
    Mutex &mutex;
    explicit Guard(Mutex &it) : mutex(it) { mutex.locked++; }
    ~Guard() { mutex.locked--; }
};

template <class F> struct Exit {
    F last;
    ~Exit() { last(); }
};

template <class F> static Exit<F> at_exit(F last)
{
    return Exit<F>{last};
}

struct List {
    int *at;
    int count;
    List(int *all, int of) : at(all), count(of) { at[0]++; }
    ~List()
    {
        for (int i = 0; i < count; i++)
            at[i]--;
    }
    int *begin() const { return at; }
    int *end() const { return at + count; }
};

struct Node {
    Node *next;
    int *count;
    Node(Node *behind, int *of) : next(behind), count(of) { ++*count; }
    ~Node()
    {
        --*count;
        if (next)
            next->count = count;
    }
};

static int left_blocks(int way)
{
    int sum = 0;
    for (int i = 0; i < 3; i++) {
        int all[4] = {i, 1, 2, 3};
        List list(all, 4);
        if (way == i)
            continue;
        if (way == i + 10)
            break;
        if (way == i + 20)
            return sum;
        sum += list.at[1];
    }
    {
        int all[4] = {one, 1, 2, 3};
        const List &list = List(all, 4);
        Node nodes[3] = {Node(nullptr, all), Node(&nodes[0], all), Node(&nodes[1], all)};
        sum += list.at[1] + *nodes[1].count;
    }
    {
        int number = one, other = 7;
        auto first = at_exit([&] { sum += ++number; });
        auto second = at_exit([&number, &other] { number += other; });
        for (int &it : List(&other, 1)) {
            int kept = it;
            auto third = at_exit([&kept, &sum] { sum += kept; });
            it += kept;
        }
    }
    while (Mutex *outer = sum & 64 ? nullptr : reinterpret_cast<Mutex *>(&sum)) {
        Mutex inner;
        Guard guard(*outer), again(inner);
        sum += 65 + inner.locked;
        if (way == 5)
            goto out;
    }
    if (int *all = way ? &sum : nullptr) {
        int last = *all;
        auto set = at_exit([&] { *all = last + 1; });
    }
out:
    Mutex mutex;
    Guard guard(mutex);
    return sum + mutex.locked;
}

extern "C" int main()
{
    for (int way = 0; way < 25; way++)
        sink = left_blocks(way);
    sink = static_cast<int>(named_parts() + members() + structures() + places_of_others());
    return 0;
}
