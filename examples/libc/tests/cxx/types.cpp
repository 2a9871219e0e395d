// Run-time types, inheritance, static objects, new and delete of all kinds.
#include <cstdint>
#include <cstdio>
#include <cstdlib>
#include <cxxabi.h>
#include <memory>
#include <new>
#include <string>
#include <typeindex>
#include <typeinfo>
#include <vector>

struct Animal {
    virtual ~Animal() = default;
    virtual const char *name() const = 0;
};

struct Swimmer {
    virtual ~Swimmer() = default;
    int depth = 5;
};

struct Duck : Animal, Swimmer {
    const char *name() const override { return "duck"; }
};

struct Dog : Animal {
    const char *name() const override { return "dog"; }
};

struct Top { virtual ~Top() = default; int top = 1; };
struct Left : virtual Top { int left = 2; };
struct Right : virtual Top { int right = 3; };
struct Bottom : Left, Right { int bottom = 4; };

template <class First, class Second> struct Pair {};

static void casts()
{
    std::vector<std::unique_ptr<Animal>> animals;
    animals.push_back(std::make_unique<Duck>());
    animals.push_back(std::make_unique<Dog>());
    for (const auto &animal : animals) {
        const Animal &named = *animal;
        const auto *swimmer = dynamic_cast<const Swimmer *>(&named);
        std::printf("%s %s %d %d\n", animal->name(), typeid(named).name(),
                    swimmer ? swimmer->depth : 0, dynamic_cast<const Dog *>(&named) != nullptr);
    }
    Bottom bottom;
    Top *top = &bottom;
    auto *left = dynamic_cast<Left *>(top);
    auto *right = dynamic_cast<Right *>(left);
    std::printf("%d %d %d %d\n", left->left, right->right, dynamic_cast<Bottom *>(right)->bottom,
                dynamic_cast<void *>(top) == &bottom);
    std::printf("%d %d\n", typeid(*top) == typeid(Bottom),
                std::type_index(typeid(int)) == std::type_index(typeid(const int)));
    int status = 0;
    char *plain = abi::__cxa_demangle(typeid(Pair<int, Duck *>).name(), nullptr, nullptr, &status);
    std::printf("%s\n", plain);
    std::free(plain);
}

struct Static {
    explicit Static(const char *name) : name(name) { std::printf("made %s\n", name); }
    ~Static() { std::printf("gone %s\n", name); }
    const char *name;
};

static Static one("one"), two("two");
static thread_local int own = 5;
static const std::string text = std::string(60, 't');

static Static &local(bool fails)
{
    static Static here((fails ? throw 1 : 0, "local"));
    return here;
}

struct alignas(64) Wide {
    char bytes[100] = {};
};

struct Counted {
    static void *operator new(std::size_t size) { taken++; return std::malloc(size); }
    static void operator delete(void *chunk) { taken--; std::free(chunk); }
    static int taken;
    virtual ~Counted() = default;
};
int Counted::taken = 0;
struct MoreCounted : Counted { std::string text = std::string(50, 'm'); };

struct Counter {
    ~Counter() { gone++; }
    static int gone;
};
int Counter::gone = 0;

static volatile std::size_t huge = static_cast<std::size_t>(-1) / 4;

static void memory()
{
    auto *wide = new Wide;
    auto *wides = new Wide[3];
    std::printf("%d %d\n", reinterpret_cast<std::uintptr_t>(wide) % 64 == 0,
                reinterpret_cast<std::uintptr_t>(wides + 2) % 64 == 0);
    delete wide;
    delete[] wides;
    Counted *counted = new MoreCounted;
    std::printf("%d ", Counted::taken);
    delete counted;
    std::printf("%d\n", Counted::taken);
    delete[] new Counter[7];
    alignas(Counter) char room[sizeof(Counter)];
    (new (room) Counter)->~Counter();
    std::printf("%d\n", Counter::gone);
    char *volatile none = new (std::nothrow) char[huge];
    std::printf("%d\n", none == nullptr);
    std::set_new_handler([] {
        std::puts("no memory");
        std::set_new_handler(nullptr);
    });
    try {
        none = static_cast<char *>(::operator new(huge));
    } catch (const std::bad_alloc &) {
        std::puts("bad_alloc");
    }
}

int main()
{
    casts();
    memory();
    try {
        local(true);
    } catch (int) {
        std::puts("not made");
    }
    std::printf("%s %d %zu\n", local(false).name, own, text.size());
    std::atexit([] { std::puts("atexit"); });
    return 3;
}
