// Exceptions: through frames with destructors, from constructors and library calls, kept and thrown
// again, nested, by a class and by its base.
#include <algorithm>
#include <any>
#include <bitset>
#include <cstdint>
#include <cstdio>
#include <exception>
#include <functional>
#include <limits>
#include <new>
#include <optional>
#include <stdexcept>
#include <string>
#include <typeinfo>
#include <variant>
#include <vector>

struct Trace {
    explicit Trace(const char *name) : name(name) { std::printf("+%s ", name); }
    ~Trace() { std::printf("-%s%s ", name, std::uncaught_exceptions() ? "!" : ""); }
    const char *name;
};

struct Wrong : std::runtime_error {
    Wrong(const std::string &text, int number) : std::runtime_error(text), number(number) {}
    int number;
};

static int third(int number)
{
    Trace trace("third");
    if (number > 2)
        throw Wrong("too large: " + std::to_string(number), number);
    return number;
}

static int second(int number)
{
    Trace trace("second");
    std::string text(100, 'x');
    return third(number) + static_cast<int>(text.size());
}

static int first(int number)
{
    Trace trace("first");
    std::vector<std::string> texts(3, std::string(50, 'y'));
    return second(number) + static_cast<int>(texts.size());
}

static void through_frames()
{
    for (int number = 1; number < 5; number += 2) {
        try {
            std::printf("= %d\n", first(number));
        } catch (const Wrong &wrong) {
            std::printf("= %s, %d\n", wrong.what(), wrong.number);
        }
    }
}

struct Parts {
    Parts() : one("one"), two("two") { throw 42; }
    Trace one, two;
};

struct Tried {
    Tried() try : parts() {
    } catch (int number) {
        std::printf("tried %d ", number);
    }
    Parts parts;
};

static void from_constructors()
{
    try {
        Tried tried;
    } catch (int number) {
        std::printf("= %d\n", number);
    }
    try {
        Trace *made = new Trace[2]{Trace("a"), (throw "text", Trace("b"))};
        delete[] made;
    } catch (const char *text) {
        std::printf("= %s\n", text);
    }
}

template <class Expected, class Call> static void expect(const char *name, Call call)
{
    try {
        call();
        std::printf("%s: nothing\n", name);
    } catch (const Expected &) {
        std::printf("%s: yes\n", name);
    } catch (...) {
        std::printf("%s: another\n", name);
    }
}

static volatile std::size_t huge = std::numeric_limits<std::size_t>::max() / 4;
static void *volatile taken;

static void from_the_library()
{
    std::vector<int> numbers{1, 2, 3};
    struct Base { virtual ~Base() = default; } base;
    struct Derived : Base {};
    Base *none = nullptr;
    expect<std::out_of_range>("at", [&] { return numbers.at(3); });
    expect<std::length_error>("reserve", [&] { numbers.reserve(huge * 2); });
    expect<std::bad_alloc>("new", [] { taken = new char[huge]; });
    expect<std::bad_alloc>("new[-1]", [] { taken = new int[huge * 2]; });
    expect<std::invalid_argument>("stoi", [] { return std::stoi("none"); });
    expect<std::out_of_range>("stoi", [] { return std::stoi("99999999999"); });
    expect<std::bad_cast>("dynamic_cast", [&] { return &dynamic_cast<Derived &>(base); });
    expect<std::bad_typeid>("typeid", [&] { return typeid(*none).name(); });
    expect<std::bad_function_call>("function", [] { std::function<void()>()(); });
    expect<std::bad_optional_access>("optional", [] { return std::optional<int>().value(); });
    expect<std::bad_variant_access>("variant", [] {
        return std::get<1>(std::variant<int, long>(1));
    });
    expect<std::bad_any_cast>("any", [] { return std::any_cast<int>(std::any(1L)); });
    expect<std::invalid_argument>("bitset", [] { return std::bitset<8>(std::string("012")); });
    expect<std::logic_error>("substr", [] { return std::string("abc").substr(4); });
    expect<Wrong>("sort", [&] {
        std::sort(numbers.begin(), numbers.end(), [](int, int) -> bool { throw Wrong("", 0); });
    });
}

static void print_nested(const std::exception &outer, int depth)
{
    std::printf("%*s%s\n", depth * 2, "", outer.what());
    try {
        std::rethrow_if_nested(outer);
    } catch (const std::exception &inner) {
        print_nested(inner, depth + 1);
    }
}

static void kept_and_nested()
{
    std::exception_ptr kept;
    try {
        throw Wrong("kept", 7);
    } catch (...) {
        kept = std::current_exception();
    }
    for (int turn = 0; turn < 2; turn++) {
        try {
            std::rethrow_exception(kept);
        } catch (const std::runtime_error &error) {
            std::printf("%s %d\n", error.what(), dynamic_cast<const Wrong &>(error).number);
        }
    }
    try {
        try {
            try {
                throw std::range_error("innermost");
            } catch (...) {
                std::throw_with_nested(std::logic_error("middle"));
            }
        } catch (...) {
            std::throw_with_nested(Wrong("outermost", 1));
        }
    } catch (const std::exception &error) {
        print_nested(error, 0);
    }
}

static void thrown_again()
{
    try {
        try {
            throw Wrong("again", 1);
        } catch (std::exception &error) {
            std::printf("%s ", typeid(error) == typeid(Wrong) ? "Wrong" : "?");
            throw;
        }
    } catch (Wrong &wrong) {
        std::printf("%s\n", wrong.what());
    }
    int sum = 0;
    for (int turn = 0; turn < 500; turn++) {
        try {
            throw turn;
        } catch (int number) {
            sum += number;
        }
    }
    std::printf("%d\n", sum);
}

int main()
{
    through_frames();
    from_constructors();
    from_the_library();
    kept_and_nested();
    thrown_again();
    return 7;
}
