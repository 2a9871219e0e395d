// C++20, as far as clang 14 and its library have it.
// flags: -std=c++20
#include <algorithm>
#include <array>
#include <bit>
#include <compare>
#include <concepts>
#include <iostream>
#include <map>
#include <numbers>
#include <numeric>
#include <ranges>
#include <span>
#include <string>
#include <vector>

template <class T> concept Number = std::integral<T> || std::floating_point<T>;

template <Number T> static T sum(std::span<const T> numbers)
{
    return std::accumulate(numbers.begin(), numbers.end(), T{});
}

struct Version {
    int major = 0, minor = 0;
    auto operator<=>(const Version &) const = default;
};

consteval int square(int number) { return number * number; }

static constinit int counter = square(4);

static int square_of(int number) { return number * number; }

template <class... Parts> static std::string joined(const Parts &...parts)
{
    std::string made;
    ((made += parts, made += '/'), ...);
    return made;
}

int main()
{
    const std::vector<int> numbers{5, 2, 8, 1};
    const std::array<double, 3> fractions{0.5, 0.25, 0.125};
    std::cout << sum<int>(numbers) << ' ' << sum<double>(fractions) << '\n';
    const Version old{.major = 1, .minor = 9}, recent{.major = 2};
    std::cout << (old < recent) << (old == recent) << ((old <=> recent) == 0) << '\n';
    std::cout << counter << ' ' << std::popcount(0xffu) << ' ' << std::bit_ceil(100u) << ' '
              << std::countl_zero(std::uint16_t{1}) << ' ' << std::midpoint(3, 8) << '\n';
    std::vector<std::string> words{"pear", "apple", "fig"};
    std::erase_if(words, [](const std::string &word) { return word.starts_with('p'); });
    for (const auto &word : words)
        std::cout << word << ' ';
    std::map<std::string, int> ages{{"ann", 30}, {"bob", 20}};
    std::erase_if(ages, [](const auto &each) { return each.second < 25; });
    for (int number : std::views::iota(1, 6) | std::views::transform(square_of))
        std::cout << number << ' ';
    std::cout << ages.contains("ann") << ages.contains("bob") << '\n';
    auto twice = []<class T>(T value) requires Number<T> { return value + value; };
    std::cout << twice(21) << ' ' << twice(0.75) << ' ' << joined("a", "bc", "d") << '\n';
    std::cout << std::bit_cast<std::uint64_t>(1.0) << ' ' << std::numbers::pi << '\n';
}
