// Containers, algorithms, smart pointers, strings, functions, regular expressions.
#include <algorithm>
#include <array>
#include <bitset>
#include <chrono>
#include <deque>
#include <forward_list>
#include <functional>
#include <iostream>
#include <iterator>
#include <list>
#include <map>
#include <memory>
#include <numeric>
#include <optional>
#include <queue>
#include <random>
#include <regex>
#include <set>
#include <stack>
#include <string>
#include <string_view>
#include <tuple>
#include <unordered_map>
#include <unordered_set>
#include <utility>
#include <valarray>
#include <variant>
#include <vector>

template <class Range> static void show(const char *name, const Range &range)
{
    std::cout << name << ':';
    for (const auto &each : range)
        std::cout << ' ' << each;
    std::cout << '\n';
}

static void sequences()
{
    std::mt19937 generator(1);
    std::vector<int> numbers(20);
    for (int &number : numbers)
        number = static_cast<int>(generator() % 100);
    show("drawn", numbers);
    std::vector<int> sorted = numbers;
    std::sort(sorted.begin(), sorted.end(), std::greater<>());
    show("sorted", sorted);
    std::stable_sort(sorted.begin(), sorted.end(), [](int a, int b) { return a % 10 < b % 10; });
    show("by the last digit", sorted);
    std::deque<int> both(numbers.begin(), numbers.end());
    for (int turn = 0; turn < 5; turn++) {
        both.push_front(both.back());
        both.pop_back();
    }
    show("turned", both);
    std::list<std::string> words{"pear", "apple", "plum", "fig"};
    words.sort();
    words.remove_if([](const std::string &word) { return word.size() < 4; });
    show("words", words);
    std::forward_list<int> single{3, 1, 2};
    single.reverse();
    show("single", single);
    std::priority_queue<int> queue(numbers.begin(), numbers.end());
    std::stack<int> stack;
    for (; queue.size() > 15; queue.pop())
        stack.push(queue.top());
    std::cout << stack.top() << ' ' << std::accumulate(numbers.begin(), numbers.end(), 0) << '\n';
    std::valarray<int> values{1, 2, 3, 4};
    std::cout << (values * values).sum() << ' ' << std::bitset<10>(777) << '\n';
}

static void maps()
{
    std::map<std::string, int> counts;
    for (const char *word : {"to", "be", "or", "not", "to", "be"})
        counts[word]++;
    for (const auto &[word, count] : counts)
        std::cout << word << ' ' << count << '\n';
    std::unordered_map<int, std::string> names;
    for (int number = 0; number < 1000; number++)
        names.emplace(number * 7919, std::to_string(number));
    std::size_t sum = 0;
    for (const auto &each : names)
        sum += each.second.size();
    std::cout << names.size() << ' ' << sum << ' ' << names.at(7919 * 500) << '\n';
    std::multimap<int, char> letters{{2, 'b'}, {1, 'a'}, {2, 'c'}};
    for (auto [from, to] = letters.equal_range(2); from != to; ++from)
        std::cout << from->second;
    std::set<int> odd{1, 3, 5}, small{1, 2, 3}, shared;
    std::set_intersection(odd.begin(), odd.end(), small.begin(), small.end(),
                          std::inserter(shared, shared.end()));
    show(" shared", shared);
    std::unordered_set<std::string> seen{"a", "b"};
    std::cout << seen.count("a") << seen.count("c") << '\n';
}

struct Node {
    explicit Node(int value) : value(value) {}
    ~Node() { std::cout << "gone " << value << '\n'; }
    int value;
    std::unique_ptr<Node> next;
    std::weak_ptr<Node> other;
};

static void pointers()
{
    auto head = std::make_unique<Node>(1);
    head->next = std::make_unique<Node>(2);
    auto shared = std::make_shared<Node>(3);
    head->other = shared;
    std::cout << shared.use_count() << ' ' << head->other.lock()->value << '\n';
    shared.reset();
    std::cout << head->other.expired() << '\n';
    std::unique_ptr<Node[], void (*)(Node *)> own(new Node(4), [](Node *node) { delete node; });
}

static int twice(int number) { return 2 * number; }

static void functions_and_values()
{
    std::vector<std::function<int(int)>> steps{twice, [](int n) { return n + 1; }, std::negate<>()};
    int base = 10;
    steps.push_back([base, text = std::string(40, 'z')](int n) {
        return n + base + static_cast<int>(text.size());
    });
    int number = 5;
    for (const auto &step : steps)
        number = step(number);
    std::cout << number << ' ' << std::bind(twice, std::placeholders::_1)(4) << '\n';
    std::variant<int, std::string> either = "text";
    std::visit([](const auto &value) { std::cout << value << '\n'; }, either);
    std::optional<int> none, some = 3;
    std::cout << none.value_or(-1) << some.value_or(-1) << '\n';
    auto [a, b, c] = std::make_tuple(1, 'x', std::string_view("view"));
    std::cout << a << b << c.substr(1) << '\n';
    std::array<std::pair<int, double>, 2> pairs{{{1, 0.5}, {2, 0.25}}};
    std::cout << pairs[0].second + pairs[1].second << '\n';
    using namespace std::chrono;
    std::cout << duration_cast<milliseconds>(hours(1) + 30s).count() << '\n';
}

static void texts()
{
    std::string text = "The quick brown fox";
    text.insert(4, "very ").replace(0, 3, "A").append(10, '!');
    std::cout << text << ' ' << text.find("fox") << ' ' << text.rfind("very") << '\n';
    std::reverse(text.begin(), text.end());
    std::transform(text.begin(), text.end(), text.begin(), [](unsigned char c) {
        return static_cast<char>(std::toupper(c));
    });
    std::cout << text << '\n' << std::stod("2.5e3") + std::stol("0x10", nullptr, 16) << '\n';
    const std::regex pattern("([a-z]+)@([a-z]+)\\.org");
    const std::string mail = "write to ann@one.org or bob@two.org";
    for (std::sregex_iterator at(mail.begin(), mail.end(), pattern), end; at != end; ++at)
        std::cout << (*at)[1] << " at " << (*at)[2] << '\n';
    std::cout << std::regex_replace(mail, pattern, "$2:$1") << '\n';
}

int main()
{
    sequences();
    maps();
    pointers();
    functions_and_values();
    texts();
}
