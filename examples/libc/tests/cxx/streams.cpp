// iostream: standard input by words, numbers and lines, formats, streams over strings.
#include <clocale>
#include <iomanip>
#include <iostream>
#include <limits>
#include <locale>
#include <sstream>
#include <string>
#include <vector>

struct Point {
    double x, y;
};

static std::ostream &operator<<(std::ostream &out, const Point &point)
{
    return out << '(' << point.x << ", " << point.y << ')';
}

static std::istream &operator>>(std::istream &in, Point &point)
{
    char comma = 0;
    if (in >> point.x >> comma >> point.y && comma != ',')
        in.setstate(std::ios::failbit);
    return in;
}

static void formats()
{
    std::cout << std::hex << std::showbase << 255 << ' ' << std::oct << 8 << std::dec << '\n'
              << std::setw(8) << 42 << '|' << std::left << std::setw(8) << 42 << '|' << std::right
              << std::setfill('*') << std::setw(8) << -42 << std::setfill(' ') << '\n'
              << std::boolalpha << true << ' ' << std::showpos << 5 << std::noshowpos << '\n';
    for (double number : {0.1, 1.0 / 3, 1e100, 12345678.9, -0.0, 5e-324})
        std::cout << number << ' ' << std::fixed << std::setprecision(3) << number << ' '
                  << std::scientific << number << std::defaultfloat << std::setprecision(17) << ' '
                  << number << std::setprecision(6) << '\n';
    std::cout << std::numeric_limits<double>::infinity() << ' ' << 1.5f << ' '
              << std::quoted("a \"quoted\" text") << ' ' << std::hexfloat << 0.5
              << std::defaultfloat << '\n'
              << std::use_facet<std::numpunct<char>>(std::locale()).decimal_point()
              << std::isalpha('x', std::locale::classic()) << '\n';
}

static void over_strings()
{
    std::istringstream in("10 2.5 word (rest of it) 0x1f");
    int number = 0;
    double fraction = 0;
    std::string word, rest;
    in >> number >> fraction >> word >> std::ws;
    std::getline(in, rest, ')');
    in >> std::hex >> number;
    std::cout << number << ' ' << fraction << ' ' << word << " [" << rest << "] " << in.eof()
              << '\n';
    in >> number;
    std::cout << in.fail() << in.bad() << '\n';
    std::ostringstream out;
    for (int i = 0; i < 2000; i++)
        out << i << ',';
    std::cout << out.str().size() << '\n';
    std::istringstream point("1.5,2");
    Point read{};
    point >> read;
    std::cout << read << '\n';
    std::stringstream both;
    both.exceptions(std::ios::failbit);
    try {
        both >> number;
    } catch (const std::ios_base::failure &) {
        std::cout << "failure\n";
    }
}

static void standard_input()
{
    std::string line, word;
    std::getline(std::cin, line);
    std::cout << "line: " << line << '\n';
    long sum = 0, count = 0;
    for (long number; std::cin >> number; count++)
        sum += number;
    std::cin.clear();
    std::cin >> word;
    std::cout << count << " numbers, " << sum << ", then " << word << '\n';
    std::vector<std::size_t> lengths;
    while (std::getline(std::cin, line))
        lengths.push_back(line.size());
    for (std::size_t length : lengths)
        std::cout << length << ' ';
    std::cout << std::cin.eof() << '\n';
}

int main()
{
    formats();
    over_strings();
    standard_input();
    std::cout << "the end" << std::endl;
}
