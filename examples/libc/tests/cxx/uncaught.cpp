// An exception that nobody catches ends the tenant by abort: breakpoint 6.
// ends: 133
// tells: main
#include <stdexcept>
#include <string>

__attribute__((noinline)) void lower(const std::string &text)
{
    throw std::runtime_error("nobody catches: " + text);
}

int main(int count, char **words)
{
    std::string text = words[count - 1];
    lower(text);
    return 0;
}
